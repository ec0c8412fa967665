//! The three forms in which words are read and written.

use clap::ValueEnum;

use crate::document::Document;
use crate::numbers::digits;
use crate::text::{Fault, numbered, quoted};

/// Words on a line of the hexadecimal form.
const ROW: usize = 8;

/// What some programs put before a text.
const MARK: char = '\u{FEFF}';

/// How words stand in a file.
#[derive(Clone, Copy, Debug, PartialEq, Eq, ValueEnum)]
pub enum Form {
    /// One node a line, indented under what it belongs to.
    Text,
    /// Eight hexadecimal digits a word, with white space or commas between; 0x, _ and # comments may stand in it.
    Hex,
    /// Four bytes a word, the most significant first.
    Binary,
}

impl Form {
    /// The form of these bytes. Every sheet and record has a byte below 4 in its binary form, and no node of the text form is a hexadecimal number.
    pub fn of(bytes: &[u8]) -> Self {
        match str::from_utf8(bytes) {
            Ok(text) if is_plain(text) => Self::of_text(text),
            _ => Self::Binary,
        }
    }

    fn of_text(text: &str) -> Self {
        let mut words = unmarked(text).lines().flat_map(hex_words);
        if words.next().is_none_or(is_hex) {
            Self::Hex
        } else {
            Self::Text
        }
    }

    /// The words that bytes of this form say, and in the text form the line of each; or what is wrong with them.
    pub fn read(self, bytes: &[u8]) -> Result<(Vec<u32>, Option<Vec<usize>>), String> {
        let said = |fault: Fault| fault.to_string();
        match self {
            Self::Text => {
                let (words, lines) = numbered(utf8(bytes)?).map_err(said)?;
                Ok((words, Some(lines)))
            }
            Self::Hex => Ok((from_hex(utf8(bytes)?).map_err(said)?, None)),
            Self::Binary => Ok((from_binary(bytes)?, None)),
        }
    }

    /// An accepted document in this form.
    pub fn write(self, document: &Document<'_>) -> Vec<u8> {
        let words = document.words();
        match self {
            Self::Text => document.to_string().into_bytes(),
            Self::Hex => to_hex(words).into_bytes(),
            Self::Binary => words.iter().flat_map(|word| word.to_be_bytes()).collect(),
        }
    }
}

/// What bytes look like that were taken for binary words, and perhaps are a text that can't be read. Words may look so too: it is told only of bytes that
/// are no document's words.
pub fn mistaken(bytes: &[u8]) -> Option<String> {
    if [u16::from_le_bytes, u16::from_be_bytes]
        .into_iter()
        .filter_map(|unit| utf16(bytes, unit))
        .any(|text| is_plain(&text) && !text.trim().is_empty())
    {
        return Some("a text in UTF-16, where UTF-8 is due".to_owned());
    }
    let text = str::from_utf8(bytes).ok()?;
    let (at, first) = text
        .char_indices()
        .find(|(_, found)| !is_plain_char(*found))?;
    let faults = text.chars().filter(|found| !is_plain_char(*found)).count();
    // Words have more of them: of their bytes most are 0.
    if 4 * faults >= text.len() {
        return None;
    }
    let line = text[..at].matches('\n').count() + 1;
    let found = match first {
        '\0' => "a NUL".to_owned(),
        other => format!("a control character ({})", other.escape_unicode()),
    };
    Some(format!("{found} in line {line} of a text"))
}

/// The text of 16-bit units, of which most of a text in Latin letters have an upper half of 0.
fn utf16(bytes: &[u8], unit: fn([u8; 2]) -> u16) -> Option<String> {
    let (pairs, []) = bytes.as_chunks() else {
        return None;
    };
    let units: Vec<u16> = pairs.iter().copied().map(unit).collect();
    let latin = units.iter().filter(|unit| **unit < 0x100).count();
    let text = String::from_utf16(&units).ok()?;
    (2 * latin > units.len()).then(|| unmarked(&text).to_owned())
}

/// Whether a text has no control character but white space.
fn is_plain(text: &str) -> bool {
    text.chars().all(is_plain_char)
}

fn is_plain_char(found: char) -> bool {
    found.is_whitespace() || !found.is_control()
}

fn unmarked(text: &str) -> &str {
    text.strip_prefix(MARK).unwrap_or(text)
}

/// The text that bytes are.
pub fn utf8(bytes: &[u8]) -> Result<&str, String> {
    let text = str::from_utf8(bytes);
    let no_text = |error| mistaken(bytes).unwrap_or_else(|| format!("no text: {error}"));
    Ok(unmarked(text.map_err(no_text)?))
}

/// The words of a line, without its comment.
fn hex_words(line: &str) -> impl Iterator<Item = &str> {
    let between = |found: char| found == ',' || found.is_whitespace();
    let said = line.split('#').next().unwrap_or_default();
    said.split(between).filter(|word| !word.is_empty())
}

fn is_hex(word: &str) -> bool {
    let digits = digits(word);
    !digits.is_empty() && digits.bytes().all(|byte| byte.is_ascii_hexdigit())
}

fn from_hex(text: &str) -> Result<Vec<u32>, Fault> {
    let lines = text.lines().zip(1..);
    let words = lines.flat_map(|(line, number)| hex_words(line).map(move |word| (word, number)));
    words.map(|(word, line)| hex_word(word, line)).collect()
}

fn hex_word(word: &str, line: usize) -> Result<u32, Fault> {
    let digits = Some(digits(word)).filter(|digits| digits.len() == 8 && is_hex(word));
    let value = digits.and_then(|digits| u32::from_str_radix(&digits, 16).ok());
    value.ok_or_else(|| Fault {
        line,
        found: quoted(word),
        due: "a word of eight hexadecimal digits".to_owned(),
    })
}

fn to_hex(words: &[u32]) -> String {
    let row = |row: &[u32]| {
        let words: Vec<String> = row.iter().map(|word| format!("{word:08X}")).collect();
        words.join(" ") + "\n"
    };
    words.chunks(ROW).map(row).collect()
}

fn from_binary(bytes: &[u8]) -> Result<Vec<u32>, String> {
    let (words, rest) = bytes.as_chunks();
    if rest.is_empty() {
        Ok(words.iter().copied().map(u32::from_be_bytes).collect())
    } else {
        let bytes = bytes.len();
        Err(format!(
            "{bytes} bytes are no whole binary words of four bytes"
        ))
    }
}
