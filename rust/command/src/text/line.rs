//! Lines of a text form, and what can be wrong with one.

use std::error::Error;
use std::fmt::{self, Display, Formatter};

/// Spaces for each level.
pub const STEP: usize = 2;

/// Characters of a found word that a message shows.
const SHOWN: usize = 40;

/// Why a text form says no words.
#[derive(Clone, Debug, PartialEq, Eq)]
pub struct Fault {
    /// The line's number, from 1.
    pub line: usize,
    /// What stands there.
    pub found: String,
    /// What ought to.
    pub due: String,
}

impl Display for Fault {
    fn fmt(&self, f: &mut Formatter<'_>) -> fmt::Result {
        let Self { line, found, due } = self;
        write!(f, "line {line}: found {found}, but {due} is due")
    }
}

impl Error for Fault {}

/// A line that says something, without its comment.
#[derive(Clone, Copy, Debug)]
pub struct Line<'t> {
    /// Its number, from 1.
    pub number: usize,
    /// Spaces before its first word.
    spaces: usize,
    /// What stands after them.
    pub content: &'t str,
}

impl<'t> Line<'t> {
    /// How many levels the line stands below the margin.
    pub fn depth(&self) -> Result<usize, Fault> {
        if self.content.starts_with(char::is_whitespace) {
            return Err(self.fault("an indentation by a tab or the like", "one by spaces"));
        }
        if !self.spaces.is_multiple_of(STEP) {
            let due = "one of two spaces for each level";
            return Err(self.fault(&self.indentation(), due));
        }
        Ok(self.spaces / STEP)
    }

    /// Its first word. No line that says something is without one.
    pub fn name(&self) -> &'t str {
        self.content.split_whitespace().next().unwrap_or_default()
    }

    /// What this line's fault is.
    pub fn fault(&self, found: &str, due: &str) -> Fault {
        Fault {
            line: self.number,
            found: found.to_owned(),
            due: due.to_owned(),
        }
    }

    /// The indentation in a message's words.
    pub fn indentation(&self) -> String {
        format!("an indentation of {}", self.spaces)
    }

    fn read(number: usize, line: &'t str) -> Option<Self> {
        let (said, _) = line.split_once('#').unwrap_or((line, ""));
        let said = said.trim_end();
        let content = said.trim_start_matches(' ');
        (!content.is_empty()).then_some(Self {
            number,
            spaces: said.len() - content.len(),
            content,
        })
    }
}

/// The lines that say something.
pub fn lines(text: &str) -> impl Iterator<Item = Line<'_>> {
    let numbered = text.lines().zip(1..);
    numbered.filter_map(|(line, number)| Line::read(number, line))
}

/// A found word in a message: short, and on one line whatever it holds.
pub fn quoted(word: &str) -> String {
    let shown: String = word.chars().take(SHOWN).collect();
    let more = if shown.len() < word.len() { ".." } else { "" };
    format!("`{}{more}`", shown.escape_debug())
}
