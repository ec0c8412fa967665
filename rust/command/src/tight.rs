//! Tight forms as they are given: what a run of bytes is taken for, and where a refusal of it comes from.

use vierskof::{
    RECORD_WORDS, Refusal, SHEET_WORDS, TIGHT_BYTES, pack_record, pack_sheet, unpack_record,
    unpack_sheet,
};

use crate::document::is_record;
use crate::facts;
use crate::given::last_of_shortest;

/// A proved call that packs.
pub type Pack = for<'o> fn(&[u32], &'o mut [u8]) -> Result<&'o [u8], Refusal>;

/// A proved call that unpacks.
pub type Unpack = for<'o> fn(&[u8], &'o mut [u32]) -> Result<&'o [u32], Refusal>;

/// The call that packs these words, told by the kind that they begin with.
pub fn packing(words: &[u32]) -> Pack {
    if is_record(words) {
        pack_record
    } else {
        pack_sheet
    }
}

/// Whether bytes begin as a record does. No sheet begins with kind 14 or 15.
pub fn begins_record(bytes: &[u8]) -> bool {
    bytes.first().is_some_and(|byte| byte >> 4 >= 14)
}

/// Bytes, and whether they are taken for a record's or a sheet's.
#[derive(Clone, Debug)]
pub struct Tight {
    /// The bytes.
    pub bytes: Vec<u8>,
    /// Whether a record is due.
    pub record: bool,
}

impl Tight {
    /// The words, in an output that has room for every sheet or record.
    pub fn unpack(&self) -> Result<Vec<u32>, Refusal> {
        unpacked(self.call(), &self.bytes)
    }

    fn call(&self) -> Unpack {
        if self.record {
            unpack_record
        } else {
            unpack_sheet
        }
    }

    /// Where the bytes are refused. The last byte of the shortest beginning that is refused for the same cause is the one; shorter ones end too early.
    pub fn place(&self, refusal: Refusal) -> Option<String> {
        let bytes = self.bytes.len();
        match refusal {
            Refusal::Length => Some(format!(
                "{bytes} bytes, where at most {TIGHT_BYTES} are due"
            )),
            Refusal::BitsEnd if bytes == 0 => Some("there is no byte".to_owned()),
            Refusal::BitsEnd => Some(format!("after byte {bytes}, the last")),
            Refusal::Room => {
                let most = if self.record {
                    RECORD_WORDS
                } else {
                    SHEET_WORDS
                };
                Some(format!("over {most} words"))
            }
            Refusal::Kind | Refusal::Level | Refusal::Field | Refusal::Filler => {
                let at = last_of_shortest(bytes, |length| {
                    unpacked(self.call(), &self.bytes[..length]) == Err(refusal)
                });
                Some(format!("byte {}, {:02X}", at + 1, self.bytes[at]))
            }
            _ => None,
        }
    }

    /// What bytes look like that are refused: digits that nobody said are digits.
    pub fn mistaken(&self) -> Option<&'static str> {
        let text = str::from_utf8(&self.bytes).ok()?;
        let digits = facts::bytes(text).is_ok_and(|bytes| !bytes.0.is_empty());
        digits.then_some("hexadecimal digits, which --hex takes")
    }
}

fn unpacked(call: Unpack, bytes: &[u8]) -> Result<Vec<u32>, Refusal> {
    let mut out = vec![0; RECORD_WORDS];
    call(bytes, &mut out).map(<[u32]>::to_vec)
}
