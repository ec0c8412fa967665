//! Two tables joined, by a match on each pair of readings. The original has no such call.

use gatekeep::Presence::{self, Absent, Present, Unknown};

use crate::refusal::Refusal;
use crate::words::TABLE_BYTES;
use crate::words::table::{Table, pack};

/// Two tables and the output's length in bytes.
#[derive(Clone, Debug, PartialEq, Eq)]
pub struct Join {
    /// One table's bytes.
    pub one: Vec<u8>,
    /// The other's.
    pub two: Vec<u8>,
    /// The output's length.
    pub room: usize,
}

impl Join {
    /// The bytes written, or why the call is turned back.
    pub fn answer(&self) -> Result<Vec<u8>, Refusal> {
        let bytes = self.one.len().max(self.two.len());
        if bytes > TABLE_BYTES {
            return Err(Refusal::TableLength);
        }
        let (one, two) = (Table::partial(&self.one)?, Table::partial(&self.two)?);
        let facts = (0..).take(4 * bytes);
        let joined = facts.map(|fact| join(one.presence(fact), two.presence(fact)));
        let joined: Vec<u8> = joined.collect::<Result<_, _>>()?;
        if bytes > self.room {
            return Err(Refusal::Room);
        }
        Ok(pack(&joined))
    }

    /// `ONE TWO ROOM`.
    pub fn line(&self) -> String {
        let Self { one, two, room } = self;
        format!("{one:02X?} {two:02X?} {room}")
    }
}

/// The field of a fact that the tables read so.
fn join(one: Presence, two: Presence) -> Result<u8, Refusal> {
    match (one, two) {
        (Absent, Absent | Unknown) | (Unknown, Absent) => Ok(0),
        (Present, Present | Unknown) | (Unknown, Present) => Ok(1),
        (Unknown, Unknown) => Ok(2),
        (Absent, Present) | (Present, Absent) => Err(Refusal::Clash),
    }
}
