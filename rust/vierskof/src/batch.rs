//! A batch of requests, each decided by the sheet in force, within an allowance of visited nodes.

use core::iter::FusedIterator;

use crate::calls::{value, written};
use crate::{Levels, REQUEST_WORDS, Refusal, TABLE_BYTES, c};

/// A request of a batch: the group and the day that say which sheet is in force, and a known table.
///
/// ```
/// use vierskof::{Fact, FactTable, Presence, Request};
///
/// const MEMBER: Fact = Fact::new(5).unwrap();
///
/// let facts = FactTable::new().with(MEMBER, Presence::Present);
/// let request = Request {
///     group: 1,
///     day: 10,
///     facts: facts.as_bytes(),
/// };
/// assert_eq!(request.words()[..3], [0x0100_0002, 10, 0x0010_0000]);
/// ```
#[derive(Clone, Copy, Debug, PartialEq, Eq, Hash)]
pub struct Request<'t> {
    /// The group.
    pub group: u8,
    /// The day, counted from 1900-01-01, which is day 0.
    pub day: u32,
    /// The known table.
    pub facts: &'t [u8],
}

impl Request<'_> {
    /// Its words: [`evaluate_batch`] takes those of all requests, one after the other.
    ///
    /// Of a table of over 256 bytes only the first 256 stand in them; its length does, so that the request is refused as too long a table is.
    #[must_use]
    pub fn words(&self) -> [u32; REQUEST_WORDS] {
        let mut bytes = [0; TABLE_BYTES];
        for (byte, said) in bytes.iter_mut().zip(self.facts) {
            *byte = *said;
        }
        let length = u32::try_from(self.facts.len()).map_or(MOST, |length| length.min(MOST));
        let mut words = [0; REQUEST_WORDS];
        let [lead, day, table @ ..] = &mut words;
        *lead = u32::from(self.group) << 24 | length;
        *day = self.day;
        for (word, four) in table.iter_mut().zip(bytes.as_chunks().0) {
            *word = u32::from_be_bytes(*four);
        }
        words
    }
}

/// The greatest length that a request's field holds.
const MOST: u32 = 0x00FF_FFFF;

/// Sheets that are handed over with their numbers, in words that its caller lends.
///
/// ```
/// use vierskof::{Refusal, SheetList};
///
/// let mut words = [0; 5];
/// let mut sheets = SheetList::new(&mut words);
/// sheets.push(7, &[0x8800_0003, 0x0000_0000, 0x2000_0005])?;
/// assert_eq!(sheets.words(), [0x0007_0003, 0x8800_0003, 0x0000_0000, 0x2000_0005]);
/// assert_eq!(sheets.push(9, &[0x6000_0001]), Err(Refusal::Room));
/// # Ok::<(), Refusal>(())
/// ```
#[derive(Debug)]
pub struct SheetList<'w> {
    words: &'w mut [u32],
    used: usize,
}

impl<'w> SheetList<'w> {
    /// A list without sheets, and the words that it may have: one for each sheet, and the sheet's own.
    #[must_use]
    pub const fn new(words: &'w mut [u32]) -> Self {
        Self { words, used: 0 }
    }

    /// Hands a sheet over. Of several with one number the first counts, and it is judged when it decides a request, not here.
    ///
    /// # Errors
    ///
    /// [`Refusal::Length`] for over 65,535 words, which a list can't say, and [`Refusal::Room`] if they don't fit. The list is then as it was.
    pub fn push(&mut self, number: u16, sheet: &[u32]) -> Result<(), Refusal> {
        let count = u16::try_from(sheet.len()).map_err(|_| Refusal::Length)?;
        let rest = self.words.get_mut(self.used..).unwrap_or_default();
        let (lead, rest) = rest.split_first_mut().ok_or(Refusal::Room)?;
        let place = rest.get_mut(..sheet.len()).ok_or(Refusal::Room)?;
        *lead = u32::from(number) << 16 | u32::from(count);
        place.copy_from_slice(sheet);
        self.used += 1 + sheet.len();
        Ok(())
    }

    /// The words of the list, as [`evaluate_batch`] takes them.
    #[must_use]
    pub fn words(&self) -> &[u32] {
        self.words.get(..self.used).unwrap_or_default()
    }
}

/// What a request comes to.
#[derive(Clone, Copy, Debug, PartialEq, Eq, Hash)]
pub enum Reply<'o> {
    /// No sheet is in force for it, or that sheet wasn't handed over. Its table isn't read.
    None,
    /// It is refused, takes nothing from the allowance and writes nothing.
    Refused(Refusal),
    /// It is decided, as [`evaluate`](crate::evaluate) with the sheet's number decides it.
    Decided {
        /// The record.
        record: &'o [u32],
        /// How many nodes were visited.
        nodes: u16,
    },
}

/// The replies to a batch, in the order of its requests.
#[derive(Clone, Debug)]
pub struct Replies<'o> {
    replies: &'o [u64],
    /// The records of these, one after the other.
    records: &'o [u32],
}

impl<'o> Iterator for Replies<'o> {
    type Item = Reply<'o>;

    fn next(&mut self) -> Option<Reply<'o>> {
        let (&reply, rest) = self.replies.split_first()?;
        self.replies = rest;
        Some(match value(reply) {
            Err(refusal) => Reply::Refused(refusal),
            Ok(0) => Reply::None,
            Ok(both) => {
                // It is proved that the records stand there, so nothing is cut short.
                let words = (both & 0xFFFF) as usize;
                let (record, rest) = self.records.split_at(words.min(self.records.len()));
                self.records = rest;
                let nodes = (both >> 16) as u16;
                Reply::Decided { record, nodes }
            }
        })
    }

    fn size_hint(&self) -> (usize, Option<usize>) {
        (self.replies.len(), Some(self.replies.len()))
    }
}

impl ExactSizeIterator for Replies<'_> {}

impl FusedIterator for Replies<'_> {}

/// Decides a batch of requests, each by the sheet in force and as [`evaluate`](crate::evaluate) does with its number, within an allowance of visited nodes.
///
/// `register` is a register's words, `sheets` those of a [`SheetList`], `requests` those of up to 64 [`Request`]s, one after the other. The records follow one
/// another from the start of `out`, and `replies` has a place for each request. Later words and places are left as they were, and so is all of both when the
/// batch is refused.
///
/// A node counts each time that evaluation visits it, policy and condition alike; never are there more than the sheet has words. What a request leaves of the
/// allowance, and of the output, is for those after it. One that is refused, be it for the allowance or for the room, takes nothing, and those after it are
/// still tried.
///
/// # Errors
///
/// Of the batch [`Refusal::Length`] for over 64 requests or a partial one, then [`Refusal::Register`], then [`Refusal::WordsEnd`] for a list of sheets that
/// ends early, then [`Refusal::Room`] for fewer places than requests. A request is refused in its [`Reply`]: as by the direct call, but
/// for [`Refusal::Allowance`], which stands before [`Refusal::Room`].
///
/// # Examples
///
/// ```
/// use vierskof::{Entry, Refusal, Reply, Request, SheetList};
///
/// let entry = Entry { group: 1, number: 7, day: 0, withdrawn: false };
/// let register = entry.words();
/// let mut words = [0; 8];
/// let mut sheets = SheetList::new(&mut words);
/// sheets.push(7, &[0x8800_0003, 0x0000_0000, 0x2000_0005])?;
///
/// // Two requests of group 1, and between them one of group 2, for which nothing is in force.
/// let of = |group| Request { group, day: 10, facts: &[0x00, 0x10] }.words();
/// let requests = [of(1), of(2), of(1)];
/// let (mut replies, mut out) = ([0; 3], [0; 16]);
/// let requests = requests.as_flattened();
/// let mut told =
///     vierskof::evaluate_batch(&register, sheets.words(), requests, 3, &mut replies, &mut out)?;
///
/// // A Grant and its condition are two nodes of the three.
/// let record = &[0xE000_7001, 0x4005_0000, 0xC000_0003, 0x0000_0001, 0x0005_0000][..];
/// assert_eq!(told.next(), Some(Reply::Decided { record, nodes: 2 }));
/// assert_eq!(told.next(), Some(Reply::None));
/// assert_eq!(told.next(), Some(Reply::Refused(Refusal::Allowance)));
/// assert_eq!(told.next(), None);
/// # Ok::<(), Refusal>(())
/// ```
pub fn evaluate_batch<'o>(
    register: &[u32],
    sheets: &[u32],
    requests: &[u32],
    allowance: u16,
    replies: &'o mut [u64],
    out: &'o mut [u32],
) -> Result<Replies<'o>, Refusal> {
    let returned = c::evaluate_batch(register, sheets, requests, allowance, replies, out);
    told(returned, requests, replies, out)
}

/// Decides a batch as [`evaluate_batch`] does, but by levels, which are the same for all of it.
///
/// # Errors
///
/// Those of [`evaluate_batch`], with outcomes as in [`evaluate_by_levels`](crate::evaluate_by_levels).
///
/// # Examples
///
/// ```
/// use vierskof::{Entry, Levels, Reply, Request, SheetList};
///
/// let register = Entry { group: 1, number: 7, day: 0, withdrawn: false }.words();
/// let mut words = [0; 4];
/// let mut sheets = SheetList::new(&mut words);
/// sheets.push(7, &[0x9000_0002, 0x6000_0001, 0x6000_0002])?;
/// let request = Request { group: 1, day: 10, facts: &[] }.words();
/// let (levels, mut replies, mut out) = (Levels::chain(3)?, [0], [0; 4]);
/// let mut told = vierskof::evaluate_batch_by_levels(
///     &levels, &register, sheets.words(), &request, 9, &mut replies, &mut out,
/// )?;
/// let record = &[0xE000_7000, 0xC000_0001, 0x0000_0000][..];
/// assert_eq!(told.next(), Some(Reply::Decided { record, nodes: 3 }));
/// # Ok::<(), vierskof::Refusal>(())
/// ```
pub fn evaluate_batch_by_levels<'o>(
    levels: &Levels,
    register: &[u32],
    sheets: &[u32],
    requests: &[u32],
    allowance: u16,
    replies: &'o mut [u64],
    out: &'o mut [u32],
) -> Result<Replies<'o>, Refusal> {
    let (count, outcomes) = levels.parts();
    let returned = c::evaluate_batch_by_levels(
        count, outcomes, register, sheets, requests, allowance, replies, out,
    );
    told(returned, requests, replies, out)
}

/// The replies, if the batch was not refused.
fn told<'o>(
    returned: u64,
    requests: &[u32],
    replies: &'o mut [u64],
    out: &'o mut [u32],
) -> Result<Replies<'o>, Refusal> {
    let records = written(returned, out)?;
    let count = requests.len() / REQUEST_WORDS;
    let replies = replies.get(..count).ok_or(Refusal::Room)?;
    Ok(Replies { replies, records })
}
