//! Request 10's batch by a plain desk over the original: register, sheets and requests are read here, and the nodes are counted over the original's trees.

use gatekeep::{Condition, DenyShape, Effect, KnownFacts, Policy};

use crate::levels::{Given, by_levels};
use crate::products::Products;
use crate::reference;
use crate::refusal::Refusal;
use crate::register::Question;
use crate::words::table::Table;
use crate::words::{RECORD_WORDS, convert, read};

/// Words of a request.
pub const REQUEST_WORDS: usize = 66;
/// The most requests.
pub const MOST: usize = 64;

/// A batch as it is given.
#[derive(Clone, Debug, PartialEq, Eq)]
pub struct Batch {
    /// The outcome table, if outcomes are levels.
    pub levels: Option<Given>,
    /// The register's words.
    pub register: Vec<u32>,
    /// The words of the sheets that are handed over.
    pub sheets: Vec<u32>,
    /// The requests' words.
    pub requests: Vec<u32>,
    /// The allowance of visited nodes, which may be one that is refused.
    pub allowance: u32,
    /// How many replies there is room for.
    pub places: usize,
    /// The room of the output in words.
    pub room: usize,
}

/// What a request comes to.
#[derive(Clone, Debug, PartialEq, Eq)]
pub enum Reply {
    /// No sheet in force, or it isn't in the list.
    None,
    /// Refused.
    Refused(Refusal),
    /// Decided.
    Decided {
        /// The record.
        record: Vec<u32>,
        /// The nodes that were visited.
        nodes: usize,
    },
}

impl Reply {
    /// What the C interface says.
    pub fn number(&self) -> u64 {
        match self {
            Self::None => 0,
            Self::Refused(refusal) => u64::from(refusal.number()) << 32,
            Self::Decided { record, nodes } => (*nodes as u64) << 16 | record.len() as u64,
        }
    }

    /// The record, of which one that isn't decided has no word.
    pub fn record(&self) -> &[u32] {
        match self {
            Self::Decided { record, .. } => record,
            Self::None | Self::Refused(_) => &[],
        }
    }

    /// The nodes that it takes from the allowance.
    pub const fn nodes(&self) -> usize {
        match self {
            Self::Decided { nodes, .. } => *nodes,
            Self::None | Self::Refused(_) => 0,
        }
    }
}

/// A request, read.
#[derive(Clone, Debug, PartialEq, Eq)]
pub struct Request {
    /// The group.
    pub group: u32,
    /// The day.
    pub day: u32,
    /// The length that it says its table has.
    pub length: usize,
    /// The table; all of the bytes that there are, where it says that there are more.
    pub table: Vec<u8>,
}

impl Request {
    /// The request that 66 words are.
    pub fn of(words: &[u32; REQUEST_WORDS]) -> Self {
        let [lead, day, table @ ..] = words;
        let [group, high, middle, low] = lead.to_be_bytes();
        let length = u32::from_be_bytes([0, high, middle, low]) as usize;
        let bytes = table.iter().flat_map(|word| word.to_be_bytes());
        Self {
            group: u32::from(group),
            day: *day,
            length,
            table: bytes.take(length).collect(),
        }
    }
}

/// The sheets of a list with their numbers, unless it ends early.
pub fn handed(mut words: &[u32]) -> Option<Vec<(u16, &[u32])>> {
    let mut sheets = Vec::new();
    while let Some((lead, rest)) = words.split_first() {
        let [a, b, c, d] = lead.to_be_bytes();
        let (sheet, rest) = rest.split_at_checked(u16::from_be_bytes([c, d]).into())?;
        sheets.push((u16::from_be_bytes([a, b]), sheet));
        words = rest;
    }
    Some(sheets)
}

impl Batch {
    /// The replies, or why the batch is turned back.
    pub fn answer(&self) -> Result<Vec<Reply>, Refusal> {
        match &self.levels {
            Some(levels) => by_levels(levels, || self.replies())?,
            None => self.replies(),
        }
    }

    fn replies(&self) -> Result<Vec<Reply>, Refusal> {
        let (requests, []) = self.requests.as_chunks::<REQUEST_WORDS>() else {
            return Err(Refusal::Length);
        };
        if requests.len() > MOST || self.allowance > 0xFFFF {
            return Err(Refusal::Length);
        }
        self.asked(0, 0)?;
        let sheets = handed(&self.sheets).ok_or(Refusal::Ended)?;
        if self.places < requests.len() {
            return Err(Refusal::Room);
        }
        let (mut left, mut room) = (self.allowance as usize, self.room);
        let replies = requests.iter().map(|words| {
            let reply = self.reply(&Request::of(words), &sheets, left, room);
            left -= reply.nodes();
            room -= reply.record().len();
            reply
        });
        Ok(replies.collect())
    }

    /// The sheet in force.
    fn asked(&self, group: u32, day: u32) -> Result<Option<u16>, Refusal> {
        let words = self.register.clone();
        Question { words, group, day }.answer()
    }

    /// The sheet of a list that decides a request: the first with the number in force.
    pub fn deciding<'s>(
        &self,
        request: &Request,
        sheets: &[(u16, &'s [u32])],
    ) -> Option<(u16, &'s [u32])> {
        let number = self.asked(request.group, request.day).ok().flatten();
        sheets.iter().copied().find(|(of, _)| Some(*of) == number)
    }

    fn reply(
        &self,
        request: &Request,
        sheets: &[(u16, &[u32])],
        left: usize,
        room: usize,
    ) -> Reply {
        let Some((number, sheet)) = self.deciding(request, sheets) else {
            return Reply::None;
        };
        match decide(sheet, number, request, left, room) {
            Ok((record, nodes)) => Reply::Decided { record, nodes },
            Err(refusal) => Reply::Refused(refusal),
        }
    }
}

/// The record and the nodes of a request by its sheet.
fn decide(
    sheet: &[u32],
    number: u16,
    request: &Request,
    left: usize,
    room: usize,
) -> Result<(Vec<u32>, usize), Refusal> {
    let mut table = request.table.clone();
    if request.length > table.len() {
        // Longer than what there is in 64 words, and so too long.
        table.push(0);
    }
    let evaluate = |room| reference::evaluate(sheet, number.into(), &table, room);
    // Everything but the room, before the nodes.
    evaluate(RECORD_WORDS).or_else(|refusal| match refusal {
        Refusal::Room => Ok(Vec::new()),
        other => Err(other),
    })?;
    let nodes = nodes(sheet, &table)?;
    if nodes > left {
        return Err(Refusal::Allowance);
    }
    Ok((evaluate(room)?, nodes))
}

/// How many nodes an accepted sheet's direct evaluation visits under an accepted table.
pub fn nodes(sheet: &[u32], table: &[u8]) -> Result<usize, Refusal> {
    let policy = convert::to_policy(&read::sheet(sheet)?);
    Ok(visited(
        &policy,
        &convert::known_facts(&Table::known(table)?),
    ))
}

/// A policy and what is visited below it. What an arm comes to is the original's to say.
fn visited(policy: &Policy<Products>, facts: &KnownFacts) -> usize {
    let below = |arm: &Policy<Products>| visited(arm, facts);
    1 + match policy {
        Policy::Permit(_) | Policy::Deny => 0,
        Policy::Grant { condition, .. } => asked(condition, facts),
        Policy::All(arms) => up_to(arms, |arm| !permits(arm, facts), below),
        Policy::Any(arms) => arms.iter().map(below).sum(),
        Policy::OrElse { primary, fallback } => {
            let denied = !permits(primary, facts);
            below(primary) + if denied { below(fallback) } else { 0 }
        }
    }
}

/// A condition and what is visited below it.
fn asked(condition: &Condition, facts: &KnownFacts) -> usize {
    let below = |arm: &Condition| asked(arm, facts);
    1 + match condition {
        Condition::Always | Condition::Never | Condition::Has(_) => 0,
        Condition::Not(inner) => below(inner),
        Condition::All(arms) => up_to(arms, |arm| !holds(arm, facts), below),
        Condition::Any(arms) => up_to(arms, |arm| holds(arm, facts), below),
    }
}

/// The nodes of a list's arms, up to and including the one that decides.
fn up_to<T>(arms: &[T], decides: impl Fn(&T) -> bool, nodes: impl Fn(&T) -> usize) -> usize {
    let last = arms.iter().position(decides);
    let arms = &arms[..last.map_or(arms.len(), |at| at + 1)];
    arms.iter().map(nodes).sum()
}

fn permits(policy: &Policy<Products>, facts: &KnownFacts) -> bool {
    matches!(gatekeep::evaluate(policy, facts).effect, Effect::Permit(_))
}

/// The original asks its conditions in grants alone.
fn holds(condition: &Condition, facts: &KnownFacts) -> bool {
    let grant = Policy::Grant {
        outcome: Products(0),
        condition: condition.clone(),
        label: None,
        deny_shape: DenyShape::Forbidden,
        obligations: Vec::new(),
        reason: None,
    };
    permits(&grant, facts)
}
