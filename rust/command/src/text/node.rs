//! The nodes of the text form: where each may stand, what its line says, and what stands under it.

use super::fields::Fields;
use super::line::{Fault, Line, quoted};
use super::pack;
use crate::numbers;

/// What may stand somewhere.
#[derive(Clone, Copy, Debug, PartialEq, Eq)]
pub enum Place {
    /// A policy of a sheet.
    Policy,
    /// A policy of a Pending record.
    Residual,
    /// The one node of a Resolved record.
    Decision,
    /// A condition.
    Condition,
}

impl Place {
    /// The names of the nodes that may.
    pub const fn names(self) -> &'static [&'static str] {
        match self {
            Self::Policy => &["permit", "deny", "grant", "all", "any", "or-else"],
            Self::Residual => &[
                "permit",
                "deny",
                "grant",
                "all",
                "any",
                "or-else",
                "permit-with-trace",
                "deny-with-trace",
            ],
            Self::Decision => &["permit-with-trace", "deny-with-trace"],
            Self::Condition => &["always", "never", "has", "not", "all", "any"],
        }
    }

    /// What is due there, in a message's words.
    pub fn due(self) -> String {
        let what = match self {
            Self::Policy | Self::Residual => "a policy",
            Self::Decision => "a decision",
            Self::Condition => "a condition",
        };
        format!("{what} ({})", self.names().join(", "))
    }
}

/// How many nodes stand under a node, and what they are.
#[derive(Clone, Copy, Debug, PartialEq, Eq)]
pub enum Below {
    /// Just so many.
    Exactly(usize, Place),
    /// As many as a count can say, which stands in the node's first word.
    List(Place),
}

impl Below {
    /// A leaf.
    const NOTHING: Self = Self::Exactly(0, Place::Condition);

    /// What they may be.
    pub const fn place(self) -> Place {
        match self {
            Self::Exactly(_, place) | Self::List(place) => place,
        }
    }

    /// How many they are at most.
    pub const fn most(self) -> usize {
        match self {
            Self::Exactly(nodes, _) => nodes,
            Self::List(_) => vierskof::LIST,
        }
    }
}

/// A node's own words, and what stands under it.
pub type Node = (Vec<u32>, Below);

/// The node that a line says.
pub fn node(line: Line<'_>, place: Place) -> Result<Node, Fault> {
    let name = line.name();
    if !place.names().contains(&name) {
        return Err(line.fault(&quoted(name), &place.due()));
    }
    let mut fields = Fields::of(line);
    let node = match place {
        Place::Condition => condition(name, &mut fields)?,
        place => policy(name, place, &mut fields)?,
    };
    fields.end()?;
    Ok(node)
}

/// A node of one word.
fn one_word(kind: u32, low: u16, below: Below) -> Node {
    (vec![pack::lead(kind, u32::from(low))], below)
}

fn condition(name: &str, fields: &mut Fields<'_>) -> Result<Node, Fault> {
    let place = Place::Condition;
    Ok(match name {
        "always" => one_word(0, 0, Below::NOTHING),
        "never" => one_word(1, 0, Below::NOTHING),
        "has" => one_word(2, fields.item(numbers::fact)?.number(), Below::NOTHING),
        "not" => one_word(3, 0, Below::Exactly(1, place)),
        "all" => one_word(4, 0, Below::List(place)),
        "any" => one_word(5, 0, Below::List(place)),
        _ => unreachable!("{name} is no condition's name"),
    })
}

fn policy(name: &str, place: Place, fields: &mut Fields<'_>) -> Result<Node, Fault> {
    Ok(match name {
        "permit" => one_word(6, fields.item(numbers::products)?.bits(), Below::NOTHING),
        "deny" => one_word(7, 0, Below::NOTHING),
        "grant" => {
            let outcome = fields.item(numbers::products)?;
            let parts = ["hidden", "label", "reason", "obligations"];
            let clause = fields.clause(&parts, vierskof::GRANT_OBLIGATIONS)?;
            let below = Below::Exactly(1, Place::Condition);
            (pack::grant(outcome, &clause), below)
        }
        "all" => one_word(9, 0, Below::List(place)),
        "any" => one_word(10, 0, Below::List(place)),
        "or-else" => one_word(11, 0, Below::Exactly(2, place)),
        "permit-with-trace" => {
            let outcome = fields.item(numbers::products)?;
            let parts = ["label", "obligations", "facts"];
            let clause = fields.clause(&parts, vierskof::TRACE_OBLIGATIONS)?;
            (pack::permit_with_trace(outcome, &clause), Below::NOTHING)
        }
        "deny-with-trace" => {
            let parts = ["hidden", "denied", "label", "reason", "facts"];
            let clause = fields.clause(&parts, 0)?;
            (pack::deny_with_trace(&clause), Below::NOTHING)
        }
        _ => unreachable!("{name} is no policy's name"),
    })
}
