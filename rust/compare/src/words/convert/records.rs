//! Decisions and records.

use gatekeep::{Decision, DecisionTrace, DecisiveClause, Effect, FactId, Presence};

use super::ids;
use super::trees::{from_residual_policy, to_residual_policy};
use crate::products::Products;
use crate::words::tree::{Decided, Deny, Entry, Permit, Record, Seen};

/// The original's decision for a Resolved record.
pub fn to_decision(consulted: &[Entry], decided: &Decided) -> Decision<Products> {
    let (effect, obligations, decisive) = match decided {
        Decided::Permit(permit) => (
            Effect::Permit(permit.outcome),
            ids::obligation_ids(&permit.obligations),
            DecisiveClause::Permit {
                granted: permit.outcome,
                satisfied: ids::fact_ids(&permit.satisfied),
                label: ids::label_id(permit.label),
            },
        ),
        Decided::Deny(deny) => (
            Effect::Deny,
            Vec::new(),
            DecisiveClause::Deny {
                denied: deny.denied,
                unsatisfied: ids::fact_ids(&deny.unsatisfied),
                label: ids::label_id(deny.label),
                reason: ids::reason_id(deny.reason),
                shape: deny.shape,
            },
        ),
    };
    let consulted = to_consulted(consulted);
    Decision {
        effect,
        obligations,
        trace: DecisionTrace {
            consulted,
            decisive,
        },
    }
}

/// The Resolved record that the original's decision stands for.
pub fn from_decision(decision: &Decision<Products>) -> Record {
    Record::Resolved {
        consulted: from_consulted(&decision.trace.consulted),
        decided: from_clause(decision),
    }
}

/// The original's result of a reduction for a record.
pub fn to_residual(record: &Record) -> gatekeep::Residual<Products> {
    match record {
        Record::Resolved { consulted, decided } => {
            gatekeep::Residual::Resolved(to_decision(consulted, decided))
        }
        Record::Pending {
            consulted,
            residual,
        } => gatekeep::Residual::Pending {
            residual: to_residual_policy(residual),
            consulted: to_consulted(consulted),
        },
    }
}

/// The record that the original's result of a reduction stands for.
pub fn from_residual(residual: &gatekeep::Residual<Products>) -> Record {
    match residual {
        gatekeep::Residual::Resolved(decision) => from_decision(decision),
        gatekeep::Residual::Pending {
            residual,
            consulted,
        } => Record::Pending {
            consulted: from_consulted(consulted),
            residual: from_residual_policy(residual),
        },
    }
}

/// A record's one node has room for one outcome and for a permit's obligations, so this insists
/// that the original's effect and clause say the same and that its denies have no obligations.
fn from_clause(decision: &Decision<Products>) -> Decided {
    let obligations = ids::obligations(&decision.obligations);
    match (&decision.effect, &decision.trace.decisive) {
        (
            Effect::Permit(outcome),
            DecisiveClause::Permit {
                granted,
                satisfied,
                label,
            },
        ) => {
            assert_eq!(outcome, granted, "a permit's clause grants its outcome");
            Decided::Permit(Permit {
                outcome: *outcome,
                obligations,
                satisfied: ids::facts(satisfied),
                label: ids::label(label.as_ref()),
            })
        }
        (
            Effect::Deny,
            DecisiveClause::Deny {
                denied,
                unsatisfied,
                label,
                reason,
                shape,
            },
        ) => {
            assert!(obligations.is_empty(), "a deny has no obligations");
            Decided::Deny(Deny {
                denied: *denied,
                unsatisfied: ids::facts(unsatisfied),
                label: ids::label(label.as_ref()),
                reason: ids::reason(reason.as_ref()),
                shape: *shape,
            })
        }
        (effect, clause) => panic!("effect {effect:?} with clause {clause:?}"),
    }
}

/// Silence is Absent to the original.
fn to_consulted(consulted: &[Entry]) -> Vec<(FactId, Presence)> {
    let presence = |seen| match seen {
        Seen::Absent | Seen::Silent => Presence::Absent,
        Seen::Present => Presence::Present,
        Seen::Unknown => Presence::Unknown,
    };
    consulted
        .iter()
        .map(|(fact, seen)| (ids::fact_id(*fact), presence(*seen)))
        .collect()
}

fn from_consulted(consulted: &[(FactId, Presence)]) -> Vec<Entry> {
    consulted
        .iter()
        .map(|(id, read)| (ids::fact(id), Some(*read).into()))
        .collect()
}
