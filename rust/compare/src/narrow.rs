//! Narrowing, and reduction in sheet order, from document 01's 'Reducing' and 'Narrowing' and from requests 3, 8, 9 and 14 alone: the original has no such calls.

mod in_order;

use gatekeep::{Lattice, Presence};

use crate::words::table::Table;
use crate::words::tree::{Condition, Decided, Deny, Entry, Grant, Permit, Record, Residual, Tree};

/// How a policy list that stays pending holds its arms.
#[derive(Clone, Copy, Debug, PartialEq, Eq)]
pub enum Order {
    /// Resolved permits first, as document 01 has it.
    PermitsFirst,
    /// As the sheet has them, as request 8 has it.
    SheetOrder,
}

/// Decides a Pending record further; a Resolved one comes back equal.
pub fn narrow(record: &Record, table: &Table, order: Order) -> Record {
    match record {
        Record::Resolved { .. } => record.clone(),
        Record::Pending {
            consulted,
            residual,
        } => reduce(consulted, residual, table, order),
    }
}

/// Decides a tree as far as the table goes, after these consulted entries.
pub fn reduce(consulted: &[Entry], tree: &Residual, table: &Table, order: Order) -> Record {
    walked(consulted, tree, table, order).0
}

/// The same, and the joins on the way that unite obligations.
pub fn walked(
    consulted: &[Entry],
    tree: &Residual,
    table: &Table,
    order: Order,
) -> (Record, Vec<Union>) {
    let mut walk = Walk::new(table, order);
    for entry in consulted {
        walk.consult(*entry);
    }
    let reduced = walk.tree(tree);
    let consulted = walk.consulted;
    let record = match reduced {
        Reduced::Resolved(decided) => Record::Resolved { consulted, decided },
        Reduced::Pending(residual) => Record::Pending {
            consulted,
            residual,
        },
    };
    (record, walk.unions)
}

/// Whether the table decides a grant of the tree whose condition names a fact that is Unknown.
pub fn known_by_part(tree: &Residual, table: &Table) -> bool {
    match tree {
        Tree::Permit(_) | Tree::Deny | Tree::Stored(_) => false,
        Tree::Grant(Grant { condition, .. }) => {
            let mut walk = Walk::new(table, Order::PermitsFirst);
            let known = matches!(walk.condition(condition), ReducedCondition::Known(_));
            known && names_unknown(condition, table)
        }
        Tree::All(arms) | Tree::Any(arms) => arms.iter().any(|arm| known_by_part(arm, table)),
        Tree::OrElse(primary, fallback) => {
            known_by_part(primary, table) || known_by_part(fallback, table)
        }
    }
}

fn names_unknown(condition: &Condition, table: &Table) -> bool {
    match condition {
        Condition::Always | Condition::Never => false,
        Condition::Has(fact) => table.presence(*fact) == Presence::Unknown,
        Condition::Not(inner) => names_unknown(inner, table),
        Condition::All(arms) | Condition::Any(arms) => {
            arms.iter().any(|arm| names_unknown(arm, table))
        }
    }
}

/// The obligations that a join unites.
#[derive(Clone, Debug)]
pub struct Union {
    /// Those of the permit so far.
    pub held: Vec<u8>,
    /// Those of the permit that is joined to it.
    pub incoming: Vec<u8>,
}

impl Union {
    /// Those held, and after them each incoming one that isn't held by then.
    pub fn list(&self) -> Vec<u8> {
        let mut list = self.held.clone();
        for obligation in &self.incoming {
            if !list.contains(obligation) {
                list.push(*obligation);
            }
        }
        list
    }
}

enum Reduced {
    Resolved(Decided),
    Pending(Residual),
}

impl Reduced {
    /// What a residual holds of it: a resolved part as node 12 or 13.
    fn kept(self) -> Residual {
        match self {
            Self::Resolved(decided) => Tree::Stored(decided),
            Self::Pending(residual) => residual,
        }
    }
}

enum ReducedCondition {
    Known(bool),
    Pending(Condition),
}

/// The arms of a policy list after a walk without a stop, each group in order.
#[derive(Default)]
struct Arms {
    permits: Vec<Permit>,
    denies: Vec<Deny>,
    pending: Vec<Residual>,
}

struct Walk<'a> {
    table: &'a Table,
    order: Order,
    consulted: Vec<Entry>,
    unions: Vec<Union>,
}

impl<'a> Walk<'a> {
    const fn new(table: &'a Table, order: Order) -> Self {
        Self {
            table,
            order,
            consulted: Vec::new(),
            unions: Vec::new(),
        }
    }

    /// Each fact is consulted once; its first entry stays.
    fn consult(&mut self, entry: Entry) {
        if self.consulted.iter().all(|(fact, _)| *fact != entry.0) {
            self.consulted.push(entry);
        }
    }

    fn tree(&mut self, tree: &Residual) -> Reduced {
        match tree {
            Tree::Permit(outcome) => Reduced::Resolved(Decided::Permit(Permit::plain(*outcome))),
            Tree::Deny => Reduced::Resolved(Decided::Deny(Deny::plain())),
            Tree::Stored(decided) => Reduced::Resolved(decided.clone()),
            Tree::Grant(grant) => self.grant(grant),
            Tree::All(arms) => match self.order {
                Order::PermitsFirst => self.all(arms),
                Order::SheetOrder => self.all_in_order(arms),
            },
            Tree::Any(arms) => match self.order {
                Order::PermitsFirst => self.any(arms),
                Order::SheetOrder => self.any_in_order(arms),
            },
            Tree::OrElse(primary, fallback) => self.or_else(primary, fallback),
        }
    }

    fn grant(&mut self, grant: &Grant) -> Reduced {
        match self.condition(&grant.condition) {
            ReducedCondition::Known(_) => Reduced::Resolved(decide(grant, self.table)),
            ReducedCondition::Pending(condition) => Reduced::Pending(Tree::Grant(Grant {
                condition,
                ..grant.clone()
            })),
        }
    }

    fn all(&mut self, arms: &[Residual]) -> Reduced {
        let mut walked = Arms::default();
        for arm in arms {
            match self.tree(arm) {
                // A resolved deny decides the list, pending arms before it or not.
                Reduced::Resolved(Decided::Deny(deny)) => {
                    return Reduced::Resolved(Decided::Deny(deny));
                }
                Reduced::Resolved(Decided::Permit(permit)) => walked.permits.push(permit),
                Reduced::Pending(residual) => walked.pending.push(residual),
            }
        }
        if walked.pending.is_empty() {
            Reduced::Resolved(folded(walked, meet))
        } else {
            Reduced::Pending(Tree::All(walked.kept()))
        }
    }

    fn any(&mut self, arms: &[Residual]) -> Reduced {
        let mut walked = Arms::default();
        for arm in arms {
            walked.add(self.tree(arm));
        }
        if walked.pending.is_empty() {
            Reduced::Resolved(self.joined(walked))
        } else {
            Reduced::Pending(Tree::Any(walked.kept()))
        }
    }

    /// An Any without pending arms.
    fn joined(&mut self, arms: Arms) -> Decided {
        folded(arms, |earlier, incoming| self.join(earlier, incoming))
    }

    fn join(&mut self, earlier: Permit, incoming: Permit) -> Permit {
        let outcome = earlier.outcome.join(&incoming.outcome);
        match (outcome == earlier.outcome, outcome == incoming.outcome) {
            (true, true) => Permit {
                obligations: self.unite(&earlier, &incoming),
                ..earlier
            },
            (false, true) => incoming,
            (true, false) => earlier,
            (false, false) => Permit {
                obligations: self.unite(&earlier, &incoming),
                ..Permit::plain(outcome)
            },
        }
    }

    fn unite(&mut self, earlier: &Permit, incoming: &Permit) -> Vec<u8> {
        let union = Union {
            held: earlier.obligations.clone(),
            incoming: incoming.obligations.clone(),
        };
        let list = union.list();
        self.unions.push(union);
        list
    }

    fn or_else(&mut self, primary: &Residual, fallback: &Residual) -> Reduced {
        match self.tree(primary) {
            Reduced::Resolved(Decided::Permit(permit)) => {
                Reduced::Resolved(Decided::Permit(permit))
            }
            Reduced::Resolved(Decided::Deny(_)) => self.tree(fallback),
            Reduced::Pending(primary) => {
                let fallback = self.tree(fallback).kept();
                Reduced::Pending(Tree::OrElse(Box::new(primary), Box::new(fallback)))
            }
        }
    }

    fn condition(&mut self, condition: &Condition) -> ReducedCondition {
        match condition {
            Condition::Always => ReducedCondition::Known(true),
            Condition::Never => ReducedCondition::Known(false),
            Condition::Has(fact) => self.has(*fact),
            Condition::Not(inner) => match self.condition(inner) {
                ReducedCondition::Known(holds) => ReducedCondition::Known(!holds),
                ReducedCondition::Pending(inner) => {
                    ReducedCondition::Pending(Condition::Not(Box::new(inner)))
                }
            },
            Condition::All(arms) => self.conditions(arms, false, Condition::All),
            Condition::Any(arms) => self.conditions(arms, true, Condition::Any),
        }
    }

    fn has(&mut self, fact: u16) -> ReducedCondition {
        match self.table.observation(fact) {
            Some(Presence::Unknown) => ReducedCondition::Pending(Condition::Has(fact)),
            read => {
                self.consult((fact, read.into()));
                ReducedCondition::Known(read == Some(Presence::Present))
            }
        }
    }

    /// A condition All is decided by a false arm, an Any by a true one. Other known arms drop out.
    fn conditions(
        &mut self,
        arms: &[Condition],
        decisive: bool,
        list: fn(Vec<Condition>) -> Condition,
    ) -> ReducedCondition {
        let mut pending = Vec::new();
        for arm in arms {
            match self.condition(arm) {
                ReducedCondition::Known(holds) if holds == decisive => {
                    return ReducedCondition::Known(decisive);
                }
                ReducedCondition::Known(_) => {}
                ReducedCondition::Pending(condition) => pending.push(condition),
            }
        }
        match pending.len() {
            // Without arms both lists are false.
            0 => ReducedCondition::Known(!decisive && !arms.is_empty()),
            1 => ReducedCondition::Pending(pending.remove(0)),
            _ => ReducedCondition::Pending(list(pending)),
        }
    }
}

impl Arms {
    fn add(&mut self, arm: Reduced) {
        match arm {
            Reduced::Resolved(Decided::Deny(deny)) => self.denies.push(deny),
            Reduced::Resolved(Decided::Permit(permit)) => self.permits.push(permit),
            Reduced::Pending(residual) => self.pending.push(residual),
        }
    }

    /// What a residual list holds: the resolved permits, or in an Any without them the first
    /// resolved deny, and then the pending arms. An All with a resolved deny isn't kept at all.
    fn kept(self) -> Vec<Residual> {
        let denies = usize::from(self.permits.is_empty());
        let permits = self.permits.into_iter().map(Decided::Permit);
        permits
            .chain(self.denies.into_iter().map(Decided::Deny).take(denies))
            .map(Tree::Stored)
            .chain(self.pending)
            .collect()
    }
}

/// A list without pending arms: its permits folded, or else its first deny, or else a plain one.
fn folded(arms: Arms, fold: impl FnMut(Permit, Permit) -> Permit) -> Decided {
    match arms.permits.into_iter().reduce(fold) {
        Some(permit) => Decided::Permit(permit),
        None => Decided::Deny(arms.denies.into_iter().next().unwrap_or_else(Deny::plain)),
    }
}

fn meet(earlier: Permit, incoming: Permit) -> Permit {
    let outcome = earlier.outcome.meet(&incoming.outcome);
    if outcome == earlier.outcome {
        earlier
    } else if outcome == incoming.outcome {
        incoming
    } else {
        Permit::plain(outcome)
    }
}

/// A grant whose condition is known, evaluated from the partial table itself.
fn decide(grant: &Grant, table: &Table) -> Decided {
    let (holds, facts) = evaluate(&grant.condition, table);
    if holds {
        Decided::Permit(Permit {
            outcome: grant.outcome,
            obligations: grant.obligations.clone(),
            satisfied: facts,
            label: grant.label,
        })
    } else {
        Decided::Deny(Deny {
            denied: Some(grant.outcome),
            unsatisfied: facts,
            label: grant.label,
            reason: grant.reason,
            shape: grant.shape,
        })
    }
}

/// Whether the condition is true, and the facts that it names.
fn evaluate(condition: &Condition, table: &Table) -> (bool, Vec<u16>) {
    match condition {
        Condition::Always => (true, Vec::new()),
        Condition::Never => (false, Vec::new()),
        Condition::Has(fact) => (table.presence(*fact) == Presence::Present, vec![*fact]),
        Condition::Not(inner) => {
            let (holds, facts) = evaluate(inner, table);
            (!holds, facts)
        }
        Condition::All(arms) => evaluate_arms(arms, false, table),
        Condition::Any(arms) => evaluate_arms(arms, true, table),
    }
}

/// The first deciding arm's facts, or else all arms' facts, repeats and all.
fn evaluate_arms(arms: &[Condition], decisive: bool, table: &Table) -> (bool, Vec<u16>) {
    let mut named = Vec::new();
    for arm in arms {
        let (holds, facts) = evaluate(arm, table);
        if holds == decisive {
            return (decisive, facts);
        }
        named.extend(facts);
    }
    // Without arms both lists are false.
    (!decisive && !arms.is_empty(), named)
}
