//! Conditions, sheets and residual trees.

use gatekeep::{Policy, ResidualPolicy};

use super::ids;
use crate::products::Products;
use crate::words::tree::{Condition, Decided, Deny, Grant, Permit, Residual, Sheet, Tree};

/// The original's condition.
pub fn to_condition(condition: &Condition) -> gatekeep::Condition {
    let arms = |arms: &[Condition]| arms.iter().map(to_condition).collect();
    match condition {
        Condition::Always => gatekeep::Condition::Always,
        Condition::Never => gatekeep::Condition::Never,
        Condition::Has(fact) => gatekeep::Condition::Has(ids::fact_id(*fact)),
        Condition::Not(inner) => gatekeep::Condition::Not(Box::new(to_condition(inner))),
        Condition::All(conditions) => gatekeep::Condition::All(arms(conditions)),
        Condition::Any(conditions) => gatekeep::Condition::Any(arms(conditions)),
    }
}

/// The condition that the original's stands for.
pub fn from_condition(condition: &gatekeep::Condition) -> Condition {
    let arms = |arms: &[gatekeep::Condition]| arms.iter().map(from_condition).collect();
    match condition {
        gatekeep::Condition::Always => Condition::Always,
        gatekeep::Condition::Never => Condition::Never,
        gatekeep::Condition::Has(id) => Condition::Has(ids::fact(id)),
        gatekeep::Condition::Not(inner) => Condition::Not(Box::new(from_condition(inner))),
        gatekeep::Condition::All(conditions) => Condition::All(arms(conditions)),
        gatekeep::Condition::Any(conditions) => Condition::Any(arms(conditions)),
    }
}

/// The original's policy for a sheet.
pub fn to_policy(sheet: &Sheet) -> Policy<Products> {
    let arms = |arms: &[Sheet]| arms.iter().map(to_policy).collect();
    match sheet {
        Tree::Permit(outcome) => Policy::Permit(*outcome),
        Tree::Deny => Policy::Deny,
        Tree::Grant(grant) => Policy::Grant {
            outcome: grant.outcome,
            condition: to_condition(&grant.condition),
            label: ids::label_id(grant.label),
            deny_shape: grant.shape,
            obligations: ids::obligation_ids(&grant.obligations),
            reason: ids::reason_id(grant.reason),
        },
        Tree::All(policies) => Policy::All(arms(policies)),
        Tree::Any(policies) => Policy::Any(arms(policies)),
        Tree::OrElse(primary, fallback) => Policy::OrElse {
            primary: Box::new(to_policy(primary)),
            fallback: Box::new(to_policy(fallback)),
        },
        Tree::Stored(none) => match *none {},
    }
}

/// The sheet that the original's policy stands for.
pub fn from_policy(policy: &Policy<Products>) -> Sheet {
    let arms = |arms: &[Policy<Products>]| arms.iter().map(from_policy).collect();
    match policy {
        Policy::Permit(outcome) => Tree::Permit(*outcome),
        Policy::Deny => Tree::Deny,
        Policy::Grant {
            outcome,
            condition,
            label,
            deny_shape,
            obligations,
            reason,
        } => Tree::Grant(Grant {
            outcome: *outcome,
            shape: *deny_shape,
            label: ids::label(label.as_ref()),
            reason: ids::reason(reason.as_ref()),
            obligations: ids::obligations(obligations),
            condition: from_condition(condition),
        }),
        Policy::All(policies) => Tree::All(arms(policies)),
        Policy::Any(policies) => Tree::Any(arms(policies)),
        Policy::OrElse { primary, fallback } => Tree::OrElse(
            Box::new(from_policy(primary)),
            Box::new(from_policy(fallback)),
        ),
    }
}

/// The original's residual policy for a record's tree.
pub fn to_residual_policy(tree: &Residual) -> ResidualPolicy<Products> {
    let arms = |arms: &[Residual]| arms.iter().map(to_residual_policy).collect();
    match tree {
        Tree::Permit(outcome) => ResidualPolicy::Permit(*outcome),
        Tree::Deny => ResidualPolicy::Deny,
        Tree::Grant(grant) => ResidualPolicy::Grant {
            outcome: grant.outcome,
            condition: to_condition(&grant.condition),
            label: ids::label_id(grant.label),
            deny_shape: grant.shape,
            obligations: ids::obligation_ids(&grant.obligations),
            reason: ids::reason_id(grant.reason),
        },
        Tree::All(policies) => ResidualPolicy::All(arms(policies)),
        Tree::Any(policies) => ResidualPolicy::Any(arms(policies)),
        Tree::OrElse(primary, fallback) => ResidualPolicy::OrElse {
            primary: Box::new(to_residual_policy(primary)),
            fallback: Box::new(to_residual_policy(fallback)),
        },
        Tree::Stored(decided) => to_trace_node(decided),
    }
}

/// The original's node for a resolved part.
pub fn to_trace_node(decided: &Decided) -> ResidualPolicy<Products> {
    match decided {
        Decided::Permit(permit) => ResidualPolicy::PermitWithTrace {
            outcome: permit.outcome,
            obligations: ids::obligation_ids(&permit.obligations),
            satisfied: ids::fact_ids(&permit.satisfied),
            label: ids::label_id(permit.label),
        },
        Decided::Deny(deny) => ResidualPolicy::DenyWithTrace {
            denied: deny.denied,
            unsatisfied: ids::fact_ids(&deny.unsatisfied),
            label: ids::label_id(deny.label),
            reason: ids::reason_id(deny.reason),
            shape: deny.shape,
        },
    }
}

/// The tree that the original's residual policy stands for.
pub fn from_residual_policy(policy: &ResidualPolicy<Products>) -> Residual {
    let arms = |arms: &[ResidualPolicy<Products>]| arms.iter().map(from_residual_policy).collect();
    match policy {
        ResidualPolicy::Permit(outcome) => Tree::Permit(*outcome),
        ResidualPolicy::Deny => Tree::Deny,
        ResidualPolicy::PermitWithTrace {
            outcome,
            obligations,
            satisfied,
            label,
        } => Tree::Stored(Decided::Permit(Permit {
            outcome: *outcome,
            obligations: ids::obligations(obligations),
            satisfied: ids::facts(satisfied),
            label: ids::label(label.as_ref()),
        })),
        ResidualPolicy::DenyWithTrace {
            denied,
            unsatisfied,
            label,
            reason,
            shape,
        } => Tree::Stored(Decided::Deny(Deny {
            denied: *denied,
            unsatisfied: ids::facts(unsatisfied),
            label: ids::label(label.as_ref()),
            reason: ids::reason(reason.as_ref()),
            shape: *shape,
        })),
        ResidualPolicy::Grant {
            outcome,
            condition,
            label,
            deny_shape,
            obligations,
            reason,
        } => Tree::Grant(Grant {
            outcome: *outcome,
            shape: *deny_shape,
            label: ids::label(label.as_ref()),
            reason: ids::reason(reason.as_ref()),
            obligations: ids::obligations(obligations),
            condition: from_condition(condition),
        }),
        ResidualPolicy::All(policies) => Tree::All(arms(policies)),
        ResidualPolicy::Any(policies) => Tree::Any(arms(policies)),
        ResidualPolicy::OrElse { primary, fallback } => Tree::OrElse(
            Box::new(from_residual_policy(primary)),
            Box::new(from_residual_policy(fallback)),
        ),
    }
}
