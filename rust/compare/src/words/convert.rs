//! To the original's types and back.

mod ids;
mod records;
mod tables;
mod trees;

pub use ids::fact;
pub use records::{from_decision, from_residual, to_decision, to_residual};
pub use tables::{known_facts, partial_facts};
pub use trees::{
    from_condition, from_policy, from_residual_policy, to_condition, to_policy, to_residual_policy,
    to_trace_node,
};
