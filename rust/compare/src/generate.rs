//! Cases made from a seed: the same seed gives the same cases everywhere.

pub mod batches;
pub mod cases;
pub mod chains;
pub mod damage;
pub mod exhaustive;
pub mod grow;
pub mod joins;
pub mod levels;
pub mod limits;
pub mod numbers;
pub mod registers;
pub mod rng;
pub mod tables;
pub mod tight;
pub mod windows;
