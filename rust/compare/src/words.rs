//! Document 01's format: trees, records and tables, and how they stand in words and bytes.

pub mod convert;
pub mod field;
pub mod read;
pub mod table;
pub mod tree;
pub mod write;

/// Words of the longest sheet.
pub const SHEET_WORDS: usize = 4_096;
/// Words of the longest record.
pub const RECORD_WORDS: usize = 16_384;
/// Bytes of the longest table.
pub const TABLE_BYTES: usize = 256;
/// Nodes on the longest way down a tree, grant and condition together.
pub const LEVELS: usize = 32;
/// What a count of arms, facts or consulted entries can say.
pub const LIST: usize = 4_095;
/// Obligations of the longest list in a Grant.
pub const GRANT_OBLIGATIONS: usize = 64;
/// What a node 12's count of obligations can say.
pub const TRACE_OBLIGATIONS: usize = 127;
/// Obligations that there are.
pub const OBLIGATIONS: u8 = 64;
/// Facts that there are.
pub const FACTS: u16 = 1_024;
