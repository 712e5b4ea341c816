//! The limits of docs/FORMAT.md, and the lengths of lent memory.

pub const PROGRAM_BYTES: usize = 16_384;

pub const OPERATORS: usize = 16;
pub const ARITY: usize = 4;
pub const ARRAYS: usize = 16;
pub const DIMENSIONS: usize = 3;
pub const EXTENT: usize = 1_024;
pub const CELLS: usize = 2_048;

/// Loops and guards together.
pub const ITEM_NESTING: usize = 8;
pub const OPERATOR_NESTING: usize = 12;

pub const ROUNDS: usize = 65_536;
pub const UPDATES: usize = 2_048;
pub const NODES: usize = 8_192;
pub const TERMS: usize = 4_096;

pub const LIST_WORDS: usize = 32_768;
pub const CELL_WORDS: usize = 2 * CELLS;
pub const TERM_WORDS: usize = 32_768;
