//! The words by which rows say statements, expressions and operations.

pub const NOTHING: u32 = 0;
pub const TWO: u32 = 1;
pub const SET: u32 = 2;
pub const READ: u32 = 3;
pub const WRITE: u32 = 4;
pub const ADD: u32 = 5;
pub const IF: u32 = 6;
pub const WHILE: u32 = 7;
pub const WAIT: u32 = 8;

pub const NUMBER: u32 = 0;
pub const VARIABLE: u32 = 1;
pub const ME: u32 = 2;
pub const ALL: u32 = 3;
pub const OPERATION: u32 = 4;

/// Operations are 0 to 6.
pub const LAST_OPERATION: u32 = 6;
