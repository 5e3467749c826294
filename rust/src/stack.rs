//! The stack that calls need at most, in bytes, on x86-64. These are measured
//! and not proved: docs/CALLS.md has what was measured.

/// Any call on any input, forged images too. A thread that makes calls has so
/// much besides what its own code needs.
pub const STACK_MOST: usize = 1_048_576;

/// Reading any text.
pub const STACK_READ: usize = 655_360;

/// Every call but reading, on an image read from a text.
pub const STACK_TEXT: usize = 917_504;

/// Every call but reading, on an image of at most [`SMALL_RECORDS`] records.
pub const STACK_SMALL: usize = 196_608;

/// The expression and action records, taken together, that a small image has
/// at most (docs/IMAGE.md has both counts).
pub const SMALL_RECORDS: usize = 200;
