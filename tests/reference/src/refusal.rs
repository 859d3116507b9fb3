//! The refusal numbers of document 01 by name, so that the calls need not spell numbers.

/// A refusal is told to the caller as its number only.
pub type Refusal = u8;

/// q is not 2 or 4.
pub const UNKNOWN_Q: Refusal = 1;
/// u is not from q to n - 1, or it is a gap.
pub const UNUSABLE_U: Refusal = 2;
/// The decoder has not so many steps.
pub const TOO_MANY_STEPS: Refusal = 3;
/// Another length than n for a row, k for a message.
pub const WRONG_LENGTH: Refusal = 4;
/// A number from q² on where a symbol is due.
pub const NOT_A_SYMBOL: Refusal = 5;
/// Work area too short.
pub const SHORT_WORK: Refusal = 6;
/// An output too short.
pub const SHORT_OUTPUT: Refusal = 7;
/// More than τ places differ.
pub const BEYOND_REACH: Refusal = 8;
/// Block header or total length not as document 01 says.
pub const BAD_BLOCK: Refusal = 9;
/// Payload not 20R bytes.
pub const BAD_PAYLOAD: Refusal = 10;
/// Fewer than R records.
pub const TOO_FEW_RECORDS: Refusal = 11;
