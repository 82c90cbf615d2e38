//! A question for a position, for both tests that ask.

use oracle::cash::position;
use oracle::read::Refusal;

/// What stands in a table before a call: no amount of a position.
pub const UNTOUCHED: i64 = i64::MIN;

/// Asks with a table of that length. Gives the answer and the table after it.
pub fn asked(
    journal: &[u8],
    key: &[u8],
    (first, last): (u64, u64),
    length: usize,
) -> (Result<u64, Refusal>, Vec<i64>) {
    let mut table = vec![UNTOUCHED; length];
    let answer = position(journal, key, first, last, &mut table);
    (answer, table)
}
