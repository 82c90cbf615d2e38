//! Deliveries in a file for a replay, made again, for both tests that read such a file back.

use oracle::delivery::{deliver, Expected};
use oracle::read::Refusal;
use oracle::recorded::fnv;

use crate::replays::Reader;

/// Kind, refusal, record and three values.
pub type Numbers = [u64; 6];

impl Reader<'_> {
    pub fn answer(&mut self) -> Numbers {
        [1, 4, 4, 4, 4, 4].map(|width| self.number(width))
    }
}

pub fn refused(refusal: Refusal) -> Numbers {
    [1, u64::from(refusal.number), refusal.record, 0, 0, 0]
}

/// The whole answer to a delivery: its numbers, and what was expected, a date and a balance.
pub type Whole = (Numbers, u64, i64);

/// Delivers a file: the answer, what was expected and the journal are the same. A date is expected
/// with 22, and with no other answer.
pub fn deliver_again(reader: &mut Reader, journal: &mut [u8], line_end: u64, file: &[u8]) -> Whole {
    let (answer, expected) = match deliver(journal, line_end, file) {
        Ok(done) => ([0, 0, 0, done.stored, done.held, 0], Expected::default()),
        Err(not_delivered) => (refused(not_delivered.refusal), not_delivered.expected),
    };
    assert_eq!(reader.answer(), answer);
    let (date, balance) = (reader.number(8), reader.number(8) as i64);
    assert_eq!(date, u64::from(expected.date));
    assert_eq!(i128::from(balance), expected.balance);
    assert_eq!(date != 0, answer[1] == 22);
    assert!(date != 0 || balance == 0);
    assert_eq!(reader.number(8), fnv(journal));
    (answer, date, balance)
}
