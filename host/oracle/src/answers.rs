//! Answers in the paper's numbers, as the files for a replay hold them.

use std::collections::BTreeMap;

use crate::check::{check, records_in, Answer};
use crate::read::{earliest, Refusal};

/// An answer in the paper's numbers: kind (0 answered, 1 refused), refusal, record, three values.
#[derive(Clone, Copy, Debug, PartialEq, Eq)]
pub struct Numbers {
    pub kind: u8,
    pub number: u32,
    pub record: u32,
    pub values: [u32; 3],
}

impl Numbers {
    pub fn answered(values: [u64; 3]) -> Numbers {
        Numbers {
            kind: 0,
            number: 0,
            record: 0,
            values: values.map(narrow),
        }
    }

    pub fn refused(number: u32, record: u64) -> Numbers {
        Numbers {
            kind: 1,
            number,
            record: narrow(record),
            values: [0; 3],
        }
    }

    /// What the check answers.
    pub fn of_check(line_end: u64, file: &[u8]) -> Numbers {
        match check(line_end, file) {
            Answer::Accepted {
                statements,
                movements,
                complements,
            } => Numbers::answered([statements, movements, complements]),
            Answer::Refused { number, record } => Numbers::refused(number, record),
        }
    }

    /// What the length of a file alone answers.
    pub fn of_length(line_end: u64, length: u64) -> Numbers {
        match records_in(line_end, length) {
            Ok(records) => Numbers::answered([records, 0, 0]),
            Err(number) => Numbers::refused(number, 0),
        }
    }

    /// The earliest old balance date in a file; it stands in the first two fields of the number.
    pub fn of_earliest(line_end: u64, file: &[u8]) -> Numbers {
        Numbers::of_call(earliest(line_end, file).map(|date| [u64::from(date), 0, 0]))
    }

    pub fn of_call(answer: Result<[u64; 3], Refusal>) -> Numbers {
        match answer {
            Ok(values) => Numbers::answered(values),
            Err(refusal) => Numbers::refused(refusal.number, refusal.record),
        }
    }

    pub fn put(&self, out: &mut Vec<u8>) {
        out.push(self.kind);
        for number in [self.number, self.record].into_iter().chain(self.values) {
            out.extend(number.to_le_bytes());
        }
    }
}

/// No answer has a number beyond 20 bits but a date, which has 25.
fn narrow(number: u64) -> u32 {
    u32::try_from(number).expect("an answer of more than 32 bits")
}

/// How often each answer occurs: refusals by their number, all others under 0.
#[derive(Default)]
pub struct Tally(pub BTreeMap<u32, u64>);

impl Tally {
    pub fn count(&mut self, number: u32) {
        *self.0.entry(number).or_default() += 1;
    }

    pub fn words(&self) -> String {
        let word = |(number, count): (&u32, &u64)| match number {
            0 => format!("answered {count}"),
            _ => format!("refused with {number} {count}"),
        };
        self.0.iter().map(word).collect::<Vec<_>>().join(", ")
    }
}
