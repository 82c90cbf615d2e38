//! Months in a row, and statements for them.

use std::ops::Range;

use crate::cash_cases::statements::on;
use crate::rng::Rng;
use crate::series_cases::accounts::cancelling;
use crate::valid::{amount, statement, statement_of, Balance, Key, Statement};

/// A row of months has so many ends.
const ENDS: usize = 10;

/// The last days of months in a row: month m goes from end m to end m + 1.
#[derive(Clone)]
pub struct Months(Vec<u64>);

/// What the statements of an account are like.
#[derive(Clone, Copy)]
pub struct Habits {
    /// Each month sums to nothing, so that each follows each earlier one.
    pub dormant: bool,
    /// A month closes one to three days before the next one opens.
    pub closes_early: bool,
}

impl Habits {
    pub fn some(rng: &mut Rng) -> Habits {
        Habits {
            dormant: rng.one_in(3),
            closes_early: rng.one_in(5),
        }
    }

    /// Those of an account whose balance stays.
    pub fn dormant(rng: &mut Rng) -> Habits {
        Habits {
            dormant: true,
            ..Habits::some(rng)
        }
    }

    /// Those of an account whose balance changes, but for quiet months.
    pub fn busy(rng: &mut Rng) -> Habits {
        Habits {
            dormant: false,
            ..Habits::some(rng)
        }
    }
}

impl Months {
    /// From 1981 to 2061, often over the turn of the century.
    pub fn new(rng: &mut Rng) -> Months {
        let first = if rng.one_in(4) {
            // The first end is that of October, November or December 1999.
            12 * 19 + 9 + rng.index(3)
        } else {
            12 + rng.index(12 * 80)
        };
        Months((first..first + ENDS).map(last_day).collect())
    }

    /// The last day of all.
    pub fn last(&self) -> u64 {
        self.0[ENDS - 1]
    }

    /// Statements of an account for months in a row, each beginning with the balance of the one
    /// before.
    pub fn statements(
        &self,
        rng: &mut Rng,
        key: &Key,
        range: Range<usize>,
        habits: Habits,
    ) -> Vec<Statement> {
        // Most dormant accounts are at nil, so that their zeros can come with either sign.
        let at_nil = habits.dormant && !rng.one_in(4);
        let mut value = if at_nil { 0 } else { amount(rng) };
        let mut statements = Vec::new();
        for month in range {
            let day = self.0[month];
            let early = if habits.closes_early {
                1 + rng.below(3)
            } else {
                0
            };
            let last_day = self.0[month + 1] - early;
            let next = next_month(rng, key, Balance { day, value }, last_day, habits.dormant);
            value = next.new.value;
            statements.push(next);
        }
        statements
    }
}

/// A statement of 2 to 8 records, now and then more. That of a dormant account sums to nothing.
pub fn next_month(rng: &mut Rng, key: &Key, old: Balance, day: u64, dormant: bool) -> Statement {
    if dormant {
        let movements = cancelling(rng);
        return statement_of(rng, key, old, day, &movements);
    }
    let records = if rng.one_in(6) {
        9 + rng.index(18)
    } else {
        2 + rng.index(7)
    };
    statement(rng, key, old, day, records)
}

/// The last day of a month; month 0 is January 1980.
fn last_day(month: usize) -> u64 {
    let next = month + 1;
    let year = (80 + next / 12) % 100;
    on(&format!("01{:02}{year:02}", 1 + next % 12)) - 1
}
