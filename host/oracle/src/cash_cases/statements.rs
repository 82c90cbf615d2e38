//! Statements with value dates at will, and journals that hold them.

use super::spans::near;
use crate::journal::{is_sound, lay_out, Held, TABLE};
use crate::record::{code, put, read_date, write_date, RECORD};
use crate::rng::Rng;
use crate::valid::{statement_of, Balance, Key, Statement};

/// A movement without complements; days count from 1980-01-01.
#[derive(Clone, Copy)]
pub struct Movement {
    pub amount: i64,
    pub booked: u64,
    pub value: u64,
}

/// The worked account of the paper.
pub fn worked_key() -> Key {
    Key {
        bank: b"12345".to_vec(),
        branch: b"00010".to_vec(),
        currency: b"EUR".to_vec(),
        decimals: b"2".to_vec(),
        account: b"0001234567A".to_vec(),
    }
}

/// The day of a date DDMMYY.
pub fn on(date: &str) -> u64 {
    read_date(date.as_bytes()).expect("a date DDMMYY")
}

/// A statement with these movements; its free zones are filled at will.
pub fn statement(
    rng: &mut Rng,
    key: &Key,
    old: Balance,
    new_day: u64,
    movements: &[Movement],
) -> Statement {
    let amounts: Vec<(i64, usize)> = movements.iter().map(|one| (one.amount, 0)).collect();
    let mut statement = statement_of(rng, key, old, new_day, &amounts);
    for (record, movement) in statement.records[1..].iter_mut().zip(movements) {
        put(record, 35, &write_date(movement.booked));
        put(record, 43, &write_date(movement.value));
    }
    statement
}

/// The same statement with most of its movements valued near a day.
pub fn revalued(rng: &mut Rng, mut statement: Statement, centre: u64) -> Statement {
    for record in &mut statement.records {
        if code(record) == b"04" && !rng.one_in(4) {
            put(record, 43, &write_date(near(rng, centre)));
        }
    }
    statement
}

/// A journal that holds these statements, as they are stored, with so many lines to spare.
pub fn journal_of(statements: &[Statement], spare_lines: usize) -> Vec<u8> {
    let held = |one: &Statement| Held::read(&one.records.concat()).expect("a valid statement");
    let list: Vec<Held> = statements.iter().map(held).collect();
    let used: usize = list.iter().map(Held::lines).sum();
    let journal = lay_out(&list, TABLE + RECORD * (used + spare_lines));
    assert!(is_sound(&journal), "statements that do not follow");
    journal
}
