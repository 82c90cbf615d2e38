//! Journals of up to 100,000 lines: one account at the limits of its amounts, one to measure with,
//! and several accounts in a full table.

use super::questions::{Book, Question};
use super::spans::some_span;
use super::statements::{journal_of, on, revalued, statement, worked_key, Movement};
use crate::cash::MOST_DAYS;
use crate::record::{date_number, MOST};
use crate::rng::Rng;
use crate::series_cases::accounts::{apart, Account, ZONES};
use crate::valid::{Balance, Statement};

/// Lines of the longest journal, and records of the longest statement.
pub const MOST_LINES: usize = 100_000;
const MOST_RECORDS: usize = 9_999;
/// The first day of the value dates of `big_account`, which go on for 400 days.
const FIRST_VALUE_DATE: &str = "010124";

pub fn large(rng: &mut Rng) -> Vec<Book> {
    vec![extreme(rng, 1), extreme(rng, -1), full_table(rng)]
}

/// P10: eleven statements by which the balance goes from the largest amount to 0 and back, all
/// that leads away from 0 valued before all else. The amount reaches 49,990 times the largest.
fn extreme(rng: &mut Rng, sign: i64) -> Book {
    let (away, back) = (on("010625"), on("030625"));
    let mut statements: Vec<Statement> = Vec::new();
    let mut old = Balance {
        day: on("310125"),
        value: sign * MOST,
    };
    for records in sizes(MOST_LINES) {
        let mut balance = old.value;
        let mut movements = Vec::new();
        for _ in 0..records - 2 {
            let leaves_zero = balance == 0;
            let amount = if leaves_zero { sign * MOST } else { -balance };
            balance += amount;
            movements.push(Movement {
                amount,
                booked: old.day,
                value: if leaves_zero { away } else { back },
            });
        }
        let next = statement(rng, &worked_key(), old, old.day + 7, &movements);
        old = next.new;
        statements.push(next);
    }
    let mut book = Book::new(journal_of(&statements, 0));
    let key = worked_key().bytes();
    book.position("P10-extreme", &key, (20_250_531, 20_250_604), 5);
    book.position("P10-extreme", &key, (20_250_601, 20_250_601), 2);
    book.position("P10-extreme", &key, (20_240_601, 20_250_705), 400);
    book.position("P10-extreme", &key, (20_240_601, 20_250_705), 399);
    book.position("P10-extreme", &key, (20_250_604, 20_250_604), 1);
    book.add("P10-balances", Question::Balances(vec![0, 1, 2, 11, 12]));
    book
}

/// The numbers of records of statements that fill so many lines, 2 or more.
fn sizes(lines: usize) -> Vec<usize> {
    let mut sizes = Vec::new();
    let mut left = lines;
    while left > 0 {
        // No statement has a single record.
        let size = if left == MOST_RECORDS + 1 {
            MOST_RECORDS - 1
        } else {
            left.min(MOST_RECORDS)
        };
        sizes.push(size);
        left -= size;
    }
    sizes
}

/// 128 statements of three accounts that have the same account characters.
fn full_table(rng: &mut Rng) -> Book {
    let key = worked_key();
    let keys = [
        key.clone(),
        apart(rng, &key, ZONES[0]),
        apart(rng, &key, ZONES[3]),
    ];
    let mut accounts = keys.map(|key| Account::of(rng, key));
    let centre = on("290224");
    let mut statements = Vec::new();
    for number in 0..128 {
        let next = accounts[number % 3].next_of(rng, MOST_LINES / 128);
        statements.push(revalued(rng, next, centre));
    }
    let mut book = Book::new(journal_of(&statements, MOST_LINES % 128));
    for account in &accounts {
        let key = account.key.bytes();
        book.position("full-table", &key, (20_231_101, 20_241_204), MOST_DAYS);
        for _ in 0..4 {
            let (span, _) = some_span(rng, centre);
            book.position("full-table", &key, span, MOST_DAYS);
        }
    }
    book.position(
        "full-table",
        &apart(rng, &key, ZONES[1]).bytes(),
        (20_240_229, 20_240_301),
        2,
    );
    book.add("full-table", Question::Balances(vec![0, 1, 64, 128, 129]));
    book
}

/// A journal of so many lines, 2 or more, filled by one account with as many movements as there
/// can be, and what to ask of it.
pub fn big_account(rng: &mut Rng, lines: usize) -> (Vec<u8>, String) {
    let first = on(FIRST_VALUE_DATE);
    let mut statements: Vec<Statement> = Vec::new();
    let mut old = Balance {
        day: first,
        value: 1_000_000,
    };
    for records in sizes(lines) {
        let movement = |rng: &mut Rng| Movement {
            amount: rng.below(20_000_000) as i64 - 10_000_000,
            booked: old.day + rng.below(30),
            value: first + rng.below(MOST_DAYS as u64),
        };
        let movements: Vec<Movement> = (2..records).map(|_| movement(rng)).collect();
        let next = statement(rng, &worked_key(), old, old.day + 30, &movements);
        old = next.new;
        statements.push(next);
    }
    let key = String::from_utf8(worked_key().bytes()).expect("a key is text");
    let last = first + MOST_DAYS as u64 - 1;
    let words = format!(
        "account {key}, valued from {} to {}",
        date_number(first),
        date_number(last)
    );
    (journal_of(&statements, 0), words)
}
