//! Cases for the cash desk's questions, with their answers, in one binary file for a program that
//! is linked with the exported functions and compares; and a journal to measure with.
//!
//! Numbers stand low byte first. README.md has the format.

mod generated;
mod large;
mod questions;
mod spans;
pub(crate) mod statements;
mod unsound;
mod vectors;

pub use generated::some_book;
pub use questions::{Book, CashCase, Question};

use std::io;
use std::path::Path;

use crate::answers::Numbers;
use crate::case_file::{put_bytes, Cases};
use crate::cash::{balance, day, position};
use crate::failure::failure;
use crate::rng::Rng;

/// The first bytes of the file.
pub const POSITIONS: &[u8; 8] = b"CHPOSITN";

const BIG_SEED: u64 = 400;

/// Writes the fixed cases and so many generated ones. Gives a line that says what they are.
pub fn replay_positions(seed: u64, count: u64, path: &Path) -> io::Result<String> {
    let mut rng = Rng::new(seed);
    let books = fixed(&mut rng);
    let fixed: u64 = books.iter().map(|book| book.cases.len() as u64).sum();
    let mut cases = Cases::create(path, POSITIONS, seed, fixed + count)?;
    for book in &books {
        add_book(&mut cases, book)?;
    }
    let mut left = count as usize;
    while left > 0 {
        let mut book = some_book(&mut rng);
        book.cases.truncate(left);
        left -= book.cases.len();
        add_book(&mut cases, &book)?;
    }
    let tally = cases.finish()?;
    Ok(format!(
        "positions: seed {seed}, {fixed} fixed, {count} generated: {}",
        tally.words()
    ))
}

/// Writes a journal of so many lines that one account fills. Gives a line that says what to ask.
pub fn big_account(lines: u64, path: &Path) -> io::Result<String> {
    let most = large::MOST_LINES as u64;
    if !(2..=most).contains(&lines) {
        return Err(failure(format!("from 2 to {most} lines")));
    }
    let (journal, words) = large::big_account(&mut Rng::new(BIG_SEED), lines as usize);
    std::fs::write(path, journal)?;
    Ok(words)
}

/// The vectors, the journals that are not sound, the large ones.
fn fixed(rng: &mut Rng) -> Vec<Book> {
    let mut books = vectors::vectors(rng);
    books.extend(unsound::unsound(rng));
    books.extend(large::large(rng));
    books
}

/// The cases of a book. The journal stands in the first that asks it.
fn add_book(cases: &mut Cases, book: &Book) -> io::Result<()> {
    let mut stands = false;
    for case in &book.cases {
        let (body, numbers) = body(case, &book.journal, &mut stands);
        cases.add(&case.name, &body, &numbers)?;
    }
    Ok(())
}

/// A case without its name, and the refusal or 0 where it asks for a position.
fn body(case: &CashCase, journal: &[u8], stands: &mut bool) -> (Vec<u8>, Vec<u32>) {
    let mut out = Vec::new();
    let mut numbers = Vec::new();
    match &case.question {
        Question::Position {
            key,
            first,
            last,
            rows,
        } => {
            out.push(b'P');
            put_journal(&mut out, journal, stands);
            let number = put_position(&mut out, journal, key, (*first, *last), *rows);
            numbers.push(number);
        }
        Question::Balances(entries) => {
            out.push(b'B');
            put_journal(&mut out, journal, stands);
            put_balances(&mut out, journal, entries);
        }
        Question::Days(days) => {
            out.push(b'D');
            put_days(&mut out, days);
        }
    }
    (out, numbers)
}

/// Its length and its bytes without the blanks at its end, or that it is the one before.
fn put_journal(out: &mut Vec<u8>, journal: &[u8], stands: &mut bool) {
    out.push(u8::from(!*stands));
    if !*stands {
        let used = journal.iter().rposition(|&byte| byte != b' ');
        out.extend((journal.len() as u64).to_le_bytes());
        put_bytes(out, &journal[..used.map_or(0, |last| last + 1)]);
    }
    *stands = true;
}

/// Key, span, rows, answer, the amounts filled. Gives the refusal.
fn put_position(
    out: &mut Vec<u8>,
    journal: &[u8],
    key: &[u8],
    (first, last): (u64, u64),
    rows: usize,
) -> u32 {
    let mut table = vec![0; rows];
    let days = position(journal, key, first, last, &mut table);
    let answer = Numbers::of_call(days.map(|days| [days, 0, 0]));
    put_bytes(out, key);
    for number in [first, last, rows as u64] {
        out.extend(number.to_le_bytes());
    }
    answer.put(out);
    for amount in &table[..days.unwrap_or(0) as usize] {
        out.extend(amount.to_le_bytes());
    }
    answer.number
}

/// Whether the answers are told, then the entries, each with its balance.
fn put_balances(out: &mut Vec<u8>, journal: &[u8], entries: &[u64]) {
    let balances: Option<Vec<i64>> = entries.iter().map(|&e| balance(journal, e)).collect();
    let told = balances.is_some();
    let balances = balances.unwrap_or_else(|| vec![0; entries.len()]);
    out.push(u8::from(told));
    put_count(out, entries.len());
    for (entry, balance) in entries.iter().zip(balances) {
        out.extend(entry.to_le_bytes());
        out.extend(balance.to_le_bytes());
    }
}

/// Days, each with the days to go and the day reached.
fn put_days(out: &mut Vec<u8>, days: &[(u64, u64)]) {
    put_count(out, days.len());
    for &(from, after) in days {
        for number in [from, after, day(from, after)] {
            out.extend(number.to_le_bytes());
        }
    }
}

fn put_count(out: &mut Vec<u8>, count: usize) {
    let count = u32::try_from(count).expect("fewer questions than 2^32");
    out.extend(count.to_le_bytes());
}
