//! Statements of the worked account with blank free zones, as the vectors have them.

use crate::record::{plain, put, write_amount, write_date};
use crate::series_cases::Script;
use crate::valid::Draft;

/// The account's key, as in an entry.
pub const KEY: &[u8] = b"1234500010EUR20001234567A";

/// Its number.
const ACCOUNT: &str = "0001234567A";

/// The zones of the key, each with other bytes: a position in a record and what is put there.
pub const OTHER_KEYS: [(usize, &[u8]); 5] = [
    (3, b"12346"),
    (12, b"00011"),
    (17, b"USD"),
    (20, b"3"),
    (22, b"0001234567B"),
];

/// The last days of months.
pub const DECEMBER_ENDS: &str = "311224";
pub const JANUARY_ENDS: &str = "310125";
pub const FEBRUARY_ENDS: &str = "280225";
pub const MARCH_ENDS: &str = "310325";
pub const APRIL_ENDS: &str = "300425";
pub const MAY_ENDS: &str = "310525";

/// The balances of the account on three of them.
pub const AFTER_JANUARY: i64 = 100_000;
pub const AFTER_FEBRUARY: i64 = 120_833;
pub const AFTER_MARCH: i64 = 100_005;

/// Records without line ends.
pub type Records = Vec<Vec<u8>>;

/// A statement; its movements are booked on its old date.
pub fn statement(dates: [&str; 2], old: &str, amounts: &[&str], new: &str) -> Records {
    let mut records = vec![balance("01", dates[0], old)];
    records.extend(amounts.iter().map(|amount| movement(dates[0], amount)));
    records.push(balance("07", dates[1], new));
    records
}

/// A statement with these movements. The new balance is what they come to.
pub fn moved(dates: [&str; 2], old: i64, movements: &[i64]) -> Records {
    let new = old + movements.iter().sum::<i64>();
    let amounts: Vec<String> = movements.iter().map(|&value| amount(value)).collect();
    let amounts: Vec<&str> = amounts.iter().map(String::as_str).collect();
    statement(dates, &amount(old), &amounts, &amount(new))
}

/// A statement without a movement.
pub fn quiet(dates: [&str; 2], balance: i64) -> Records {
    moved(dates, balance, &[])
}

/// A statement of that day, which leaves the account as it is after February.
pub fn one_day(day: u64) -> Records {
    let date = String::from_utf8(write_date(day)).expect("a date has digits");
    quiet([&date, &date], AFTER_FEBRUARY)
}

/// Months in a row, of 3, 4, 3 and 2 records.
pub fn january() -> Records {
    moved([DECEMBER_ENDS, JANUARY_ENDS], 95_000, &[5_000])
}

pub fn february() -> Records {
    let movements = [25_050, -4_217];
    moved([JANUARY_ENDS, FEBRUARY_ENDS], AFTER_JANUARY, &movements)
}

pub fn march() -> Records {
    moved([FEBRUARY_ENDS, MARCH_ENDS], AFTER_FEBRUARY, &[-20_828])
}

pub fn april() -> Records {
    quiet([MARCH_ENDS, APRIL_ENDS], AFTER_MARCH)
}

/// An April that follows neither February nor March.
pub fn astray() -> Records {
    quiet([MARCH_ENDS, APRIL_ENDS], AFTER_MARCH + 1)
}

/// February with a movement less.
pub fn corrected_february() -> Records {
    moved([JANUARY_ENDS, FEBRUARY_ENDS], AFTER_JANUARY, &[25_050])
}

/// The same statement of another account: other bytes at a position of each record.
pub fn of_another(mut records: Records, (position, bytes): (usize, &[u8])) -> Records {
    for record in &mut records {
        put(record, position, bytes);
    }
    records
}

/// An amount as it stands in a record.
fn amount(value: i64) -> String {
    String::from_utf8(write_amount(value)).expect("an amount has printable bytes")
}

/// An 01 or 07.
fn balance(code: &str, date: &str, amount: &str) -> Vec<u8> {
    let mut record = plain(code, ACCOUNT, date);
    put(&mut record, 91, amount.as_bytes());
    record
}

/// A 04, its free zones blank.
fn movement(date: &str, amount: &str) -> Vec<u8> {
    let mut record = balance("04", date, amount);
    put(&mut record, 33, b"05");
    put(&mut record, 43, date.as_bytes());
    put(&mut record, 82, b"000000000");
    record
}

/// A 05 of a movement of that date, from its qualifier on.
pub fn complement(date: &str, text: &str) -> Vec<u8> {
    let mut record = plain("05", ACCOUNT, date);
    put(&mut record, 33, b"05");
    put(&mut record, 46, text.as_bytes());
    record
}

/// The same with bytes at a position of a record, whose index counts from 0.
pub fn with(mut records: Records, record: usize, position: usize, bytes: &[u8]) -> Records {
    put(&mut records[record], position, bytes);
    records
}

/// The records with a line end after each.
pub fn draft(records: &[Vec<u8>], line_end: u64) -> Draft {
    let mut draft = Draft {
        line_end,
        lines: Vec::new(),
    };
    draft.lines = records.iter().map(|record| draft.line(record)).collect();
    draft
}

/// A file of these statements.
pub fn file(statements: &[Records], line_end: u64) -> Vec<u8> {
    draft(&statements.concat(), line_end).bytes()
}

/// Delivers a file of these statements.
pub fn deliver(script: &mut Script, line_end: u64, statements: &[Records]) {
    script.deliver_bytes(line_end, &file(statements, line_end));
}

/// Asks for the newest statement of the account with such a file.
pub fn newest(script: &mut Script, line_end: u64, statements: &[Records]) {
    script.newest_bytes(line_end, KEY, &file(statements, line_end));
}
