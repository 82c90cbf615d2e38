//! The writer of one statement, and the reader that fills a lent table with movements.
//!
//! The writer decides from the values alone whether a record can hold them and a statement can
//! say them; it does not ask the check. Numbers are added and compared in 128 bits, where nothing
//! can overflow.

use crate::check::RECORD;
use crate::read::{statements, Refusal};
use crate::values::{Head, Key, Row};

/// Bytes of a complement: qualifier and information.
pub const COMPLEMENT: usize = 73;
const MOST_RECORDS: i128 = 9_999;
const MOST_AMOUNT: i128 = 99_999_999_999_999;
const MOST_ENTRY: u32 = 9_999_999;

const NO_STATEMENT: u32 = 16;
const TABLE_TOO_SHORT: u32 = 18;
const NO_ACCEPTED_FILE: u32 = 19;
const OUTPUT_TOO_SHORT: u32 = 20;

fn refused<T>(number: u32) -> Result<T, Refusal> {
    Err(Refusal { number, record: 0 })
}

/// Fills the first rows of a table with the movements of statement k. Gives their number.
pub fn movements(line_end: u64, file: &[u8], k: u64, table: &mut [Row]) -> Result<u64, Refusal> {
    let statements = statements(line_end, file)?;
    let movements = match (1..).zip(&statements).find(|&(number, _)| number == k) {
        Some((_, statement)) => &statement.movements,
        None => return refused(NO_STATEMENT),
    };
    if table.len() < movements.len() {
        return refused(TABLE_TOO_SHORT);
    }
    for (row, movement) in table.iter_mut().zip(movements) {
        *row = Row::of(&movement.row);
    }
    Ok(movements.len() as u64)
}

/// Writes a statement without line ends to the first bytes of `out`. Gives their number.
pub fn write_statement(
    head: &Head,
    table: &[Row],
    complements: &[u8],
    out: &mut [u8],
) -> Result<u64, Refusal> {
    if !writable(head, table, complements) {
        return refused(NO_ACCEPTED_FILE);
    }
    let records = records(head, table, complements);
    let length = records.len() * RECORD;
    if out.len() < length {
        return refused(OUTPUT_TOO_SHORT);
    }
    for (line, record) in out.chunks_exact_mut(RECORD).zip(&records) {
        line.copy_from_slice(record);
    }
    Ok(length as u64)
}

/// Whether some accepted file reads as these values.
pub fn writable(head: &Head, table: &[Row], complements: &[u8]) -> bool {
    counts_fit(table, complements)
        && key_fits(&head.key)
        && [head.old_date, head.new_date].into_iter().all(exists)
        && [head.old_balance, head.new_balance]
            .into_iter()
            .all(has_14_digits)
        && table.iter().all(row_fits)
        && parts(table, complements).all(complements_fit)
        && in_order(head, table)
        && adds_up(head, table)
}

/// The counts give the length of the complements, and the statement is not too long.
fn counts_fit(table: &[Row], complements: &[u8]) -> bool {
    let count: i128 = table.iter().map(|row| i128::from(row.complements)).sum();
    let records = 2 + table.len() as i128 + count;
    records <= MOST_RECORDS && COMPLEMENT as i128 * count == complements.len() as i128
}

fn key_fits(key: &Key) -> bool {
    all(&key.bank, digit)
        && all(&key.branch, digit)
        && all(&key.currency, capital)
        && digit(key.decimals)
        && all(&key.account, capital_or_digit)
}

/// Every zone of a 04 by itself.
fn row_fits(row: &Row) -> bool {
    let blank_or_number = all(&row.reject, blank) || all(&row.reject, digit);
    let flags = [row.exempt, row.unavailable];
    all(&row.internal, permitted)
        && all(&row.code, capital_or_digit)
        && exists(row.booked)
        && blank_or_number
        && exists(row.value)
        && all(&row.label, permitted)
        && row.entry <= MOST_ENTRY
        && flags.iter().all(|flag| matches!(flag, b'0' | b'1' | b' '))
        && has_14_digits(row.amount)
        && all(&row.reference, permitted)
}

/// The complements of each movement in turn. Only for counts that fit.
fn parts<'a>(table: &'a [Row], complements: &'a [u8]) -> impl Iterator<Item = &'a [u8]> {
    let mut rest = complements;
    table.iter().map(move |row| {
        let (part, after) = rest.split_at(COMPLEMENT * row.complements as usize);
        rest = after;
        part
    })
}

/// The complements of one movement: each right in itself, and at most one MMO.
fn complements_fit(part: &[u8]) -> bool {
    let complements = part.chunks_exact(COMPLEMENT);
    let mmos = complements.clone().filter(|complement| is_mmo(complement));
    mmos.count() <= 1 && complements.into_iter().all(complement_fits)
}

fn complement_fits(complement: &[u8]) -> bool {
    let (qualifier, information) = complement.split_at(3);
    let fits = if is_mmo(complement) {
        mmo_fits(information)
    } else {
        all(information, permitted)
    };
    fits && all(qualifier, capital_or_digit)
}

fn is_mmo(complement: &[u8]) -> bool {
    complement.starts_with(b"MMO")
}

/// Currency, decimals and amount, then blanks.
fn mmo_fits(information: &[u8]) -> bool {
    let (currency, rest) = information.split_at(3);
    let (numbers, rest) = rest.split_at(15);
    all(currency, capital) && all(numbers, digit) && all(rest, blank)
}

/// Old date, then booking dates in any order, then new date.
fn in_order(head: &Head, table: &[Row]) -> bool {
    let period = head.old_date..=head.new_date;
    head.old_date <= head.new_date && table.iter().all(|row| period.contains(&row.booked))
}

fn adds_up(head: &Head, table: &[Row]) -> bool {
    let sum: i128 = table.iter().map(|row| i128::from(row.amount)).sum();
    i128::from(head.old_balance) + sum == i128::from(head.new_balance)
}

/// Whether the number YYYYMMDD is a day from 1980 to 2079.
pub fn exists(date: u32) -> bool {
    let (year, month, day) = (date / 10_000, date / 100 % 100, date % 100);
    let leap = year % 4 == 0 && (year % 100 != 0 || year % 400 == 0);
    let february = if leap { 29 } else { 28 };
    let months = [31, february, 31, 30, 31, 30, 31, 31, 30, 31, 30, 31];
    let last_day = (1..).zip(months).find(|&(number, _)| number == month);
    let last_day = last_day.map_or(0, |(_, days)| days);
    (1980..=2079).contains(&year) && 1 <= day && day <= last_day
}

fn has_14_digits(amount: i64) -> bool {
    (-MOST_AMOUNT..=MOST_AMOUNT).contains(&i128::from(amount))
}

fn all(zone: &[u8], kind: fn(u8) -> bool) -> bool {
    zone.iter().all(|&byte| kind(byte))
}

fn permitted(byte: u8) -> bool {
    (0x20..=0x7E).contains(&byte)
}

fn digit(byte: u8) -> bool {
    byte.is_ascii_digit()
}

fn capital(byte: u8) -> bool {
    byte.is_ascii_uppercase()
}

fn capital_or_digit(byte: u8) -> bool {
    capital(byte) || digit(byte)
}

fn blank(byte: u8) -> bool {
    byte == b' '
}

/// The records of values that are writable.
fn records(head: &Head, table: &[Row], complements: &[u8]) -> Vec<[u8; RECORD]> {
    let mut records = vec![balance(b"01", &head.key, head.old_date, head.old_balance)];
    for (row, part) in table.iter().zip(parts(table, complements)) {
        records.push(movement(&head.key, row));
        for complement in part.chunks_exact(COMPLEMENT) {
            let mut record = start(b"05", &head.key, row.booked);
            put_operation(&mut record, row);
            put(&mut record, 46, complement);
            records.push(record);
        }
    }
    records.push(balance(b"07", &head.key, head.new_date, head.new_balance));
    records
}

/// An 01 or 07.
fn balance(code: &[u8; 2], key: &Key, date: u32, amount: i64) -> [u8; RECORD] {
    let mut record = start(code, key, date);
    put(&mut record, 91, &amount_zone(amount));
    record
}

/// A 04.
fn movement(key: &Key, row: &Row) -> [u8; RECORD] {
    let mut record = start(b"04", key, row.booked);
    put_operation(&mut record, row);
    put(&mut record, 41, &row.reject);
    put(&mut record, 43, &date_zone(row.value));
    put(&mut record, 49, &row.label);
    put(&mut record, 82, format!("{:07}", row.entry).as_bytes());
    put(&mut record, 89, &[row.exempt, row.unavailable]);
    put(&mut record, 91, &amount_zone(row.amount));
    put(&mut record, 105, &row.reference);
    record
}

/// Code, key and date; all else blank.
fn start(code: &[u8; 2], key: &Key, date: u32) -> [u8; RECORD] {
    let mut record = [b' '; RECORD];
    put(&mut record, 1, code);
    put(&mut record, 3, &key.bank);
    put(&mut record, 12, &key.branch);
    put(&mut record, 17, &key.currency);
    put(&mut record, 20, &[key.decimals]);
    put(&mut record, 22, &key.account);
    put(&mut record, 35, &date_zone(date));
    record
}

/// The two operation zones, which a 04 and its 05 share.
fn put_operation(record: &mut [u8; RECORD], row: &Row) {
    put(record, 8, &row.internal);
    put(record, 33, &row.code);
}

/// Puts bytes at a position, which counts from 1.
fn put(record: &mut [u8; RECORD], position: usize, bytes: &[u8]) {
    record[position - 1..][..bytes.len()].copy_from_slice(bytes);
}

/// YYYYMMDD as DDMMYY.
fn date_zone(date: u32) -> Vec<u8> {
    let (year, month, day) = (date / 10_000, date / 100 % 100, date % 100);
    format!("{day:02}{month:02}{:02}", year % 100).into_bytes()
}

/// Thirteen digits, then the last digit as a character that has the sign. Zero is a credit.
fn amount_zone(amount: i64) -> Vec<u8> {
    let (size, signs) = match amount {
        0.. => (amount, b"{ABCDEFGHI"),
        _ => (-amount, b"}JKLMNOPQR"),
    };
    let mut zone = format!("{:013}", size / 10).into_bytes();
    zone.push(signs[(size % 10) as usize]);
    zone
}
