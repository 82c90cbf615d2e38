//! Seeded generators of valid files.

use crate::record::{
    line_end, put, write_amount, write_date, CREDIT_ZERO, DAYS, DEBIT_ZERO, MOST, RECORD,
};
use crate::rng::Rng;

/// A file as lines, each a record with its line end, so that damages can take hold of it.
#[derive(Clone)]
pub struct Draft {
    pub line_end: u64,
    pub lines: Vec<Vec<u8>>,
}

impl Draft {
    pub fn bytes(&self) -> Vec<u8> {
        self.lines.concat()
    }

    /// A record with this file's line end.
    pub fn line(&self, record: &[u8]) -> Vec<u8> {
        [record, line_end(self.line_end)].concat()
    }
}

/// The account key; an account has one in all its records.
#[derive(Clone)]
pub struct Key {
    pub bank: Vec<u8>,
    pub branch: Vec<u8>,
    pub currency: Vec<u8>,
    pub decimals: Vec<u8>,
    pub account: Vec<u8>,
}

impl Key {
    /// The 25 bytes with which a journal's entry begins.
    pub fn bytes(&self) -> Vec<u8> {
        [
            &self.bank[..],
            &self.branch,
            &self.currency,
            &self.decimals,
            &self.account,
        ]
        .concat()
    }

    /// Puts the key into a record.
    pub fn put_into(&self, record: &mut [u8]) {
        put(record, 3, &self.bank);
        put(record, 12, &self.branch);
        put(record, 17, &self.currency);
        put(record, 20, &self.decimals);
        put(record, 22, &self.account);
    }
}

/// A day and the balance on it.
#[derive(Clone, Copy)]
pub struct Balance {
    pub day: u64,
    pub value: i64,
}

/// One statement as records without line ends, with its two balances.
#[derive(Clone)]
pub struct Statement {
    pub key: Key,
    pub old: Balance,
    pub new: Balance,
    pub records: Vec<Vec<u8>>,
}

/// A line-end number, a size, and a file of them.
pub fn small_file(rng: &mut Rng) -> Draft {
    let line_end = rng.below(3);
    let records = small_size(rng);
    file(rng, line_end, records)
}

/// A file of 2 to 8 records. One in ten is larger, so that every damage finds a place.
pub fn few_records(rng: &mut Rng) -> Draft {
    if rng.one_in(10) {
        return small_file(rng);
    }
    let line_end = rng.below(3);
    let records = 2 + rng.index(7);
    file(rng, line_end, records)
}

/// Mostly 2 to 60 records, now and then none.
fn small_size(rng: &mut Rng) -> usize {
    match rng.below(12) {
        0 if rng.one_in(4) => 0,
        0..=3 => 2 + rng.index(6),
        _ => 2 + rng.index(59),
    }
}

/// A file of exactly so many records (any number but 1), several statements of several accounts.
pub fn file(rng: &mut Rng, line_end: u64, records: usize) -> Draft {
    let keys = keys(rng);
    let mut draft = Draft {
        line_end,
        lines: Vec::with_capacity(records),
    };
    let mut left = records;
    while left > 0 {
        let size = statement_size(rng, left);
        left -= size;
        let key = &keys[rng.index(keys.len())];
        add_statement(rng, &mut draft, key, size);
    }
    draft
}

/// A file of one statement of exactly so many records, 2 or more, also beyond the limit.
pub fn one_statement(rng: &mut Rng, line_end: u64, records: usize) -> Draft {
    let mut draft = Draft {
        line_end,
        lines: Vec::with_capacity(records),
    };
    let key = key(rng);
    add_statement(rng, &mut draft, &key, records);
    draft
}

/// A statement of exactly so many records, 2 or more, that begins with a given balance.
pub fn statement(
    rng: &mut Rng,
    key: &Key,
    old: Balance,
    new_day: u64,
    records: usize,
) -> Statement {
    let mut draft = Draft {
        line_end: 0,
        lines: Vec::with_capacity(records),
    };
    let new = add_period(rng, &mut draft, key, old, new_day, records);
    Statement {
        key: key.clone(),
        old,
        new,
        records: draft.lines,
    }
}

/// A statement with given movements, each an amount and a number of complements.
pub fn statement_of(
    rng: &mut Rng,
    key: &Key,
    old: Balance,
    new_day: u64,
    movements: &[(i64, usize)],
) -> Statement {
    let mut draft = Draft {
        line_end: 0,
        lines: vec![balance(rng, b"01", key, old)],
    };
    let mut new = Balance {
        day: new_day,
        value: old.value,
    };
    for &(value, complements) in movements {
        new.value += value;
        add_movement(rng, &mut draft, key, (old.day, new_day), value, complements);
    }
    draft.lines.push(balance(rng, b"07", key, new));
    Statement {
        key: key.clone(),
        old,
        new,
        records: draft.lines,
    }
}

/// From 2 to 9,999 records, never leaving a single one over.
fn statement_size(rng: &mut Rng, left: usize) -> usize {
    let most = left.min(9_999);
    let size = match rng.below(8) {
        0 => 2,
        1 => most,
        _ => most.min(2 + rng.index(16)),
    };
    match left - size {
        1 if size == 2 => 3,
        1 => size - 1,
        _ => size,
    }
}

/// One to four accounts; some differ from the first in one zone only.
fn keys(rng: &mut Rng) -> Vec<Key> {
    let first = key(rng);
    let mut keys = vec![first.clone()];
    for _ in 0..rng.below(4) {
        let other = key(rng);
        let mut next = first.clone();
        match rng.below(6) {
            0 => next.bank = other.bank,
            1 => next.branch = other.branch,
            2 => next.currency = other.currency,
            3 => next.decimals = other.decimals,
            4 => next.account = other.account,
            _ => next = other,
        }
        keys.push(next);
    }
    keys
}

/// Any key.
pub fn key(rng: &mut Rng) -> Key {
    Key {
        bank: digits(rng, 5),
        branch: digits(rng, 5),
        currency: if rng.one_in(2) {
            b"EUR".to_vec()
        } else {
            letters(rng, 3)
        },
        decimals: digits(rng, 1),
        account: letters_or_digits(rng, 11),
    }
}

/// Adds a statement of exactly so many records, 2 or more.
fn add_statement(rng: &mut Rng, draft: &mut Draft, key: &Key, size: usize) {
    let day = rng.below(DAYS);
    let new_day = new_day(rng, day);
    let value = amount(rng);
    add_period(rng, draft, key, Balance { day, value }, new_day, size);
}

/// Adds a statement that begins with a given balance. Gives the new one.
fn add_period(
    rng: &mut Rng,
    draft: &mut Draft,
    key: &Key,
    old: Balance,
    new_day: u64,
    size: usize,
) -> Balance {
    let mut new = Balance {
        day: new_day,
        value: old.value,
    };
    draft.lines.push(draft.line(&balance(rng, b"01", key, old)));
    let mut left = size - 2;
    while left > 0 {
        let complements = complement_count(rng, left - 1);
        left -= 1 + complements;
        let value = next_amount(rng, new.value, left > 0);
        new.value += value;
        add_movement(rng, draft, key, (old.day, new_day), value, complements);
    }
    draft.lines.push(draft.line(&balance(rng, b"07", key, new)));
    new
}

/// Adds a 04 booked from the first to the last day of the period, and its complements.
fn add_movement(
    rng: &mut Rng,
    draft: &mut Draft,
    key: &Key,
    (first, last): (u64, u64),
    value: i64,
    complements: usize,
) {
    let booking = booking_day(rng, first, last);
    let movement = movement(rng, key, booking, value);
    draft.lines.push(draft.line(&movement));
    add_complements(rng, draft, &movement, complements);
}

/// The new balance date: the same day, days, a month, years later.
fn new_day(rng: &mut Rng, old: u64) -> u64 {
    let span = match rng.below(8) {
        0 => 0,
        1 => rng.below(DAYS),
        2 => rng.below(800),
        _ => rng.below(32),
    };
    (old + span).min(DAYS - 1)
}

/// Within the period, in any order; its two ends often.
fn booking_day(rng: &mut Rng, old: u64, new: u64) -> u64 {
    match rng.below(6) {
        0 => old,
        1 => new,
        _ => old + rng.below(new - old + 1),
    }
}

/// Zero, the largest, 14 digits, few digits; credit or debit.
pub fn amount(rng: &mut Rng) -> i64 {
    let length = rng.below(13) as u32;
    let size = match rng.below(10) {
        0 => 0,
        1 if rng.one_in(2) => MOST,
        1 | 2 => rng.below(MOST as u64 + 1) as i64,
        3 => rng.below(10) as i64,
        _ => rng.below(10_u64.pow(1 + length)) as i64,
    };
    if rng.one_in(2) {
        -size
    } else {
        size
    }
}

/// An amount after which the sum can still come back to 14 digits. On the way it may leave them.
fn next_amount(rng: &mut Rng, sum: i64, more_follow: bool) -> i64 {
    let most = if more_follow { 2 * MOST } else { MOST };
    let value = amount(rng);
    if (sum + value).abs() <= most {
        value
    } else {
        -MOST * sum.signum()
    }
}

fn complement_count(rng: &mut Rng, most: usize) -> usize {
    let count = match rng.below(10) {
        0..=4 => 0,
        5..=8 => 1 + rng.index(3),
        _ => rng.index(12),
    };
    count.min(most)
}

/// Complements of a movement, often with one MMO among them.
fn add_complements(rng: &mut Rng, draft: &mut Draft, movement: &[u8], count: usize) {
    let mmo = if rng.one_in(2) {
        rng.index(count.max(1))
    } else {
        count
    };
    for number in 0..count {
        let record = if number == mmo {
            mmo_complement(rng, movement)
        } else {
            complement(rng, movement)
        };
        draft.lines.push(draft.line(&record));
    }
}

/// An 01 or 07.
fn balance(rng: &mut Rng, code: &[u8], key: &Key, at: Balance) -> Vec<u8> {
    let mut record = blank_record(code, key, at.day);
    put(&mut record, 91, &amount_zone(rng, at.value));
    record
}

/// An amount as a bank may write it: a zero has either sign.
fn amount_zone(rng: &mut Rng, value: i64) -> Vec<u8> {
    match value {
        0 => zero(rng).to_vec(),
        _ => write_amount(value),
    }
}

/// A zero with either sign.
pub fn zero(rng: &mut Rng) -> &'static [u8] {
    rng.pick(&[CREDIT_ZERO, DEBIT_ZERO])
}

/// A 04 with its free zones filled at will.
fn movement(rng: &mut Rng, key: &Key, day: u64, value: i64) -> Vec<u8> {
    let mut record = blank_record(b"04", key, day);
    put(&mut record, 8, &text(rng, 4));
    put(&mut record, 33, &letters_or_digits(rng, 2));
    if rng.one_in(3) {
        put(&mut record, 41, &digits(rng, 2));
    }
    put(&mut record, 43, &write_date(value_day(rng, day)));
    put(&mut record, 49, &text_with_zeros(rng, 31));
    put(&mut record, 82, &digits(rng, 7));
    put(&mut record, 89, &[rng.pick(b"01 "), rng.pick(b"01 ")]);
    put(&mut record, 91, &amount_zone(rng, value));
    put(&mut record, 105, &text_with_zeros(rng, 16));
    record
}

/// Near the booking date or anywhere from 1980 to 2079.
fn value_day(rng: &mut Rng, booking: u64) -> u64 {
    if rng.one_in(2) {
        rng.below(DAYS)
    } else {
        (booking + rng.below(5)).min(DAYS - 1)
    }
}

/// A 05 of this movement, no MMO.
pub fn complement(rng: &mut Rng, movement: &[u8]) -> Vec<u8> {
    const KNOWN: [&[u8; 3]; 6] = [b"NPY", b"LIB", b"RCN", b"MM0", b"OMM", b"000"];
    let mut qualifier = if rng.one_in(2) {
        rng.pick(&KNOWN).to_vec()
    } else {
        letters_or_digits(rng, 3)
    };
    if qualifier == b"MMO" {
        qualifier = b"MMP".to_vec();
    }
    let information = text_with_zeros(rng, 70);
    let mut record = complement_of(movement, &qualifier, &information);
    if rng.one_in(6) {
        // Where other records have their amount.
        put(&mut record, 91, zero(rng));
    }
    record
}

/// An MMO of this movement.
pub fn mmo_complement(rng: &mut Rng, movement: &[u8]) -> Vec<u8> {
    let amount = if rng.one_in(8) {
        b"00000000000000".to_vec()
    } else {
        digits(rng, 14)
    };
    let information = [letters(rng, 3), digits(rng, 1), amount, vec![b' '; 52]].concat();
    complement_of(movement, b"MMO", &information)
}

fn complement_of(movement: &[u8], qualifier: &[u8], information: &[u8]) -> Vec<u8> {
    let mut record = vec![b' '; RECORD];
    put(&mut record, 1, &movement[..40]);
    put(&mut record, 1, b"05");
    put(&mut record, 46, qualifier);
    put(&mut record, 49, information);
    record
}

/// Code, key and date; all else blank.
fn blank_record(code: &[u8], key: &Key, day: u64) -> Vec<u8> {
    let mut record = vec![b' '; RECORD];
    put(&mut record, 1, code);
    key.put_into(&mut record);
    put(&mut record, 35, &write_date(day));
    record
}

fn digits(rng: &mut Rng, length: usize) -> Vec<u8> {
    (0..length).map(|_| rng.byte(b'0', b'9')).collect()
}

fn letters(rng: &mut Rng, length: usize) -> Vec<u8> {
    (0..length).map(|_| rng.byte(b'A', b'Z')).collect()
}

fn letters_or_digits(rng: &mut Rng, length: usize) -> Vec<u8> {
    let all = b"ABCDEFGHIJKLMNOPQRSTUVWXYZ0123456789";
    (0..length).map(|_| rng.pick(all)).collect()
}

/// A text in which a zero may stand, which is no amount there.
fn text_with_zeros(rng: &mut Rng, length: usize) -> Vec<u8> {
    let mut text = text(rng, length);
    if rng.one_in(6) {
        let zero = zero(rng);
        put(&mut text, 1 + rng.index(length - zero.len() + 1), zero);
    }
    text
}

/// Blanks, capitals and digits with blanks between, or any permitted bytes.
fn text(rng: &mut Rng, length: usize) -> Vec<u8> {
    match rng.below(4) {
        0 => vec![b' '; length],
        1 => (0..length).map(|_| rng.pick(b"VIREMENT  0123")).collect(),
        _ => (0..length).map(|_| rng.byte(0x20, 0x7E)).collect(),
    }
}
