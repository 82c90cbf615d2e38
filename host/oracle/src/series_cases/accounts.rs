//! Accounts whose statements follow one another, and files of such statements.

use crate::damage::other_byte;
use crate::record::{is_nil, line_end, put};
use crate::rng::Rng;
use crate::valid::{amount, key, statement, statement_of, zero, Balance, Key, Statement};

/// The zones of a key that two accounts may differ in.
#[derive(Clone, Copy, Debug)]
pub enum Zone {
    Bank,
    Branch,
    Currency,
    Decimals,
    Account,
}

pub const ZONES: [Zone; 5] = [
    Zone::Bank,
    Zone::Branch,
    Zone::Currency,
    Zone::Decimals,
    Zone::Account,
];

/// An account and the balance its next statement begins with.
#[derive(Clone)]
pub struct Account {
    pub key: Key,
    pub last: Balance,
}

impl Account {
    pub fn new(rng: &mut Rng) -> Account {
        let key = key(rng);
        Account::of(rng, key)
    }

    /// Begins on a day with years before it and after it.
    pub fn of(rng: &mut Rng, key: Key) -> Account {
        let last = Balance {
            day: 4_000 + rng.below(20_000),
            value: amount(rng),
        };
        Account { key, last }
    }

    /// With nothing on it.
    pub fn at_nil(rng: &mut Rng) -> Account {
        let mut account = Account::new(rng);
        account.last.value = 0;
        account
    }

    /// The next statement, of 2 to 8 records.
    pub fn next(&mut self, rng: &mut Rng) -> Statement {
        let records = 2 + rng.index(7);
        self.next_of(rng, records)
    }

    /// The next statement, of so many records.
    pub fn next_of(&mut self, rng: &mut Rng, records: usize) -> Statement {
        let day = self.later_day(rng);
        let next = statement(rng, &self.key, self.last, day, records);
        self.move_on(next)
    }

    /// The next statement, with one 04 and one 05: four records.
    pub fn next_plain(&mut self, rng: &mut Rng) -> Statement {
        let value = toward_zero(self.last.value, 1 + rng.below(5_000) as i64);
        self.next_with(rng, &[(value, 1)])
    }

    /// The next statement, without movements: two records.
    pub fn next_quiet(&mut self, rng: &mut Rng) -> Statement {
        self.next_with(rng, &[])
    }

    /// The next statement, by which the balance becomes nothing.
    pub fn next_to_nil(&mut self, rng: &mut Rng) -> Statement {
        let rest = -self.last.value;
        self.next_with(rng, &[(0, 0), (rest, 1)])
    }

    /// The next statement, by which the balance stays.
    pub fn next_unchanged(&mut self, rng: &mut Rng) -> Statement {
        let movements = cancelling(rng);
        self.next_with(rng, &movements)
    }

    /// A statement that ends as it begins, on the same day; so does any other of its kind.
    pub fn empty_period(&self, rng: &mut Rng, movements: &[(i64, usize)]) -> Statement {
        statement_of(rng, &self.key, self.last, self.last.day, movements)
    }

    /// The next statement begins so many days later, with the same balance.
    pub fn pause(&mut self, days: u64) {
        self.last.day += days;
    }

    /// A statement that begins so many days later or earlier than the next one, and with so much
    /// money more or less.
    pub fn astray(&self, rng: &mut Rng, days: i64, money: i64) -> Statement {
        let from = Balance {
            day: (self.last.day as i64 + days).max(0) as u64,
            value: self.last.value + toward_zero(self.last.value, money),
        };
        let mut other = self.clone();
        other.last = from;
        other.next(rng)
    }

    /// The next statement, with these amounts, each with a number of complements.
    fn next_with(&mut self, rng: &mut Rng, movements: &[(i64, usize)]) -> Statement {
        let day = self.later_day(rng);
        let next = statement_of(rng, &self.key, self.last, day, movements);
        self.move_on(next)
    }

    /// At least a day later, so that no statement follows itself.
    fn later_day(&self, rng: &mut Rng) -> u64 {
        self.last.day + 1 + rng.below(31)
    }

    fn move_on(&mut self, next: Statement) -> Statement {
        self.last = next.new;
        next
    }
}

/// Movements that come to nothing, each an amount and a number of complements.
pub fn cancelling(rng: &mut Rng) -> Vec<(i64, usize)> {
    let amount = 1 + rng.below(5_000) as i64;
    match rng.below(4) {
        0 => vec![],
        1 => vec![(0, 1)],
        2 => vec![(amount, 0), (-amount, 1)],
        _ => vec![(0, 0), (-amount, 2), (0, 1), (amount, 0)],
    }
}

/// The amount with the sign that keeps a balance within 14 digits.
fn toward_zero(balance: i64, amount: i64) -> i64 {
    if balance > 0 {
        -amount
    } else {
        amount
    }
}

/// The same key but for one byte of one zone.
pub fn apart(rng: &mut Rng, key: &Key, zone: Zone) -> Key {
    let mut other = key.clone();
    let bytes = match zone {
        Zone::Bank => &mut other.bank,
        Zone::Branch => &mut other.branch,
        Zone::Currency => &mut other.currency,
        Zone::Decimals => &mut other.decimals,
        Zone::Account => &mut other.account,
    };
    let place = rng.index(bytes.len());
    bytes[place] = other_byte(rng, bytes[place]);
    other
}

/// The same statement of another account.
pub fn twin(statement: &Statement, key: &Key) -> Statement {
    let mut twin = statement.clone();
    twin.key = key.clone();
    for record in &mut twin.records {
        key.put_into(record);
    }
    twin
}

/// The same statement, its dates and amounts too, but for a byte of its first movement's label.
pub fn relabelled(rng: &mut Rng, statement: &Statement) -> Statement {
    let mut other = statement.clone();
    let movement = other
        .records
        .iter_mut()
        .find(|line| line.starts_with(b"04"));
    if let Some(line) = movement {
        let position = 49 + rng.index(31);
        let byte = other_byte(rng, line[position - 1]);
        put(line, position, &[byte]);
    }
    other
}

/// The same statement with all its zeros written this way.
pub fn with_zeros(statement: &Statement, zero: &[u8]) -> Statement {
    let mut other = statement.clone();
    for line in other.records.iter_mut().filter(|line| is_nil(line)) {
        put(line, 91, zero);
    }
    other
}

/// The same statement with each of its zeros written either way.
pub fn in_some_writing(rng: &mut Rng, statement: &Statement) -> Statement {
    let mut other = statement.clone();
    for line in other.records.iter_mut().filter(|line| is_nil(line)) {
        put(line, 91, zero(rng));
    }
    other
}

/// A file of these statements.
pub fn file(number: u64, statements: &[&Statement]) -> Vec<u8> {
    let mut bytes = Vec::new();
    for record in statements.iter().flat_map(|statement| &statement.records) {
        bytes.extend(record);
        bytes.extend(line_end(number));
    }
    bytes
}
