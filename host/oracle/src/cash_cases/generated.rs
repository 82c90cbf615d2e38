//! Generated journals of several accounts, sound ones and damaged ones, and questions about them.

use super::questions::{Book, Question, Span};
use super::spans::{near, no_days, some_span};
use super::statements::{journal_of, on, revalued};
use crate::cash::MOST_DAYS;
use crate::damage::other_byte;
use crate::hostile::{random_bytes, FAR_OUT};
use crate::journal::{ENTRIES, TABLE};
use crate::record::{date_number, is_nil, DAYS, RECORD};
use crate::rng::Rng;
use crate::series_cases::accounts::{apart, Account, ZONES};
use crate::valid::{key, Key, Statement};

/// A journal and questions about it. Half of the journals are damaged; of them less is asked.
pub fn some_book(rng: &mut Rng) -> Book {
    let centre = some_centre(rng);
    let accounts = some_accounts(rng, centre);
    let statements = some_statements(rng, accounts.clone(), centre);
    let spare_lines = rng.index(4);
    let mut book = Book::new(journal_of(&statements, spare_lines));
    let (name, questions) = if rng.one_in(2) {
        (damage(rng, &mut book.journal), 2)
    } else {
        ("generated", 40)
    };
    // Accounts without a statement are asked too.
    let mut keys: Vec<&Key> = statements.iter().map(|one| &one.key).collect();
    keys.push(&accounts[rng.index(accounts.len())].key);
    add_faults(rng, &mut book, name, &keys, centre);
    for _ in 0..questions {
        let key = some_key(rng, &keys);
        let (span, days) = asked_span(rng, centre);
        let rows = some_rows(rng, days);
        book.position(name, &key, span, rows);
    }
    let entries = some_entries(rng, statements.len() as u64);
    book.add(name, Question::Balances(entries));
    let days = (0..16).map(|_| some_days(rng, centre)).collect();
    book.add("generated-days", Question::Days(days));
    book
}

/// A day around which value dates and spans lie: any, or one where a calendar may go wrong.
fn some_centre(rng: &mut Rng) -> u64 {
    let special = [
        "010180", "290280", "311299", "290200", "290224", "280225", "311279",
    ];
    if rng.one_in(2) {
        on(rng.pick(&special))
    } else {
        rng.below(DAYS)
    }
}

/// One to six accounts. Most differ from the first in one zone only; half begin near the centre.
fn some_accounts(rng: &mut Rng, centre: u64) -> Vec<Account> {
    let first = key(rng);
    let mut keys = vec![first.clone()];
    for zone in ZONES {
        match rng.below(4) {
            0 => keys.push(key(rng)),
            1 | 2 => keys.push(apart(rng, &first, zone)),
            _ => {}
        }
    }
    let account = |key| {
        let mut account = Account::of(rng, key);
        if rng.one_in(2) {
            // Room for the statements that follow.
            account.last.day = centre.saturating_sub(20).min(DAYS - 400);
        }
        account
    };
    keys.into_iter().map(account).collect()
}

/// Up to ten statements in turn, of any of the accounts. Some begin days after the one before.
fn some_statements(rng: &mut Rng, mut accounts: Vec<Account>, centre: u64) -> Vec<Statement> {
    let count = rng.below(11);
    let statement = |_| {
        let index = rng.index(accounts.len());
        let account = &mut accounts[index];
        if rng.one_in(3) {
            account.pause(1 + rng.below(3));
        }
        let next = match rng.below(8) {
            0 => account.next_quiet(rng),
            1 => account.next_of(rng, 20),
            2 => account.next_to_nil(rng),
            3 if account.last.value == 0 => account.next_unchanged(rng),
            _ => account.next(rng),
        };
        revalued(rng, next, centre)
    };
    (0..count).map(statement).collect()
}

/// Changes a byte or the length. Says what was done; the journal may still be sound.
fn damage(rng: &mut Rng, journal: &mut Vec<u8>) -> &'static str {
    if rng.one_in(4) {
        if let Some(sign) = sign_of_a_zero(rng, journal) {
            journal[sign] = b'}';
            return "a-debit-zero";
        }
    }
    match rng.below(8) {
        0 => {
            journal.pop();
            "a-byte-less"
        }
        1 => {
            journal.truncate(journal.len().saturating_sub(RECORD));
            "a-line-less"
        }
        2 => {
            let length = rng.index(journal.len());
            journal.truncate(length);
            "cut"
        }
        3 => {
            journal.push(b' ');
            "a-byte-more"
        }
        4 => {
            journal.extend([b' '; RECORD]);
            "a-line-more"
        }
        kind => {
            // In the first entries, in the body lines, or anywhere.
            let place = match kind {
                5 => rng.index(300),
                6 if journal.len() > TABLE => TABLE + rng.index(journal.len() - TABLE),
                _ => rng.index(journal.len()),
            };
            journal[place] = other_byte(rng, journal[place]);
            "a-byte-changed"
        }
    }
}

/// Where the sign of an amount of nothing stands, if there is one.
fn sign_of_a_zero(rng: &mut Rng, journal: &[u8]) -> Option<usize> {
    let lines = journal[TABLE..].chunks_exact(RECORD).enumerate();
    let nil = lines.filter(|(_, line)| is_nil(line));
    let signs: Vec<usize> = nil.map(|(line, _)| TABLE + RECORD * line + 103).collect();
    (!signs.is_empty()).then(|| rng.pick(&signs))
}

/// Each fault beside each other one.
fn add_faults(rng: &mut Rng, book: &mut Book, name: &str, keys: &[&Key], centre: u64) {
    let zone = rng.pick(&ZONES);
    let known = rng.pick(keys);
    let unknown = apart(rng, known, zone);
    let first = near(rng, centre).min(DAYS - 10);
    let right = (date_number(first), date_number(first + rng.below(10)));
    let wrong = loop {
        let (span, days) = asked_span(rng, centre);
        if days == 0 {
            break span;
        }
    };
    book.faults_at_once(name, [&known.bytes(), &unknown.bytes()], [right, wrong]);
}

/// A held key, one apart from it in one zone, one of another length, or any bytes.
fn some_key(rng: &mut Rng, keys: &[&Key]) -> Vec<u8> {
    let key = rng.pick(keys);
    let bytes = key.bytes();
    match rng.below(16) {
        0 => {
            let zone = rng.pick(&ZONES);
            apart(rng, key, zone).bytes()
        }
        1 => {
            let length = rng.pick(&[0, 11, 24]);
            bytes[..length].to_vec()
        }
        2 => [&bytes, &b" "[..]].concat(),
        3 => random_bytes(rng, 25),
        _ => bytes,
    }
}

/// A span and the number of its days, 0 where it is wrong. One in eight has what is no day.
fn asked_span(rng: &mut Rng, centre: u64) -> (Span, usize) {
    let ((first, last), days) = some_span(rng, centre);
    if !rng.one_in(8) {
        return ((first, last), days);
    }
    let none = rng.pick(&no_days(date_number(centre)));
    let span = rng.pick(&[(none, last), (first, none), (none, none)]);
    (span, 0)
}

/// Exactly so many rows, more, one less, fewer, none.
fn some_rows(rng: &mut Rng, days: usize) -> usize {
    match rng.below(16) {
        0 => 0,
        1 => days.saturating_sub(1),
        2 => rng.index(days + 1),
        3..=5 => days + 1 + rng.index(5),
        6 => MOST_DAYS + rng.index(100),
        _ => days,
    }
}

/// All entries that there are, those around them, and numbers far out.
fn some_entries(rng: &mut Rng, used: u64) -> Vec<u64> {
    let mut entries: Vec<u64> = (0..=used + 1).collect();
    entries.extend([ENTRIES as u64, ENTRIES as u64 + 1]);
    entries.push(rng.pick(&FAR_OUT));
    entries
}

/// A day and how many days to go from it: few, any, or far out.
fn some_days(rng: &mut Rng, centre: u64) -> (u64, u64) {
    let day = date_number(near(rng, centre));
    let after = match rng.below(6) {
        0 => rng.below(3),
        1 => rng.pick(&FAR_OUT),
        2 => rng.below(DAYS + 10),
        _ => rng.below(800),
    };
    match rng.below(8) {
        0 => (rng.pick(&no_days(day)), after),
        _ => (day, after),
    }
}
