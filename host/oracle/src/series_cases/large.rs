//! Large series, around the limits that small files and journals do not reach. One seed.

use super::accounts::Account;
use super::script::{Make, Script, SeriesCase};
use crate::rng::Rng;
use crate::valid::{file, one_statement, Statement};

const SEED: u64 = 100_000;

const LARGE: [(&str, Make); 4] = [
    ("refusals-3-and-15", refusals_3_and_15),
    ("longest-statement", longest_statement),
    ("longest-journal", longest_journal),
    ("journal-too-long", journal_too_long),
];

/// All large series.
pub fn large_cases() -> Vec<SeriesCase> {
    let mut rng = Rng::new(SEED);
    let case = |&(name, make): &(&'static str, Make)| {
        let mut script = Script::default();
        make(&mut rng, &mut script);
        SeriesCase {
            name,
            bytes: script.bytes,
        }
    };
    LARGE.iter().map(case).collect()
}

/// Files of too many records, and statements of too many.
fn refusals_3_and_15(rng: &mut Rng, script: &mut Script) {
    script.fresh(30);
    let held = Account::new(rng).next(rng);
    script.deliver(1, &[&held]);
    let too_many = file(rng, 0, 20_001);
    script.deliver_bytes(0, &too_many.bytes());
    let too_long = one_statement(rng, 2, 10_000);
    script.deliver_bytes(2, &too_long.bytes());
    script.newest_bytes(2, &held.key.bytes(), &too_long.bytes());
    script.deliver(0, &[&held]);
    script.sound();
    // Before them 21.
    script.poke(7_679, b'0');
    script.deliver_bytes(2, &too_long.bytes());
    script.deliver_bytes(0, &too_many.bytes());
}

/// A statement of 9,999 records, with a line too few and with just enough.
fn longest_statement(rng: &mut Rng, script: &mut Script) {
    let mut account = Account::new(rng);
    let longest = account.next_of(rng, 9_999);
    for lines in [9_998, 9_999] {
        script.fresh(lines);
        script.newest(1, &account.key, &[&longest]);
        script.deliver(1, &[&longest]);
        script.deliver(0, &[&longest]);
        script.newest(2, &account.key, &[]);
        script.sound();
        script.entries(&[1, 2]);
    }
}

/// 100,000 lines filled to the last by files of 20,000 records.
fn longest_journal(rng: &mut Rng, script: &mut Script) {
    let mut accounts = [Account::new(rng), Account::new(rng)];
    let mut last: Vec<Statement> = Vec::new();
    script.fresh(100_000);
    script.sound();
    for _ in 0..5 {
        last = vec![
            accounts[0].next_of(rng, 9_999),
            accounts[1].next_of(rng, 9_999),
            accounts[0].next_quiet(rng),
        ];
        script.deliver(0, &last.iter().collect::<Vec<_>>());
    }
    script.deliver(1, &[&last[2]]);
    script.deliver(1, &[&accounts[1].next_quiet(rng)]);
    script.newest(1, &accounts[0].key, &[]);
    script.entries(&[1, 2, 14, 15, 16]);
    script.sound();
}

/// A line more than any journal has, and lengths near that.
fn journal_too_long(rng: &mut Rng, script: &mut Script) {
    let statement = Account::new(rng).next(rng);
    for length in [12_007_800, 12_007_681, 12_007_679] {
        script.buffer(length);
        script.open();
        script.sound();
        script.entries(&[1]);
        script.deliver(1, &[&statement]);
        script.newest(1, &statement.key, &[&statement]);
    }
}
