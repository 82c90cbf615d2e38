//! Full tables, full bodies, short journals and lengths that no journal has.

use super::accounts::Account;
use super::script::Script;
use crate::rng::Rng;
use crate::valid::Statement;

/// The largest number that a header has room for.
const HUGE: u64 = 9_999_999_999_999_999_999;

/// Delivers so many statements of two records in several files.
fn fill(
    rng: &mut Rng,
    script: &mut Script,
    accounts: &mut [Account],
    entries: usize,
) -> Vec<Statement> {
    let number = accounts.len();
    let all: Vec<Statement> = (0..entries)
        .map(|turn| accounts[turn % number].next_quiet(rng))
        .collect();
    for part in all.chunks(50) {
        script.deliver(rng.below(3), &part.iter().collect::<Vec<_>>());
    }
    all
}

/// 128 entries: a held statement is still held, a new one has no place.
pub fn table_full(rng: &mut Rng, script: &mut Script) {
    let mut accounts: Vec<Account> = (0..3).map(|_| Account::new(rng)).collect();
    script.fresh(290);
    let held = fill(rng, script, &mut accounts, 127);
    let mut stranger = Account::new(rng);
    let new = stranger.next_quiet(rng);
    let next = stranger.next_quiet(rng);
    // One place is left; two statements do not go in.
    script.deliver(1, &[&new, &next]);
    script.deliver(1, &[&held[3], &new, &held[4], &next]);
    script.entries(&[127, 128]);
    // The same behind so many held records that line ends would shift the count.
    let mut long: Vec<&Statement> = held.iter().collect();
    long.extend([&new, &next]);
    for line_end in [1, 2] {
        script.deliver(line_end, &long);
    }
    script.deliver(2, &[&new]);
    script.sound();
    for old in [&held[0], &held[126], &new] {
        script.deliver(rng.below(3), &[old]);
    }
    script.deliver(0, &[&next]);
    script.deliver(1, &[&held[0], &next]);
    script.deliver(2, &[&next, &held[0]]);
    script.deliver(0, &[&accounts[0].astray(rng, 0, 1)]);
    script.newest(1, &stranger.key, &[&held[5]]);
    script.newest(1, &stranger.key, &[&next]);
    script.newest(1, &accounts[1].key, &[]);
    script.deliver(1, &[]);
    script.entries(&[0, 1, 128, 129, HUGE]);
}

/// Room for all lines of the last statement, for all but one, for one more.
pub fn lines_full(rng: &mut Rng, script: &mut Script) {
    for over in [0, 1, 2] {
        let (mut account, mut other) = (Account::new(rng), Account::new(rng));
        let (first, last) = (account.next(rng), account.next(rng));
        let (after, strange) = (account.next_quiet(rng), other.next_quiet(rng));
        let lines = first.records.len() + last.records.len();
        script.fresh(lines + over - 1);
        script.deliver(rng.below(3), &[&first]);
        script.newest(1, &account.key, &[&first, &last]);
        script.deliver(rng.below(3), &[&first, &last]);
        script.deliver(rng.below(3), &[&last]);
        script.deliver(rng.below(3), &[&first]);
        script.deliver(rng.below(3), &[&strange]);
        script.deliver(rng.below(3), &[&first, &after]);
        script.newest(2, &account.key, &[&after]);
        script.newest(2, &other.key, &[]);
        script.sound();
        script.entries(&[1, 2, 3]);
    }
}

/// No entry and no line left is 23, an entry but no line left is 24; 22 comes before both, and not
/// for a later day.
pub fn table_and_lines_full(rng: &mut Rng, script: &mut Script) {
    for (entries, lines) in [(128, 256), (127, 255), (127, 254)] {
        let mut accounts: Vec<Account> = (0..2).map(|_| Account::new(rng)).collect();
        script.fresh(lines);
        let held = fill(rng, script, &mut accounts, entries);
        let next = accounts[0].clone().next_quiet(rng);
        let strange = Account::new(rng).next(rng);
        script.deliver(0, &[&next]);
        script.deliver(1, &[&strange]);
        script.deliver(2, &[&held[1], &strange]);
        for (days, money) in [(-1, 0), (1, 1), (1, 0)] {
            script.deliver(0, &[&accounts[1].astray(rng, days, money)]);
        }
        script.deliver(1, &[&held[0], &held[entries - 1]]);
        script.newest(0, &accounts[0].key, &[&next]);
        script.newest(0, &accounts[0].key, &[&held[0]]);
        script.sound();
    }
}

/// Journals with no, one, two and three body lines.
pub fn few_lines(rng: &mut Rng, script: &mut Script) {
    for lines in [0, 1, 2, 3] {
        let mut account = Account::new(rng);
        let (two, next) = (account.next_quiet(rng), account.next_of(rng, 3));
        let strange = Account::new(rng).next_of(rng, 3);
        script.fresh(lines);
        script.sound();
        script.entries(&[0, 1]);
        for line_end in 0..3 {
            script.deliver(line_end, &[]);
            script.newest(line_end, &account.key, &[&two]);
            script.deliver(line_end, &[&two]);
        }
        script.deliver(0, &[&two, &next]);
        script.deliver(0, &[&strange]);
        script.newest(0, &account.key, &[]);
        script.newest(0, &strange.key, &[]);
        script.sound();
        script.entries(&[0, 1, 2]);
    }
}

/// Lengths that no journal has, in every call; and one that was never opened.
pub fn wrong_lengths(rng: &mut Rng, script: &mut Script) {
    let mut account = Account::new(rng);
    let statement = account.next(rng);
    let odd = 7_681 + rng.index(119);
    for length in [
        7_560, 7_679, 7_681, 0, 7_799, 7_740, 7_801, 15_359, 1, 120, odd,
    ] {
        script.buffer(length);
        every_call(script, &statement);
        script.open();
        every_call(script, &statement);
    }
    script.buffer(15_480);
    every_call(script, &statement);
    script.open();
    every_call(script, &statement);
    // A refused opening leaves the buffer, another opening blanks it again.
    script.open();
    script.entries(&[1]);
}

/// Before the first buffer there is one of no bytes; short buffers of blanks are no journals.
pub fn short_blank_buffers(rng: &mut Rng, script: &mut Script) {
    let mut account = Account::new(rng);
    let statement = account.next(rng);
    every_call(script, &statement);
    script.open();
    for length in [1, 60, 120, 121, 240] {
        script.buffer(length);
        for offset in 0..length {
            script.poke(offset, b' ');
        }
        // Outside the buffer nothing happens.
        script.poke(length, b'X');
        every_call(script, &statement);
        script.open();
    }
}

/// Sound test, entry, deliveries, newest, with right files and wrong ones.
fn every_call(script: &mut Script, statement: &Statement) {
    script.sound();
    script.entries(&[0, 1, HUGE]);
    script.deliver(0, &[statement]);
    script.deliver(3, &[statement]);
    script.deliver(1, &[]);
    script.deliver_bytes(1, b"x");
    script.newest(2, &statement.key, &[statement]);
    script.newest(HUGE, &statement.key, &[]);
}
