//! Files that are refused: by the check, for the journal, or in a later statement.

use super::accounts::{apart, file, in_some_writing, relabelled, Account, ZONES};
use super::deliveries::overlap;
use super::script::Script;
use crate::damage::recipes;
use crate::rng::Rng;
use crate::valid::Statement;
use crate::write::{one_of_each_family, small_damaged_case};

/// The largest line-end number that a header has room for.
const MOST_LINE_END: u64 = 9_999_999_999_999_999_999;
/// More files go into a series up to this size.
const ENOUGH_BYTES: usize = 90_000;

/// The second, third or last statement does not follow, after held ones and ones that would be
/// stored. Held ones count in the record's number.
pub fn later_in_the_file(rng: &mut Rng, script: &mut Script) {
    script.fresh(100);
    let (mut one, mut two) = (Account::new(rng), Account::new(rng));
    let held = [one.next(rng), two.next(rng), one.next(rng)];
    script.deliver(rng.below(3), &held.iter().collect::<Vec<_>>());
    let bad = [one.astray(rng, 0, 1), two.astray(rng, -1, 0)];
    let next = [
        one.next(rng),
        two.next_plain(rng),
        Account::new(rng).next(rng),
    ];
    let twice = relabelled(rng, &next[1]);
    let files: [&[&Statement]; 8] = [
        &[&held[0], &bad[0]],
        &[&next[0], &bad[1]],
        &[&held[1], &next[1], &bad[0], &next[2]],
        &[&next[2], &next[0], &held[2], &next[1], &held[0], &twice],
        &[&next[2], &next[2], &bad[1], &bad[0]],
        // Two that each follow the last held: the second does not follow the first.
        &[&next[1], &twice],
        &[&bad[0], &bad[1], &next[0]],
        &[&held[0], &held[1], &held[2], &next[0], &next[1], &bad[1]],
    ];
    for file in files {
        let line_end = rng.below(3);
        script.deliver(line_end, file);
        script.newest(line_end, &next[2].key, file);
        script.sound();
    }
    spoilt(rng, script, &[&held[0], &next[0], &next[1]]);
    script.deliver(0, &[&held[0], &next[0], &next[1], &next[2]]);
    script.sound();
}

/// Held statements and new ones of three accounts, then one that does not follow the last of its
/// account, wherever that stands. Some of the accounts end with nothing. What stands before it is
/// delivered now and then.
pub fn behind_new_ones(rng: &mut Rng, script: &mut Script) {
    script.fresh(300);
    let mut accounts = three_accounts(rng);
    let mut sent: Vec<Statement> = accounts.iter_mut().map(|one| one.next(rng)).collect();
    script.deliver(rng.below(3), &sent.iter().collect::<Vec<_>>());
    for _ in 0..12 {
        if script.bytes.len() > ENOUGH_BYTES {
            break;
        }
        let (mut later, mut sent_later) = (accounts.clone(), sent.clone());
        let mut file = overlap(rng, &mut later, &mut sent_later);
        let account = &mut later[rng.index(3)];
        if rng.one_in(3) {
            let to_nil = account.next_to_nil(rng);
            file.push(in_some_writing(rng, &to_nil));
            sent_later.push(to_nil);
        }
        let before = file.len();
        let (days, money) = rng.pick(&[(0, 1), (0, 10), (3, 1), (-1, 0), (-1, 1), (-31, 0)]);
        file.push(account.astray(rng, days, money));
        // What stands behind it is not looked at.
        file.push(account.clone().next(rng));
        let all: Vec<&Statement> = file.iter().collect();
        let end = all.len() - rng.index(2);
        script.deliver(rng.below(3), &all[..end]);
        if rng.one_in(2) {
            script.deliver(rng.below(3), &all[..before]);
            accounts = later;
            sent = sent_later;
        }
    }
    script.sound();
}

/// Two accounts one zone apart that begin with the same balance, and another one.
fn three_accounts(rng: &mut Rng) -> [Account; 3] {
    let one = Account::new(rng);
    let zone = rng.pick(&ZONES);
    let near = Account {
        key: apart(rng, &one.key, zone),
        last: one.last,
    };
    [one, near, Account::new(rng)]
}

/// A fault of the file in a later statement, or behind all, comes before all statements.
fn spoilt(rng: &mut Rng, script: &mut Script, statements: &[&Statement]) {
    let whole = file(1, statements);
    let last = whole.len() - 121;
    let mut wrong_code = whole.clone();
    wrong_code[last + 1] = b'9';
    let mut wrong_byte = whole.clone();
    wrong_byte[last + rng.index(120)] = 0;
    let mut wrong_end = whole.clone();
    wrong_end[last + 120] = b' ';
    let no_07 = &whole[..last];
    let byte_less = &whole[..whole.len() - 1];
    for bytes in [&wrong_code[..], &wrong_byte, &wrong_end, no_07, byte_less] {
        script.deliver_bytes(1, bytes);
    }
}

/// The same for the lines and for the table.
pub fn room_later_in_the_file(rng: &mut Rng, script: &mut Script) {
    let mut account = Account::new(rng);
    let all: Vec<Statement> = (0..4).map(|_| account.next(rng)).collect();
    let all: Vec<&Statement> = all.iter().collect();
    let lines: usize = all.iter().map(|statement| statement.records.len()).sum();
    let strange = Account::new(rng).next(rng);
    // The fourth has a line too few.
    script.fresh(lines - 1);
    script.deliver(rng.below(3), &all);
    script.deliver(rng.below(3), &all[..1]);
    script.deliver(rng.below(3), &all);
    script.deliver(rng.below(3), &[all[0], all[1], all[2], &strange, all[3]]);
    script.deliver(rng.below(3), &all[..3]);
    script.sound();
    // The table has two entries left; the third new one is one too many.
    let mut many = Account::new(rng);
    let held: Vec<Statement> = (0..126).map(|_| many.next_quiet(rng)).collect();
    let held: Vec<&Statement> = held.iter().collect();
    let next = [many.next_quiet(rng), many.next_quiet(rng)];
    script.fresh(252 + lines);
    script.deliver(rng.below(3), &held);
    script.deliver(1, &[held[0], all[0], held[125], all[1], all[2]]);
    script.deliver(2, &[&next[0], held[7], &next[1], &strange]);
    script.newest(2, &many.key, &[&next[0], held[7], &next[1], &strange]);
    script.newest(2, &many.key, &[&next[0], held[7], &next[1], &next[0]]);
    script.sound();
    script.deliver(0, &[&next[0], &next[1]]);
    script.sound();
}

/// The check's refusals but 3 and 15, which need large files, on a sound journal.
pub fn of_the_file(rng: &mut Rng, script: &mut Script) {
    script.fresh(300);
    let mut account = Account::new(rng);
    let held = account.next(rng);
    script.deliver(0, &[&held]);
    let list = recipes();
    for (number, recipe) in one_of_each_family(rng, &list).into_iter().enumerate() {
        if script.bytes.len() > ENOUGH_BYTES {
            break;
        }
        let case = small_damaged_case(rng, recipe, number);
        if let Some(case) = case.filter(|case| case.line_end <= MOST_LINE_END) {
            script.deliver_bytes(case.line_end, &case.bytes);
            // The newest statement meets the same refusals.
            if rng.one_in(3) {
                script.newest_bytes(case.line_end, &held.key.bytes(), &case.bytes);
            }
        }
    }
    script.deliver(2, &[&held]);
    script.sound();
}

/// 21 comes before all refusals of the file.
pub fn journal_before_file(rng: &mut Rng, script: &mut Script) {
    let mut account = Account::new(rng);
    let (first, second) = (account.next(rng), account.next(rng));
    let bad = account.astray(rng, 0, 1);
    let lines = first.records.len();
    let mut every_file = |script: &mut Script, line_end: u64| {
        script.deliver(line_end, &[]);
        script.deliver(line_end, &[&second]);
        script.deliver(line_end, &[&bad]);
        script.deliver_bytes(line_end, b"no record");
        spoilt(rng, script, &[&second]);
        script.newest(line_end, &first.key, &[&second]);
        script.newest_bytes(line_end, b"no key", b"");
    };
    // Never opened, then opened and filled, then damaged, then right again.
    script.buffer(7_680 + 120 * lines);
    every_file(script, 3);
    script.open();
    script.deliver(0, &[&first]);
    every_file(script, 3);
    script.poke(7_679, b'.');
    for line_end in [0, 2, 3, 256, MOST_LINE_END] {
        every_file(script, line_end);
    }
    script.poke(7_679, b' ');
    every_file(script, 1);
    every_file(script, 256);
    script.sound();
}

/// A file of no bytes stores nothing and holds nothing.
pub fn empty_files(rng: &mut Rng, script: &mut Script) {
    let mut account = Account::new(rng);
    let stranger = Account::new(rng);
    let statement = account.next(rng);
    script.buffer(7_680 + 120 * 9);
    every_line_end(script, &account, &stranger);
    script.open();
    every_line_end(script, &account, &stranger);
    script.deliver(1, &[&statement]);
    every_line_end(script, &account, &stranger);
    script.poke(7_680, b'X');
    every_line_end(script, &account, &stranger);
    script.fresh(0);
    every_line_end(script, &account, &stranger);
}

fn every_line_end(script: &mut Script, account: &Account, stranger: &Account) {
    for line_end in [0, 1, 2, 3, 256, MOST_LINE_END] {
        script.deliver(line_end, &[]);
        script.newest(line_end, &account.key, &[]);
        script.newest(line_end, &stranger.key, &[]);
    }
    script.sound();
    script.entries(&[0, 1]);
}
