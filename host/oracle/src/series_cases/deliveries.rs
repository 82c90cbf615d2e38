//! Deliveries that are stored, held or do not follow.

use super::accounts::{apart, in_some_writing, relabelled, twin, Account, ZONES};
use super::script::Script;
use crate::rng::Rng;
use crate::valid::{statement, Statement};
use crate::write::shuffle;

/// The same file again with each of the other line ends.
pub fn retries(rng: &mut Rng, script: &mut Script) {
    script.fresh(80);
    let mut accounts = [Account::new(rng), Account::new(rng)];
    for line_end in 0..3 {
        let statements = [
            accounts[0].next(rng),
            accounts[1].next(rng),
            accounts[0].next(rng),
        ];
        let file: Vec<&Statement> = statements.iter().collect();
        for other in 0..3 {
            script.deliver((line_end + other) % 3, &file);
        }
        script.sound();
        for account in &accounts {
            script.newest(line_end, &account.key, &file);
        }
    }
    script.entries(&[0, 1, 8, 9, 10, 128]);
}

/// A statement that stands in several files is stored once.
pub fn two_files(rng: &mut Rng, script: &mut Script) {
    script.fresh(40);
    let (mut one, mut two) = (Account::new(rng), Account::new(rng));
    let (first, second) = (one.next(rng), one.next(rng));
    let other = two.next(rng);
    let line_end = rng.below(3);
    script.deliver(line_end, &[&first, &other]);
    script.deliver((line_end + 1) % 3, &[&first, &second]);
    script.deliver(line_end, &[&other]);
    script.deliver((line_end + 2) % 3, &[&second, &other, &first]);
    // Also twice in one file, new and held.
    let third = one.next(rng);
    script.deliver(line_end, &[&third, &third, &second, &third]);
    script.sound();
    script.entries(&[1, 2, 3, 4, 5]);
}

/// Files with held statements and new ones, in any order.
pub fn overlaps(rng: &mut Rng, script: &mut Script) {
    script.fresh(200);
    let mut accounts = [Account::new(rng), Account::new(rng), Account::new(rng)];
    let mut sent: Vec<Statement> = Vec::new();
    for _ in 0..8 {
        let file = overlap(rng, &mut accounts, &mut sent);
        let line_end = rng.below(3);
        script.deliver(line_end, &file.iter().collect::<Vec<_>>());
        script.sound();
        script.newest(line_end, &accounts[0].key, &[]);
    }
    script.entries(&[1, sent.len() as u64, sent.len() as u64 + 1]);
}

/// Up to three statements that were sent before, in some writing, with up to three new ones among
/// them. Some new ones begin days after the one before.
pub fn overlap(
    rng: &mut Rng,
    accounts: &mut [Account],
    sent: &mut Vec<Statement>,
) -> Vec<Statement> {
    let mut file: Vec<Statement> = Vec::new();
    for _ in 0..rng.index(4).min(sent.len()) {
        let again = rng.index(sent.len());
        file.push(in_some_writing(rng, &sent[again]));
    }
    // New ones keep their order; each goes somewhere behind the one before.
    let mut place = 0;
    for _ in 0..1 + rng.index(3) {
        place += rng.index(file.len() - place + 1);
        let index = rng.index(accounts.len());
        let account = &mut accounts[index];
        if rng.one_in(4) {
            account.pause(1 + rng.below(3));
        }
        let next = account.next(rng);
        file.insert(place, next.clone());
        place += 1;
        sent.push(next);
    }
    file
}

/// Several statements of one account in one file, in the right order and in wrong ones.
pub fn chain(rng: &mut Rng, script: &mut Script) {
    script.fresh(100);
    let mut account = Account::new(rng);
    let all: Vec<Statement> = (0..9).map(|_| account.next(rng)).collect();
    let line_end = rng.below(3);
    script.deliver(line_end, &all[..5].iter().collect::<Vec<_>>());
    script.deliver(line_end, &[&all[6], &all[5]]);
    script.deliver(line_end, &[&all[5], &all[7]]);
    script.deliver(line_end, &[&all[5], &all[6], &all[8], &all[7]]);
    script.newest(line_end, &account.key, &[&all[5], &all[6]]);
    script.deliver(line_end, &all[5..].iter().collect::<Vec<_>>());
    script.newest(line_end, &account.key, &[&all[5], &all[6]]);
    script.sound();
    script.entries(&[1, 5, 9, 10]);
}

/// Statements of several accounts in any order.
pub fn interleaved(rng: &mut Rng, script: &mut Script) {
    script.fresh(200);
    let mut accounts: Vec<Account> = (0..4).map(|_| Account::new(rng)).collect();
    for _ in 0..4 {
        let mut turns: Vec<usize> = (0..4).chain(0..2).collect();
        shuffle(rng, &mut turns);
        let file: Vec<Statement> = turns
            .into_iter()
            .map(|turn| accounts[turn].next(rng))
            .collect();
        let file: Vec<&Statement> = file.iter().collect();
        let line_end = rng.below(3);
        script.newest(line_end, &accounts[3].key, &file);
        script.deliver(line_end, &file);
        script.newest(0, &accounts[3].key, &[]);
        script.deliver(line_end, &file);
    }
    script.sound();
    script.entries(&[1, 12, 24, 25]);
}

/// Accounts whose keys differ in exactly one zone have nothing to do with one another.
pub fn one_zone_apart(rng: &mut Rng, script: &mut Script) {
    for zone in ZONES {
        script.fresh(40);
        let mut account = Account::new(rng);
        let other = apart(rng, &account.key, zone);
        let first = account.next_plain(rng);
        let second = account.next_plain(rng);
        let third = account.next_plain(rng);
        script.deliver(0, &[&first, &second]);
        script.newest(0, &other, &[]);
        // The first of the other account begins anywhere; it is no retry.
        script.deliver(1, &[&twin(&first, &other)]);
        // This one follows the last of the first account, but not of its own.
        script.deliver(2, &[&twin(&third, &other)]);
        script.newest(0, &other, &[&third]);
        script.newest(0, &account.key, &[&third]);
        script.deliver(0, &[&twin(&second, &other), &third]);
        script.deliver(2, &[&third, &twin(&first, &other)]);
        script.newest(0, &account.key, &[]);
        script.newest(0, &other, &[]);
        script.sound();
    }
}

/// Another statement of a period that is held: not held, and it does not follow.
pub fn corrected(rng: &mut Rng, script: &mut Script) {
    let mut account = Account::new(rng);
    let first = account.next_plain(rng);
    let second = account.next_plain(rng);
    let new_sum = statement(rng, &account.key, second.old, second.new.day, 5);
    let corrections = [
        relabelled(rng, &first),
        relabelled(rng, &second),
        new_sum.clone(),
    ];
    script.fresh(30);
    script.deliver(0, &[&first, &second]);
    for correction in &corrections {
        for line_end in 0..3 {
            script.deliver(line_end, &[correction]);
        }
        script.deliver(1, &[&second, correction]);
        script.newest(1, &account.key, &[correction]);
    }
    script.newest(0, &account.key, &[]);
    // The other way round: the correction first.
    script.fresh(30);
    script.deliver(0, &[&first, &new_sum]);
    script.deliver(0, &[&second]);
    script.deliver(0, &[&new_sum, &first]);
    script.sound();
}

/// A statement that ends as it begins follows itself; sent twice it is held all the same.
pub fn empty_period(rng: &mut Rng, script: &mut Script) {
    let mut account = Account::new(rng);
    let before = account.next_plain(rng);
    let empty = account.empty_period(rng, &[]);
    let zero = account.empty_period(rng, &[(0, 0)]);
    let there_and_back = if account.last.value > 0 { -700 } else { 700 };
    let pair = [(there_and_back, 0), (-there_and_back, 1)];
    let pair = account.empty_period(rng, &pair);
    let relabelled = relabelled(rng, &pair);
    let after = account.next_plain(rng);
    script.fresh(40);
    if rng.one_in(2) {
        script.deliver(0, &[&before]);
    }
    script.deliver(1, &[&empty]);
    script.deliver(2, &[&empty]);
    script.newest(2, &account.key, &[&empty]);
    for other in [&zero, &pair, &relabelled] {
        script.newest(1, &account.key, &[other, &empty]);
        script.deliver(1, &[other]);
        script.deliver(1, &[&empty, other]);
    }
    script.deliver(0, &[&empty, &after, &empty]);
    script.deliver(0, &[&empty]);
    script.sound();
    script.entries(&[1, 2, 3, 4, 5, 6, 7]);
    // All in one file, the first twice.
    script.fresh(40);
    script.deliver(2, &[&empty, &empty, &zero, &pair, &zero, &after]);
    script.sound();
}

/// Wrong by its balance, by an earlier day, by both; then ones that follow, on the day and later.
pub fn does_not_follow(rng: &mut Rng, script: &mut Script) {
    script.fresh(80);
    let mut account = Account::new(rng);
    let mut other = Account::new(rng);
    let (first, second) = (account.next(rng), account.next(rng));
    script.deliver(0, &[&first, &second]);
    for (days, money) in [(0, 1), (0, 100), (-1, 0), (1, 1), (-1, 1), (-365, 0)] {
        let astray = account.astray(rng, days, money);
        let line_end = rng.below(3);
        script.deliver(line_end, &[&astray]);
        script.deliver(line_end, &[&second, &astray]);
        script.newest(line_end, &account.key, &[&astray]);
    }
    // One that follows the last but one.
    let again = statement(rng, &account.key, first.new, second.new.day + 1, 4);
    script.deliver(0, &[&again]);
    // Another account's in front is not stored either.
    let new = other.next(rng);
    script.deliver(1, &[&new, &account.astray(rng, 0, 1)]);
    let third = account.next(rng);
    script.deliver(1, &[&new, &third]);
    for days in [1, 3, 0, 31] {
        account.pause(days);
        // On the day that it begins, with another balance; and a day before the last new date.
        let dear = account.astray(rng, 0, 1);
        let early = account.astray(rng, -1 - days as i64, 0);
        let next = account.next(rng);
        script.deliver(rng.below(3), &[&new, &dear]);
        script.deliver(rng.below(3), &[&third, &early]);
        script.newest(rng.below(3), &account.key, &[&next]);
        script.deliver(rng.below(3), &[&next, &third]);
    }
    script.sound();
}
