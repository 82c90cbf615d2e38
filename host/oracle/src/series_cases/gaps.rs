//! Accounts whose statements begin days after the one before ends.

use super::accounts::Account;
use super::script::Script;
use crate::cash_cases::statements::on;
use crate::rng::Rng;
use crate::valid::Statement;

/// A row of statements with days between them. Each is held when it comes again, and none is stored
/// that begins before the last one ends, whatever the bytes of the dates say.
pub fn month_ends(rng: &mut Rng, script: &mut Script) {
    // One of them goes over the turn of the century.
    let century = on("311299") - rng.below(40);
    for first in [None, Some(century)] {
        let mut account = Account::new(rng);
        account.last.day = first.unwrap_or(account.last.day);
        let row = one_by_one(rng, script, &mut account);
        in_one_file(rng, script, &account, &row);
        from_the_second_on(rng, script, &row);
    }
}

/// The days between two statements: none, a weekend, a few, a month.
fn some_days(rng: &mut Rng) -> u64 {
    match rng.below(6) {
        0 | 1 => 0,
        2 => 2,
        3 | 4 => 1 + rng.below(4),
        _ => 25 + rng.below(10),
    }
}

/// Each in a file of its own, with ones that are too early or have another balance between.
fn one_by_one(rng: &mut Rng, script: &mut Script, account: &mut Account) -> Vec<Statement> {
    let mut row: Vec<Statement> = Vec::new();
    script.fresh(60);
    for _ in 0..5 {
        account.pause(some_days(rng));
        let next = account.next(rng);
        script.newest(rng.below(3), &account.key, &[&next]);
        script.deliver(rng.below(3), &[&next]);
        row.push(next);
        // In bytes a day less or a month less may be more.
        let days = rng.pick(&[-1, -2, -28, -31, -366]);
        let early = account.astray(rng, days, 0);
        script.deliver(rng.below(3), &[&early]);
        let days = some_days(rng) as i64;
        let dear = account.astray(rng, days, 1);
        script.newest(rng.below(3), &account.key, &[&dear]);
        let again = &row[rng.index(row.len())];
        script.deliver(rng.below(3), &[again]);
    }
    script.sound();
    // The last ones first.
    script.deliver(rng.below(3), &row.iter().rev().collect::<Vec<_>>());
    row
}

/// All at once, then again.
fn in_one_file(rng: &mut Rng, script: &mut Script, account: &Account, row: &[Statement]) {
    let all: Vec<&Statement> = row.iter().collect();
    script.fresh(60);
    script.newest(rng.below(3), &account.key, &all);
    script.deliver(rng.below(3), &all);
    script.deliver(rng.below(3), &all);
    script.newest(rng.below(3), &account.key, &all[..1]);
    script.sound();
}

/// Where the account begins with the second, the first is too early, alone and in a file.
fn from_the_second_on(rng: &mut Rng, script: &mut Script, row: &[Statement]) {
    let all: Vec<&Statement> = row.iter().collect();
    script.fresh(60);
    script.deliver(rng.below(3), &all[1..3]);
    script.deliver(rng.below(3), &all[..1]);
    script.deliver(rng.below(3), &[all[2], all[3], all[0]]);
    script.deliver(rng.below(3), &all[2..]);
    script.sound();
    script.entries(&[1, 4, 5]);
}

/// An account whose balance stays. What is left out is passed over by a later one, and is refused
/// from then on: in files of one statement and in one file, with another account beside.
pub fn passed_over(rng: &mut Rng, script: &mut Script) {
    for in_one_file in [false, true] {
        let (mut account, mut beside) = (Account::new(rng), Account::new(rng));
        let mut row: Vec<Statement> = Vec::new();
        for _ in 0..5 {
            account.pause(some_days(rng));
            row.push(account.next_unchanged(rng));
        }
        let all: Vec<&Statement> = row.iter().collect();
        let new = beside.next(rng);
        script.fresh(80);
        script.deliver(rng.below(3), &all[..1]);
        // In the wrong order nothing of a file is stored.
        script.deliver(rng.below(3), &[all[2], all[1]]);
        script.newest(rng.below(3), &account.key, &[all[2]]);
        if in_one_file {
            script.deliver(rng.below(3), &[all[0], &new, all[2], all[4]]);
        } else {
            script.deliver(rng.below(3), &[all[2]]);
            script.deliver(rng.below(3), &[all[4]]);
        }
        refused_for_ever(rng, script, &account, &all, &new);
        let next = account.next(rng);
        script.deliver(rng.below(3), &[&new, &next]);
        refused_for_ever(rng, script, &account, &all, &new);
        script.sound();
        // In the right order all are stored.
        script.fresh(80);
        script.deliver(rng.below(3), &[all[0], all[1], &new]);
        script.deliver(rng.below(3), &all);
        script.deliver(rng.below(3), &[&next, all[3]]);
        script.sound();
    }
}

/// The second and the fourth, alone, behind held ones, behind one of the other account.
fn refused_for_ever(
    rng: &mut Rng,
    script: &mut Script,
    account: &Account,
    all: &[&Statement],
    new: &Statement,
) {
    for passed in [all[1], all[3]] {
        script.deliver(rng.below(3), &[passed]);
        script.deliver(rng.below(3), &[new, all[0], passed, all[2]]);
        script.newest(rng.below(3), &account.key, &[passed]);
    }
    script.deliver(rng.below(3), &[all[4], all[2], all[0]]);
}
