//! Files with a statement that is never stored: a held month that was corrected, a month before all
//! that are held, or one with another balance.

use super::months::next_month;
use super::plan::{Chain, Plan};
use crate::rng::Rng;
use crate::series_cases::accounts::{in_some_writing, relabelled, Account};
use crate::valid::{statement, Balance, Statement};
use crate::write::shuffle;

/// One more file of an account of which some months are held.
pub fn add(rng: &mut Rng, plan: &mut Plan) {
    let held = |index: &usize| plan.chains[*index].held > 0;
    let places: Vec<usize> = (0..plan.chains.len()).filter(held).collect();
    if places.is_empty() {
        return;
    }
    let chain = &plan.chains[rng.pick(&places)];
    let (what, mut statements) = match rng.below(6) {
        0 => ("corrected", vec![some_corrected(rng, chain)]),
        1 => ("corrected-beside-held", beside_held(rng, chain)),
        2 => ("corrected-beside-new", beside_new(rng, chain)),
        3 => ("corrected-beside-coming", beside_coming(rng, chain)),
        4 => ("older", vec![older(rng, chain)]),
        _ => ("other-balance", vec![other_balance(rng, chain)]),
    };
    shuffle(rng, &mut statements);
    plan.send(rng, statements, None);
    plan.tries(what);
}

/// A corrected statement of these, beside the last of them where that is of a single day. It begins
/// on the very day that the account ends, and is held.
pub fn add_beside_single_day(rng: &mut Rng, plan: &mut Plan, held: &[Statement]) {
    match held {
        [first, .., last] if last.old.day == last.new.day => {
            let mut statements = vec![corrected(rng, first), last.clone()];
            shuffle(rng, &mut statements);
            plan.send(rng, statements, None);
            plan.tries("corrected-beside-single-day");
        }
        _ => {}
    }
}

/// Another statement of the same period: with another label, or with other movements.
pub fn corrected(rng: &mut Rng, month: &Statement) -> Statement {
    let other = relabelled(rng, month);
    // A statement without movements has no label.
    if rng.one_in(2) && other.records != month.records {
        return other;
    }
    let records = 3 + rng.index(4);
    statement(rng, &month.key, month.old, month.new.day, records)
}

fn some_held<'a>(rng: &mut Rng, chain: &'a Chain) -> &'a Statement {
    &chain.statements[rng.index(chain.held)]
}

fn some_corrected(rng: &mut Rng, chain: &Chain) -> Statement {
    let month = some_held(rng, chain);
    corrected(rng, month)
}

/// With a month that is held. Nothing of the file is to be stored.
fn beside_held(rng: &mut Rng, chain: &Chain) -> Vec<Statement> {
    let held = some_held(rng, chain);
    vec![some_corrected(rng, chain), in_some_writing(rng, held)]
}

/// With the month after the last, which comes in no other file. So the file waits for ever.
fn beside_new(rng: &mut Rng, chain: &Chain) -> Vec<Statement> {
    let last = last(chain);
    let new = next_month(rng, &chain.key, last.new, last.new.day + 30, false);
    vec![some_corrected(rng, chain), new]
}

/// With a month that comes in another file too, if there is one. Once that is stored, nothing of this
/// file is to be stored any more.
fn beside_coming(rng: &mut Rng, chain: &Chain) -> Vec<Statement> {
    let months = chain.end.iter().filter(|&&month| month >= chain.held);
    let coming: Vec<usize> = months.copied().collect();
    let mut file = vec![some_corrected(rng, chain)];
    if !coming.is_empty() {
        file.push(chain.statements[rng.pick(&coming)].clone());
    }
    file
}

/// A month that ends where the first one begins.
fn older(rng: &mut Rng, chain: &Chain) -> Statement {
    let first = chain.statements[0].old;
    let old = Balance {
        day: first.day - 30,
        ..first
    };
    next_month(rng, &chain.key, old, first.day, true)
}

/// One that begins on the day that the last one ends, with another balance. It may still follow one
/// day, as far as its date tells.
fn other_balance(rng: &mut Rng, chain: &Chain) -> Statement {
    let account = Account {
        key: chain.key.clone(),
        last: last(chain).new,
    };
    account.astray(rng, 0, 1)
}

fn last(chain: &Chain) -> &Statement {
    chain.statements.last().expect("a chain with held months")
}
