//! Statements that come once more.

use super::plan::Plan;
use crate::record::{CREDIT_ZERO, DEBIT_ZERO};
use crate::rng::Rng;
use crate::series_cases::accounts::{in_some_writing, with_zeros};
use crate::valid::Statement;

/// One more file of statements that come anyway, or that are held.
pub fn add(rng: &mut Rng, plan: &mut Plan) {
    match rng.below(5) {
        0 => same_bytes(rng, plan),
        1 => other_line_end(rng, plan),
        2 => overlap(rng, plan),
        3 => other_zeros(rng, plan),
        _ => held_before(rng, plan),
    }
}

/// The same file under another name.
fn same_bytes(rng: &mut Rng, plan: &mut Plan) {
    if let Some(index) = plan.some_letter(rng) {
        let letter = plan.letters[index].clone();
        plan.send_with(rng, letter.line_end, letter.statements, letter.story);
        plan.tries("retry-same-bytes");
    }
}

/// The same statements with another line end.
fn other_line_end(rng: &mut Rng, plan: &mut Plan) {
    if let Some(index) = plan.some_letter(rng) {
        let letter = plan.letters[index].clone();
        let line_end = (letter.line_end + 1 + rng.below(2)) % 3;
        plan.send_with(rng, line_end, letter.statements, letter.story);
        plan.tries("retry-other-line-end");
    }
}

/// Some months of an account that are stored anyway in one file, whichever files they stand in else.
/// They stand one after another in the journal.
fn overlap(rng: &mut Rng, plan: &mut Plan) {
    let long = |index: &usize| plan.chains[*index].end.len() > 1;
    let places: Vec<usize> = (0..plan.chains.len()).filter(long).collect();
    if places.is_empty() {
        return;
    }
    let chain = &plan.chains[rng.pick(&places)];
    let all = &chain.end;
    let first = rng.index(all.len() - 1);
    let end = first + 2 + rng.index(all.len() - first - 1);
    let story = Some(chain.story);
    let months = all[first..end.min(first + 3)].iter();
    let statements = months
        .map(|&month| chain.statements[month].clone())
        .collect();
    plan.send(rng, statements, story);
    plan.tries("retry-overlap");
}

/// The same statements with the other sign wherever they have a zero.
fn other_zeros(rng: &mut Rng, plan: &mut Plan) {
    let has_zero = |one: &Statement| {
        let writings = [CREDIT_ZERO, DEBIT_ZERO].map(|zero| with_zeros(one, zero).records);
        writings[0] != writings[1]
    };
    let letters = plan.letters.iter().filter(|letter| letter.story.is_some());
    let found = letters.filter(|letter| letter.statements.iter().any(has_zero));
    let found: Vec<_> = found.cloned().collect();
    if found.is_empty() {
        return;
    }
    let letter = &found[rng.index(found.len())];
    let zero = rng.pick(&[CREDIT_ZERO, DEBIT_ZERO]);
    let again = letter.statements.iter().map(|one| with_zeros(one, zero));
    plan.send_with(rng, letter.line_end, again.collect(), letter.story);
    plan.tries("retry-other-zero");
}

/// A statement that the journal holds before the night.
fn held_before(rng: &mut Rng, plan: &mut Plan) {
    let held: Vec<(usize, Statement)> = plan
        .chains
        .iter()
        .flat_map(|chain| {
            let held = chain.statements[..chain.held].iter();
            held.map(move |one| (chain.story, one.clone()))
        })
        .collect();
    if held.is_empty() {
        return;
    }
    let (story, statement) = &held[rng.index(held.len())];
    let again = in_some_writing(rng, statement);
    plan.send(rng, vec![again], Some(*story));
    plan.tries("retry-of-held");
}
