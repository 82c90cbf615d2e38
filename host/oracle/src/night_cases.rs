//! Seeded generators of nights: a journal, files that wait, and what is known of both by how they
//! were made.
//!
//! What becomes of the files is left to `night`. What is known of an account without it are the
//! statements that the journal holds in the end.

mod again;
mod beside;
mod ends;
mod months;
mod names;
mod never;
mod plan;
mod room;
mod spoilt;
mod stories;

pub use plan::{Chain, Known};

use std::collections::BTreeSet;

use crate::damage::recipes;
use crate::night::Incoming;
use crate::rng::Rng;
use plan::Plan;

/// A night and what it tries.
pub struct NightCase {
    pub journal: Vec<u8>,
    pub incoming: Vec<Incoming>,
    pub tries: BTreeSet<&'static str>,
    /// The accounts of the night's stories.
    pub chains: Vec<Chain>,
    /// Whether there is room for all that comes. Else accounts may end earlier than is said.
    pub enough: bool,
}

/// The night of that seed and index.
pub fn night_case(seed: u64, index: usize) -> NightCase {
    // The streams of two indices have nothing to do with one another.
    let base = Rng::new(seed).bits();
    let mut rng = Rng::new(Rng::new(base ^ index as u64).bits());
    let mut plan = Plan::new(&mut rng);
    if index % 20 == 5 {
        plan.tries("empty-night");
    } else {
        if plan.first_night {
            plan.tries("first-night");
        }
        stories::add(&mut rng, &mut plan);
        add_others(&mut rng, &mut plan, index);
    }
    room::end(&mut rng, plan)
}

/// Files beside those of the stories. In a third of the nights none is cut or damaged.
fn add_others(rng: &mut Rng, plan: &mut Plan, index: usize) {
    for _ in 0..rng.index(4) {
        again::add(rng, plan);
    }
    if !rng.one_in(3) {
        let list = recipes();
        for _ in 0..rng.index(3) {
            spoilt::add_cut(rng, plan);
        }
        for _ in 0..1 + rng.index(4) {
            spoilt::add_damaged(rng, plan, &list);
        }
    }
    for _ in 0..rng.index(3) {
        never::add(rng, plan);
    }
    for _ in 0..rng.index(3) {
        beside::add(rng, plan);
    }
    // Refusals 3 and 15 need large files, so they are rare.
    match index % 30 {
        11 => beside::add_too_many_records(rng, plan),
        26 => beside::add_long_statement(rng, plan),
        _ => {}
    }
}
