//! Accounts with nothing on them, whose statements come with either zero.

use super::accounts::{in_some_writing, with_zeros, Account};
use super::script::Script;
use crate::record::{put, CREDIT_ZERO, DEBIT_ZERO};
use crate::rng::Rng;
use crate::valid::{complement, Statement};

const ZEROS: [&[u8]; 2] = [DEBIT_ZERO, CREDIT_ZERO];

/// The same statement in two writings: in one file, in several, with other line ends.
pub fn either_writing(rng: &mut Rng, script: &mut Script) {
    script.fresh(60);
    let (mut nil, mut other) = (Account::at_nil(rng), Account::new(rng));
    for line_end in 0..3 {
        let next = nil.next_unchanged(rng);
        let [debits, credits] = ZEROS.map(|zero| with_zeros(&next, zero));
        let beside = other.next(rng);
        script.newest(line_end, &nil.key, &[&debits, &credits]);
        script.deliver(line_end, &[&debits, &beside, &credits]);
        // Held now: the journal's part, whatever the writing.
        for again in [&debits, &credits, &in_some_writing(rng, &next)] {
            let line_end = rng.below(3);
            script.newest(line_end, &nil.key, &[again]);
            script.deliver(line_end, &[again]);
        }
        let beside = in_some_writing(rng, &beside);
        script.deliver((line_end + 1) % 3, &[&beside, &credits, &debits]);
        script.sound();
    }
    script.entries(&[0, 1, 2, 6, 7]);
}

/// What follows a balance of nothing begins with either zero, and not with another balance or on
/// an earlier day. Of two that stay at nil the later one follows as well; where it comes alone the
/// earlier one is passed over.
pub fn follows(rng: &mut Rng, script: &mut Script) {
    script.fresh(100);
    for held in ZEROS {
        for sent in ZEROS {
            let mut account = Account::new(rng);
            let last = with_zeros(&account.next_to_nil(rng), held);
            script.deliver(rng.below(3), &[&last]);
            for (days, money) in [(0, 1), (0, 10), (1, 10), (-1, 0)] {
                let astray = with_zeros(&account.astray(rng, days, money), sent);
                script.deliver(rng.below(3), &[&last, &astray]);
            }
            account.pause(rng.below(3));
            let next = [account.next_unchanged(rng), account.next_unchanged(rng)];
            let [next, after] = next.map(|next| with_zeros(&next, sent));
            script.newest(rng.below(3), &account.key, &[&next]);
            script.deliver(rng.below(3), &[&after, &next]);
            if rng.one_in(2) {
                script.deliver(rng.below(3), &[&after]);
            }
            script.deliver(rng.below(3), &[&last, &next]);
            script.deliver(rng.below(3), &[&after, &next]);
            script.newest(rng.below(3), &account.key, &[]);
        }
    }
    script.sound();
    script.entries(&[1, 3, 12, 13]);
}

/// In a text the sign of a zero counts: statements that differ in it are two. On one day each
/// follows the other.
pub fn texts(rng: &mut Rng, script: &mut Script) {
    script.fresh(60);
    let account = Account::at_nil(rng);
    let mut plain = account.empty_period(rng, &[(0, 0)]);
    let complement = complement(rng, &plain.records[1]);
    plain.records.insert(2, complement);
    let label = 49 + rng.index(18);
    for (record, position) in [(1, label), (1, 105), (2, 49), (2, 91), (2, 105)] {
        let texts = ZEROS.map(|text| with_text(&plain, record, position, text));
        let [one, other] = texts.map(|text| in_some_writing(rng, &text));
        let line_end = rng.below(3);
        script.newest(line_end, &account.key, &[&one, &other, &one]);
        script.deliver(line_end, &[&one, &other]);
        for again in [&one, &other] {
            for zero in ZEROS {
                script.deliver(rng.below(3), &[&with_zeros(again, zero)]);
            }
        }
        script.newest(line_end, &account.key, &[&one]);
    }
    script.sound();
    script.entries(&[1, 10, 11]);
}

/// The statement with bytes at a position of a record, whose index counts from 0.
fn with_text(statement: &Statement, record: usize, position: usize, text: &[u8]) -> Statement {
    let mut other = statement.clone();
    put(&mut other.records[record], position, text);
    other
}
