//! How accounts end, by the files alone.
//!
//! Given room it does not matter in which order files come. A file is stored as soon as each of its
//! statements is held or follows, and none leaves out a month that another file still has. So an
//! account of which nothing is held begins with the earliest month that any file has of it. A file
//! with a statement of an account that is none of its months is never stored.

use super::plan::{Chain, Letter};
use crate::record::CREDIT_ZERO;
use crate::series_cases::accounts::with_zeros;
use crate::valid::Statement;

/// A month of a chain: the chain's index, and the statement's in it.
type Month = (usize, usize);

/// A file that waits.
struct Waiting {
    /// What it has of the chains; statements of other accounts are left out.
    months: Vec<Month>,
    /// Whether it has another statement of a chain's account: corrected, older or later.
    never_stored: bool,
}

/// The statements of each chain that the journal holds in the end.
pub fn ends<'a>(chains: &[Chain], letters: impl Iterator<Item = &'a Letter>) -> Vec<Vec<usize>> {
    let mut waiting: Vec<Waiting> = letters.map(|one| waiting_file(chains, one)).collect();
    let before = chains.iter().map(|chain| (0..chain.held).collect());
    let mut held: Vec<Vec<usize>> = before.collect();
    let mut place = 0;
    while place < waiting.len() {
        match after(chains, &held, &waiting, place) {
            Some(after) => {
                // Others may come now, those in front too.
                held = after;
                waiting.remove(place);
                place = 0;
            }
            None => place += 1,
        }
    }
    held
}

fn waiting_file(chains: &[Chain], letter: &Letter) -> Waiting {
    let mut waiting = Waiting {
        months: Vec::new(),
        never_stored: false,
    };
    for one in &letter.statements {
        let key = one.key.bytes();
        if let Some(chain) = chains.iter().position(|chain| chain.key.bytes() == key) {
            let mut row = chains[chain].statements.iter();
            match row.position(|month| is_same(month, one)) {
                Some(month) => waiting.months.push((chain, month)),
                None => waiting.never_stored = true,
            }
        }
    }
    waiting
}

/// Whether two statements are one, whatever the sign of their zeros.
fn is_same(one: &Statement, other: &Statement) -> bool {
    with_zeros(one, CREDIT_ZERO).records == with_zeros(other, CREDIT_ZERO).records
}

/// What is held after the file at that place, if it can be stored now.
fn after(
    chains: &[Chain],
    held: &[Vec<usize>],
    waiting: &[Waiting],
    place: usize,
) -> Option<Vec<Vec<usize>>> {
    if waiting[place].never_stored {
        return None;
    }
    let mut after = held.to_vec();
    for &(chain, month) in &waiting[place].months {
        let row = &mut after[chain];
        if row.contains(&month) {
            continue;
        }
        let last = row.last().copied();
        let left_out = last.map_or(0, |last| last + 1)..month;
        let others = (0..waiting.len()).filter(|&other| other != place);
        let mut months = others.flat_map(|other| &waiting[other].months);
        let still_come = months.any(|(other, month)| *other == chain && left_out.contains(month));
        if still_come || !last.map_or(true, |last| follows(&chains[chain], month, last)) {
            return None;
        }
        row.push(month);
    }
    Some(after)
}

/// Whether a month of a chain may come behind another: it is later, and has its balance.
fn follows(chain: &Chain, month: usize, last: usize) -> bool {
    let (old, new) = (chain.statements[month].old, chain.statements[last].new);
    month > last && old.value == new.value
}
