//! Lines of a file that a damage looks for.

use crate::record::{code, is_mmo};
use crate::rng::Rng;
use crate::valid::Draft;

/// A line of some kind: `01`, `04`, `07`, `05` for a complement other than MMO, or `MMO`.
pub fn find(rng: &mut Rng, draft: &Draft, kind: &str) -> Option<usize> {
    find_where(rng, draft, |_, line| is_kind(line, kind))
}

fn is_kind(line: &[u8], kind: &str) -> bool {
    match kind {
        "MMO" => is_mmo(line),
        _ => code(line) == kind.as_bytes() && !is_mmo(line),
    }
}

/// A line that meets a condition on its index and bytes.
pub fn find_where(
    rng: &mut Rng,
    draft: &Draft,
    condition: impl Fn(usize, &[u8]) -> bool,
) -> Option<usize> {
    let places: Vec<usize> = (0..draft.lines.len())
        .filter(|&index| condition(index, &draft.lines[index]))
        .collect();
    if places.is_empty() {
        None
    } else {
        Some(rng.pick(&places))
    }
}

/// First and last line of the statement that has this line.
pub fn statement_of(draft: &Draft, index: usize) -> Option<(usize, usize)> {
    let first = (0..=index)
        .rev()
        .find(|&i| code(&draft.lines[i]) == b"01")?;
    let last = (index..draft.lines.len()).find(|&i| code(&draft.lines[i]) == b"07")?;
    Some((first, last))
}

/// The line after the last complement of the movement that has this line.
pub fn movement_end(draft: &Draft, index: usize) -> usize {
    (index + 1..draft.lines.len())
        .find(|&i| code(&draft.lines[i]) != b"05")
        .unwrap_or(draft.lines.len())
}
