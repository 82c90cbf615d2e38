//! Refusals 7 and 14: records dropped, doubled, swapped, inserted; files cut.

use super::lines::{find, find_where, movement_end};
use super::recipe::{add as recipe, Claim, Recipe};
use crate::record::{code, put};
use crate::rng::Rng;
use crate::valid::{complement, Draft};

pub fn add(list: &mut Vec<Recipe>) {
    add_drops(list);
    add_doubles(list);
    add_swaps(list);
    add_insertions(list);
    add_recoded(list);
    add_cuts(list);
}

fn add_drops(list: &mut Vec<Recipe>) {
    recipe(list, "drop", "drop-01", |rng, draft| {
        let index = find(rng, draft, "01")?;
        draft.lines.remove(index);
        Some(Claim::Refused(7, index + 1))
    });
    recipe(
        list,
        "drop",
        "drop-07-before-another-statement",
        |rng, draft| {
            let last = draft.lines.len().checked_sub(1)?;
            let index = find_where(rng, draft, |i, line| i < last && code(line) == b"07")?;
            draft.lines.remove(index);
            Some(Claim::Refused(7, index + 1))
        },
    );
    recipe(list, "drop", "drop-last-07", |_, draft| {
        draft.lines.pop()?;
        Some(Claim::Refused(14, draft.lines.len()))
    });
    recipe(list, "drop", "drop-first-04-of-its-05", |rng, draft| {
        let index = find_first_movement(rng, draft, |next| next == b"05")?;
        draft.lines.remove(index);
        Some(Claim::Refused(7, index + 1))
    });
    recipe(list, "drop", "drop-04", |rng, draft| {
        let index = find(rng, draft, "04")?;
        draft.lines.remove(index);
        Some(Claim::Unsaid)
    });
    recipe(list, "drop", "drop-05", |rng, draft| {
        let index = find(rng, draft, "05")?;
        draft.lines.remove(index);
        Some(Claim::Accepted)
    });
    recipe(list, "drop", "drop-any", |rng, draft| {
        let index = find_where(rng, draft, |_, _| true)?;
        draft.lines.remove(index);
        Some(Claim::Unsaid)
    });
}

/// A 04 right after an 01, the code after it as wanted.
fn find_first_movement(
    rng: &mut Rng,
    draft: &Draft,
    next: impl Fn(&[u8]) -> bool,
) -> Option<usize> {
    let code_at = |index: usize| draft.lines.get(index).map(|line| code(line));
    find_where(rng, draft, |index, line| {
        code(line) == b"04"
            && index > 0
            && code_at(index - 1) == Some(b"01")
            && code_at(index + 1).map_or(false, &next)
    })
}

fn add_doubles(list: &mut Vec<Recipe>) {
    for kind in ["01", "07"] {
        recipe(
            list,
            "double",
            format!("double-{kind}"),
            move |rng, draft| {
                let index = find(rng, draft, kind)?;
                draft.lines.insert(index, draft.lines[index].clone());
                Some(Claim::Refused(7, index + 2))
            },
        );
    }
    recipe(list, "double", "double-mmo", |rng, draft| {
        let index = find(rng, draft, "MMO")?;
        draft.lines.insert(index, draft.lines[index].clone());
        Some(Claim::Refused(11, index + 2))
    });
    recipe(list, "double", "double-05", |rng, draft| {
        let index = find(rng, draft, "05")?;
        draft.lines.insert(index, draft.lines[index].clone());
        Some(Claim::Accepted)
    });
    recipe(list, "double", "double-any", |rng, draft| {
        let index = find_where(rng, draft, |_, _| true)?;
        draft.lines.insert(index, draft.lines[index].clone());
        Some(Claim::Unsaid)
    });
    recipe(list, "double", "double-file", |_, draft| {
        draft.lines.extend_from_within(..);
        Some(Claim::Accepted)
    });
}

fn add_swaps(list: &mut Vec<Recipe>) {
    recipe(list, "swap", "swap-01-with-next", |rng, draft| {
        let index = find(rng, draft, "01")?;
        draft.lines.get(index + 1)?;
        draft.lines.swap(index, index + 1);
        Some(Claim::Refused(7, index + 1))
    });
    recipe(list, "swap", "swap-07-with-next-01", |rng, draft| {
        let last = draft.lines.len().checked_sub(1)?;
        let index = find_where(rng, draft, |i, line| i < last && code(line) == b"07")?;
        draft.lines.swap(index, index + 1);
        Some(Claim::Refused(7, index + 1))
    });
    recipe(list, "swap", "swap-first-04-with-its-05", |rng, draft| {
        let index = find_first_movement(rng, draft, |next| next == b"05")?;
        draft.lines.swap(index, index + 1);
        Some(Claim::Refused(7, index + 1))
    });
    recipe(list, "swap", "swap-neighbours", |rng, draft| {
        let count = draft.lines.len();
        let index = find_where(rng, draft, |i, _| i + 1 < count)?;
        draft.lines.swap(index, index + 1);
        Some(Claim::Unsaid)
    });
    recipe(list, "swap", "swap-any", |rng, draft| {
        let first = find_where(rng, draft, |_, _| true)?;
        let second = find_where(rng, draft, |i, _| i != first)?;
        draft.lines.swap(first, second);
        Some(Claim::Unsaid)
    });
}

/// A record of one kind put in behind a record of another, or at the file's start.
fn add_insertions(list: &mut Vec<Recipe>) {
    let wrong = [
        ("05", "01"),
        ("01", "01"),
        ("01", "04"),
        ("01", "05"),
        ("04", "07"),
        ("05", "07"),
        ("07", "07"),
    ];
    for (kind, after) in wrong {
        let name = format!("insert-{kind}-after-{after}");
        recipe(list, "insert", name, move |rng, draft| {
            let line = borrowed_line(rng, draft, kind)?;
            let index = find(rng, draft, after)?;
            draft.lines.insert(index + 1, line);
            Some(Claim::Refused(7, index + 2))
        });
    }
    for kind in ["04", "05", "07"] {
        let name = format!("insert-{kind}-first");
        recipe(list, "insert", name, move |rng, draft| {
            let line = borrowed_line(rng, draft, kind)?;
            draft.lines.insert(0, line);
            Some(Claim::Refused(7, 1))
        });
    }
    recipe(list, "insert", "insert-05-of-its-04", |rng, draft| {
        let index = find(rng, draft, "04")?;
        let record = complement(rng, &draft.lines[index]);
        let place = movement_end(draft, index);
        draft.lines.insert(place, draft.line(&record));
        Some(Claim::Accepted)
    });
    recipe(list, "insert", "insert-05-of-another-04", |rng, draft| {
        let index = find(rng, draft, "04")?;
        let other = find_where(rng, draft, |_, line| {
            code(line) == b"04" && line[2..40] != draft.lines[index][2..40]
        })?;
        let record = complement(rng, &draft.lines[other]);
        draft.lines.insert(index + 1, draft.line(&record));
        Some(Claim::Refused(10, index + 2))
    });
}

/// A record of that kind out of the same file.
fn borrowed_line(rng: &mut Rng, draft: &Draft, kind: &str) -> Option<Vec<u8>> {
    find(rng, draft, kind).map(|index| draft.lines[index].clone())
}

/// Known codes in the wrong place, the rest of the record as it was.
fn add_recoded(list: &mut Vec<Recipe>) {
    for (from, to) in [
        ("04", "01"),
        ("05", "01"),
        ("07", "01"),
        ("01", "04"),
        ("01", "05"),
        ("01", "07"),
    ] {
        let name = format!("recode-{from}-as-{to}");
        recipe(list, "recode", name, move |rng, draft| {
            let index = find(rng, draft, from)?;
            put(&mut draft.lines[index], 1, to.as_bytes());
            Some(Claim::Refused(7, index + 1))
        });
    }
    // In place, but the zones of the one are not those of the other.
    for (from, to) in [("04", "07"), ("05", "04"), ("05", "07"), ("07", "04")] {
        let name = format!("recode-{from}-as-{to}");
        recipe(list, "recode", name, move |rng, draft| {
            let index = find(rng, draft, from)?;
            put(&mut draft.lines[index], 1, to.as_bytes());
            Some(Claim::Refused(8, index + 1))
        });
    }
}

/// 14, with the last record's number.
fn add_cuts(list: &mut Vec<Recipe>) {
    for kind in ["01", "04", "05", "MMO"] {
        let name = format!("cut-after-{}", kind.to_lowercase());
        recipe(list, "cut", name, move |rng, draft| {
            let index = find(rng, draft, kind)?;
            draft.lines.truncate(index + 1);
            Some(Claim::Refused(14, index + 1))
        });
    }
    recipe(list, "cut", "cut-only-01", |_, draft| {
        draft.lines.truncate(1);
        draft.lines.first()?;
        Some(Claim::Refused(14, 1))
    });
    recipe(list, "cut", "cut-after-07", |rng, draft| {
        let index = find(rng, draft, "07")?;
        draft.lines.truncate(index + 1);
        Some(Claim::Accepted)
    });
    recipe(list, "cut", "cut-to-nothing", |_, draft| {
        draft.lines.clear();
        Some(Claim::Accepted)
    });
}
