//! Damages at random, of which nothing is said beforehand.

use super::lines::find_where;
use super::recipe::{add as recipe, pick, Claim, Recipe};
use super::{nil, places, values, zones};
use crate::record::{code, RECORD};
use crate::rng::Rng;
use crate::valid::{small_file, Draft};

pub fn add(list: &mut Vec<Recipe>) {
    add_bytes(list);
    add_lines(list);
    add_two_recipes(list);
}

fn add_bytes(list: &mut Vec<Recipe>) {
    recipe(
        list,
        "random-bytes",
        "random-permitted-bytes",
        |rng, draft| {
            for _ in 0..1 + rng.below(4) {
                let index = find_where(rng, draft, |_, _| true)?;
                draft.lines[index][rng.index(RECORD)] = rng.byte(0x20, 0x7E);
            }
            Some(Claim::Unsaid)
        },
    );
    recipe(list, "random-bytes", "random-bytes", |rng, draft| {
        for _ in 0..1 + rng.below(3) {
            let index = find_where(rng, draft, |_, _| true)?;
            draft.lines[index][rng.index(RECORD)] = rng.byte(0, 255);
        }
        Some(Claim::Unsaid)
    });
    recipe(
        list,
        "random-bytes",
        "random-digit-for-digit",
        |rng, draft| {
            for _ in 0..1 + rng.below(2) {
                let index = find_where(rng, draft, |_, _| true)?;
                let line = &mut draft.lines[index];
                let digits: Vec<usize> =
                    (2..RECORD).filter(|&i| line[i].is_ascii_digit()).collect();
                line[rng.pick(&digits)] = rng.byte(b'0', b'9');
            }
            Some(Claim::Unsaid)
        },
    );
    recipe(
        list,
        "random-bytes",
        "random-neighbouring-byte",
        |rng, draft| {
            let index = find_where(rng, draft, |_, _| true)?;
            let byte = &mut draft.lines[index][rng.index(RECORD)];
            *byte = byte.wrapping_add(rng.pick(&[1, 255]));
            Some(Claim::Unsaid)
        },
    );
    recipe(list, "random-bytes", "random-bit", |rng, draft| {
        let index = find_where(rng, draft, |_, _| true)?;
        draft.lines[index][rng.index(RECORD)] ^= 1 << rng.below(8);
        Some(Claim::Unsaid)
    });
    recipe(list, "random-bytes", "nonsense", |rng, draft| {
        draft.lines = (0..1 + rng.below(5))
            .map(|_| (0..RECORD).map(|_| rng.byte(0x20, 0x7E)).collect())
            .map(|record: Vec<u8>| draft.line(&record))
            .collect();
        Some(Claim::Unsaid)
    });
}

fn add_lines(list: &mut Vec<Recipe>) {
    recipe(
        list,
        "random-lines",
        "line-of-another-file",
        |rng, draft| {
            let index = find_where(rng, draft, |_, _| true)?;
            let other = small_file(rng);
            let wanted = code(&draft.lines[index]);
            let source = find_where(rng, &other, |_, line| code(line) == wanted)?;
            draft.lines[index] = draft.line(&other.lines[source][..RECORD]);
            Some(Claim::Unsaid)
        },
    );
    recipe(list, "random-lines", "two-files-as-one", |rng, draft| {
        append(rng, draft);
        Some(Claim::Accepted)
    });
    recipe(
        list,
        "random-lines",
        "two-files-as-one-and-swap",
        |rng, draft| {
            append(rng, draft);
            let first = find_where(rng, draft, |_, _| true)?;
            let second = find_where(rng, draft, |i, _| i != first)?;
            draft.lines.swap(first, second);
            Some(Claim::Unsaid)
        },
    );
    recipe(list, "random-lines", "lines-backwards", |_, draft| {
        draft.lines.reverse();
        Some(Claim::Unsaid)
    });
    recipe(list, "random-lines", "lines-turned", |rng, draft| {
        let index = find_where(rng, draft, |_, _| true)?;
        draft.lines.rotate_left(index);
        Some(Claim::Unsaid)
    });
    recipe(list, "random-lines", "end-of-line-moved", |rng, draft| {
        let index = find_where(rng, draft, |_, _| true)?;
        draft.lines[index].rotate_left(1);
        Some(Claim::Unsaid)
    });
}

/// Appends another file's records.
fn append(rng: &mut Rng, draft: &mut Draft) {
    let other = small_file(rng);
    for line in &other.lines {
        draft.lines.push(draft.line(&line[..RECORD]));
    }
}

/// Two damages that leave the lines whole, one after the other.
fn add_two_recipes(list: &mut Vec<Recipe>) {
    let mut singles = Vec::new();
    zones::add(&mut singles);
    values::add(&mut singles);
    nil::add(&mut singles);
    places::add(&mut singles);
    recipe(list, "random-two", "two-damages", move |rng, draft| {
        let first = pick(rng, &singles);
        let second = pick(rng, &singles);
        (first.apply)(rng, draft)?;
        (second.apply)(rng, draft)?;
        Some(Claim::Unsaid)
    });
}
