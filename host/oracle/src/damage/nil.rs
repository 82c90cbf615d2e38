//! Amounts of nothing, written with either sign, and the same text where no amount stands.

use super::lines::{find, find_where, statement_of};
use super::recipe::{add as recipe, Claim, Recipe};
use super::values::add_to_amount;
use crate::record::{
    code, get, is_nil, put, read_amount, write_amount, CREDIT_ZERO, DEBIT_ZERO, MOST,
};
use crate::rng::Rng;
use crate::valid::{zero, Draft};

pub fn add(list: &mut Vec<Recipe>) {
    add_one_amount(list);
    add_statements(list);
    add_texts(list);
}

/// One amount becomes nothing: the sum is wrong unless it was.
fn add_one_amount(list: &mut Vec<Recipe>) {
    for kind in ["04", "01", "07"] {
        for (sign, zero) in [("debit", DEBIT_ZERO), ("credit", CREDIT_ZERO)] {
            let name = format!("{kind}-amount-{sign}-zero");
            recipe(list, "nil", name, move |rng, draft| {
                let index = find(rng, draft, kind)?;
                let (_, last) = statement_of(draft, index)?;
                let was_nil = is_nil(&draft.lines[index]);
                put(&mut draft.lines[index], 91, zero);
                match was_nil {
                    true => Some(Claim::Accepted),
                    false => Some(Claim::Refused(13, last + 1)),
                }
            });
        }
    }
    recipe(list, "nil", "zeros-with-the-other-sign", |_, draft| {
        draft.lines.iter().find(|line| is_nil(line))?;
        for line in draft.lines.iter_mut().filter(|line| is_nil(line)) {
            let sign = if line[103] == b'{' { b"}" } else { b"{" };
            put(line, 104, sign);
        }
        Some(Claim::Accepted)
    });
    recipe(list, "nil", "04-debit-sign-of-ten", |rng, draft| {
        let index = find(rng, draft, "04")?;
        let (_, last) = statement_of(draft, index)?;
        let before = read_amount(get(&draft.lines[index], 91, 104))?;
        put(&mut draft.lines[index], 91, b"0000000000001}");
        add_to_amount(draft, last, -10 - before)?;
        Some(Claim::Accepted)
    });
}

/// A whole statement at nil, with either sign in each place.
fn add_statements(list: &mut Vec<Recipe>) {
    recipe(list, "nil", "statement-of-nothing", |rng, draft| {
        let index = find(rng, draft, "01")?;
        empty(rng, draft, index)?;
        Some(Claim::Accepted)
    });
    recipe(list, "nil", "movements-that-cancel-out", |rng, draft| {
        let index = find(rng, draft, "04")?;
        let (first, last) = empty(rng, draft, index)?;
        let other = find_where(rng, draft, |i, line| {
            (first..last).contains(&i) && i != index && code(line) == b"04"
        })?;
        let value = 1 + rng.below(MOST as u64) as i64;
        put(&mut draft.lines[index], 91, &write_amount(value));
        put(&mut draft.lines[other], 91, &write_amount(-value));
        Some(Claim::Accepted)
    });
    recipe(list, "nil", "nil-but-for-a-movement", |rng, draft| {
        let index = find(rng, draft, "04")?;
        let (_, last) = empty(rng, draft, index)?;
        let value = rng.pick(&[1, -1, 7, 10, -10]);
        put(&mut draft.lines[index], 91, &write_amount(value));
        Some(Claim::Refused(13, last + 1))
    });
}

/// Makes all amounts of a statement nothing. Gives its first and its last line.
fn empty(rng: &mut Rng, draft: &mut Draft, index: usize) -> Option<(usize, usize)> {
    let (first, last) = statement_of(draft, index)?;
    for line in &mut draft.lines[first..=last] {
        if code(line) != b"05" {
            put(line, 91, zero(rng));
        }
    }
    Some((first, last))
}

/// In a text a zero is no amount.
fn add_texts(list: &mut Vec<Recipe>) {
    for (name, kind, position) in [
        ("label", "04", 49),
        ("label-end", "04", 66),
        ("reference", "04", 105),
        ("information", "05", 49),
        ("information-in-the-place-of-an-amount", "05", 91),
    ] {
        let name = format!("{kind}-{name}-reads-as-zero");
        recipe(list, "nil-text", name, move |rng, draft| {
            let index = find(rng, draft, kind)?;
            put(&mut draft.lines[index], position, zero(rng));
            Some(Claim::Accepted)
        });
    }
}
