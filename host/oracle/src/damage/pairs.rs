//! Two faults in one file, so that order and precedence show.

use super::bytes::unpermitted;
use super::lines::{find, find_where, statement_of};
use super::recipe::{add as recipe, Claim, Recipe};
use super::values::{
    add_to_amount, change, earlier_day, insert_complements, movement_without_mmo, no_date, rebook,
    KEY,
};
use crate::record::{code, get, put, read_date, write_date, DAYS, DEBIT_ZERO, RECORD};
use crate::rng::Rng;
use crate::valid::Draft;

pub fn add(list: &mut Vec<Recipe>) {
    add_at_movement(list);
    add_at_complement(list);
    add_at_new_balance(list);
    add_form_first(list);
    add_earlier_record_first(list);
    add_before_end_of_file(list);
    add_beside_a_debit_zero(list);
}

/// Makes the key of a line differ in one zone.
fn change_key(rng: &mut Rng, line: &mut [u8]) {
    let (_, first, last) = rng.pick(&KEY);
    change(rng, line, first, last);
}

/// A day before the old balance date of the statement that has this line.
fn day_before_old(rng: &mut Rng, draft: &Draft, index: usize) -> Option<u64> {
    let (first, _) = statement_of(draft, index)?;
    let old = read_date(get(&draft.lines[first], 35, 40))?;
    earlier_day(rng, old)
}

fn add_at_movement(list: &mut Vec<Recipe>) {
    recipe(list, "pair-04", "04-8-and-9", |rng, draft| {
        let index = find(rng, draft, "04")?;
        let line = &mut draft.lines[index];
        put(line, rng.pick(&[35, 43]), no_date(rng));
        put(line, rng.pick(&[3, 21, 80, 89, 103]), b"X");
        Some(Claim::Refused(8, index + 1))
    });
    recipe(list, "pair-04", "04-8-amount-and-9", |rng, draft| {
        let index = find(rng, draft, "04")?;
        put(&mut draft.lines[index], rng.pick(&[35, 43]), no_date(rng));
        put(&mut draft.lines[index], 91, b"00000000000000");
        Some(Claim::Refused(8, index + 1))
    });
    recipe(list, "pair-04", "04-9-and-10", |rng, draft| {
        let index = find(rng, draft, "04")?;
        put(&mut draft.lines[index], rng.pick(&[35, 43]), no_date(rng));
        change_key(rng, &mut draft.lines[index]);
        Some(Claim::Refused(9, index + 1))
    });
    recipe(list, "pair-04", "04-10-and-12", |rng, draft| {
        let index = find(rng, draft, "04")?;
        let day = day_before_old(rng, draft, index)?;
        rebook(draft, index, day);
        change_key(rng, &mut draft.lines[index]);
        Some(Claim::Refused(10, index + 1))
    });
    recipe(list, "pair-04", "04-9-value-and-12", |rng, draft| {
        let index = find(rng, draft, "04")?;
        let day = day_before_old(rng, draft, index)?;
        rebook(draft, index, day);
        put(&mut draft.lines[index], 43, no_date(rng));
        Some(Claim::Refused(9, index + 1))
    });
}

fn add_at_complement(list: &mut Vec<Recipe>) {
    recipe(list, "pair-05", "05-8-and-10", |rng, draft| {
        let index = find(rng, draft, "05")?;
        put(
            &mut draft.lines[index],
            rng.pick(&[3, 12, 20, 21, 35, 40, 45, 120]),
            b"A",
        );
        change(rng, &mut draft.lines[index], 8, 11);
        Some(Claim::Refused(8, index + 1))
    });
    recipe(list, "pair-05", "05-9-and-10", |rng, draft| {
        let index = find(rng, draft, "05")?;
        put(&mut draft.lines[index], 35, no_date(rng));
        change_key(rng, &mut draft.lines[index]);
        Some(Claim::Refused(9, index + 1))
    });
    recipe(list, "pair-05", "05-date-before-old-is-10", |rng, draft| {
        let index = find(rng, draft, "05")?;
        let day = day_before_old(rng, draft, index)?;
        put(&mut draft.lines[index], 35, &write_date(day));
        Some(Claim::Refused(10, index + 1))
    });
    recipe(list, "pair-05", "05-10-and-11", |rng, draft| {
        let index = movement_without_mmo(rng, draft)?;
        insert_complements(rng, draft, index, "MM");
        change_key(rng, &mut draft.lines[index + 2]);
        Some(Claim::Refused(10, index + 3))
    });
    recipe(list, "pair-05", "05-11-then-8", |rng, draft| {
        let index = movement_without_mmo(rng, draft)?;
        insert_complements(rng, draft, index, "MMX");
        put(&mut draft.lines[index + 3], 41, b"X");
        Some(Claim::Refused(11, index + 3))
    });
}

fn add_at_new_balance(list: &mut Vec<Recipe>) {
    recipe(list, "pair-07", "07-8-and-13", |rng, draft| {
        let index = find(rng, draft, "07")?;
        put(&mut draft.lines[index], 105, b"X");
        add_to_amount(draft, index, 1)?;
        Some(Claim::Refused(8, index + 1))
    });
    recipe(list, "pair-07", "07-9-and-13", |rng, draft| {
        let index = find(rng, draft, "07")?;
        put(&mut draft.lines[index], 35, no_date(rng));
        add_to_amount(draft, index, -1)?;
        Some(Claim::Refused(9, index + 1))
    });
    recipe(list, "pair-07", "07-10-and-13", |rng, draft| {
        let index = find(rng, draft, "07")?;
        change_key(rng, &mut draft.lines[index]);
        add_to_amount(draft, index, 1)?;
        Some(Claim::Refused(10, index + 1))
    });
    recipe(list, "pair-07", "07-12-and-13", |rng, draft| {
        let index = find(rng, draft, "07")?;
        let day = day_before_old(rng, draft, index)?;
        put(&mut draft.lines[index], 35, &write_date(day));
        add_to_amount(draft, index, 1)?;
        Some(Claim::Refused(12, index + 1))
    });
    recipe(list, "pair-07", "07-10-and-12", |rng, draft| {
        let index = find(rng, draft, "07")?;
        let day = day_before_old(rng, draft, index)?;
        put(&mut draft.lines[index], 35, &write_date(day));
        change_key(rng, &mut draft.lines[index]);
        Some(Claim::Refused(10, index + 1))
    });
    recipe(
        list,
        "pair-07",
        "booking-after-new-then-8-before-the-07",
        |rng, draft| {
            let index = find(rng, draft, "04")?;
            let (first, last) = statement_of(draft, index)?;
            let later = find_where(rng, draft, |i, _| index < i && i < last)?;
            let old = read_date(get(&draft.lines[first], 35, 40))?;
            if old + 1 == DAYS {
                return None;
            }
            put(&mut draft.lines[last], 35, &write_date(old));
            rebook(draft, index, old + 1);
            put(&mut draft.lines[later], 21, b"X");
            Some(Claim::Refused(8, later + 1))
        },
    );
}

/// 4 to 7 stand before everything else at one record.
fn add_form_first(list: &mut Vec<Recipe>) {
    for (name, position, byte) in [("5", 50, 0x7F), ("6", 2, b'9'), ("8", 21, b'X')] {
        let name = format!("4-and-{name}");
        recipe(list, "pair-form", name, move |rng, draft| {
            let index = find_where(rng, draft, |_, _| true)?;
            *draft.lines[index].get_mut(RECORD)? = b' ';
            put(&mut draft.lines[index], position, &[byte]);
            Some(Claim::Refused(4, index + 1))
        });
    }
    recipe(list, "pair-form", "4-and-7", |rng, draft| {
        let index = find(rng, draft, "01")?;
        let mut line = draft.lines[index].clone();
        *line.get_mut(RECORD)? = b' ';
        draft.lines.insert(index + 1, line);
        Some(Claim::Refused(4, index + 2))
    });
    recipe(list, "pair-form", "5-and-6", |rng, draft| {
        let index = find_where(rng, draft, |_, _| true)?;
        put(&mut draft.lines[index], 1, b"99");
        put(
            &mut draft.lines[index],
            3 + rng.index(118),
            &[unpermitted(rng)],
        );
        Some(Claim::Refused(5, index + 1))
    });
    recipe(list, "pair-form", "5-in-code", |rng, draft| {
        let index = find_where(rng, draft, |_, _| true)?;
        put(
            &mut draft.lines[index],
            1 + rng.index(2),
            &[unpermitted(rng)],
        );
        Some(Claim::Refused(5, index + 1))
    });
    recipe(list, "pair-form", "5-and-7", |rng, draft| {
        let index = find(rng, draft, "07")?;
        let mut line = draft.lines[index].clone();
        put(&mut line, 90, &[unpermitted(rng)]);
        draft.lines.insert(index + 1, line);
        Some(Claim::Refused(5, index + 2))
    });
    recipe(list, "pair-form", "5-and-8", |rng, draft| {
        let index = find_where(rng, draft, |_, _| true)?;
        put(&mut draft.lines[index], 3, b"x");
        put(&mut draft.lines[index], 120, &[unpermitted(rng)]);
        Some(Claim::Refused(5, index + 1))
    });
    recipe(list, "pair-form", "6-and-7", |rng, draft| {
        let index = find(rng, draft, "07")?;
        let mut line = draft.lines[index].clone();
        put(&mut line, 1, b"06");
        draft.lines.insert(index + 1, line);
        Some(Claim::Refused(6, index + 2))
    });
    recipe(list, "pair-form", "6-and-8", |rng, draft| {
        let index = find_where(rng, draft, |_, _| true)?;
        put(&mut draft.lines[index], 1, b"02    x");
        Some(Claim::Refused(6, index + 1))
    });
    recipe(list, "pair-form", "7-and-8-to-13", |rng, draft| {
        let index = find(rng, draft, "07")?;
        let mut line = draft.lines[index].clone();
        put(&mut line, 3, &[b'x'; 118]);
        draft.lines.insert(index + 1, line);
        Some(Claim::Refused(7, index + 2))
    });
    recipe(list, "pair-form", "7-and-9", |rng, draft| {
        let index = find(rng, draft, "01")?;
        let mut line = draft.lines[index].clone();
        put(&mut line, 35, no_date(rng));
        draft.lines.insert(index + 1, line);
        Some(Claim::Refused(7, index + 2))
    });
}

/// A fault of a higher number at an earlier record comes first.
fn add_earlier_record_first(list: &mut Vec<Recipe>) {
    recipe(list, "pair-order", "8-then-4", |rng, draft| {
        let (index, later) = two_lines(rng, draft)?;
        *draft.lines[later].get_mut(RECORD)? = b'X';
        put(&mut draft.lines[index], 21, b"X");
        Some(Claim::Refused(8, index + 1))
    });
    recipe(list, "pair-order", "9-then-5", |rng, draft| {
        let (index, later) = two_lines(rng, draft)?;
        put(&mut draft.lines[index], 35, no_date(rng));
        put(
            &mut draft.lines[later],
            1 + rng.index(RECORD),
            &[unpermitted(rng)],
        );
        Some(Claim::Refused(9, index + 1))
    });
    recipe(list, "pair-order", "10-then-6", |rng, draft| {
        let index = find(rng, draft, "04")?;
        let later = find_where(rng, draft, |i, _| i > index)?;
        change_key(rng, &mut draft.lines[index]);
        put(&mut draft.lines[later], 1, b"03");
        Some(Claim::Refused(10, index + 1))
    });
    recipe(list, "pair-order", "12-then-13", |rng, draft| {
        let index = find(rng, draft, "04")?;
        let (_, last) = statement_of(draft, index)?;
        let day = day_before_old(rng, draft, index)?;
        rebook(draft, index, day);
        add_to_amount(draft, last, 1)?;
        Some(Claim::Refused(12, index + 1))
    });
    recipe(list, "pair-order", "13-then-7", |rng, draft| {
        let index = find(rng, draft, "07")?;
        add_to_amount(draft, index, 1)?;
        draft.lines.insert(index + 1, draft.lines[index].clone());
        Some(Claim::Refused(13, index + 1))
    });
    recipe(
        list,
        "pair-order",
        "13-then-8-in-next-statement",
        |rng, draft| {
            let index = find(rng, draft, "07")?;
            let later = find_where(rng, draft, |i, line| i > index && code(line) == b"01")?;
            add_to_amount(draft, index, -1)?;
            put(&mut draft.lines[later], 41, b"X");
            Some(Claim::Refused(13, index + 1))
        },
    );
}

/// A line and a later one.
fn two_lines(rng: &mut Rng, draft: &Draft) -> Option<(usize, usize)> {
    let index = find_where(rng, draft, |i, _| i + 1 < draft.lines.len())?;
    let later = find_where(rng, draft, |i, _| i > index)?;
    Some((index, later))
}

/// 14 comes after every other fault, also at the last record.
fn add_before_end_of_file(list: &mut Vec<Recipe>) {
    recipe(list, "pair-cut", "8-at-last-record-and-14", |rng, draft| {
        let index = cut(rng, draft)?;
        put(&mut draft.lines[index], 21, b"X");
        Some(Claim::Refused(8, index + 1))
    });
    recipe(list, "pair-cut", "9-at-last-record-and-14", |rng, draft| {
        let index = cut(rng, draft)?;
        put(&mut draft.lines[index], 35, no_date(rng));
        Some(Claim::Refused(9, index + 1))
    });
    recipe(list, "pair-cut", "5-before-and-14", |rng, draft| {
        let last = cut(rng, draft)?;
        let index = rng.index(last + 1);
        put(&mut draft.lines[index], 60, &[unpermitted(rng)]);
        Some(Claim::Refused(5, index + 1))
    });
    recipe(list, "pair-cut", "4-at-last-record-and-14", |rng, draft| {
        let index = cut(rng, draft)?;
        *draft.lines[index].get_mut(RECORD)? = b'0';
        Some(Claim::Refused(4, index + 1))
    });
    recipe(
        list,
        "pair-cut",
        "10-at-last-record-and-14",
        |rng, draft| {
            let index = find(rng, draft, "04")?;
            draft.lines.truncate(index + 1);
            change_key(rng, &mut draft.lines[index]);
            Some(Claim::Refused(10, index + 1))
        },
    );
    recipe(list, "pair-cut", "14-and-a-sum-never-seen", |rng, draft| {
        let index = find(rng, draft, "04")?;
        draft.lines.truncate(index + 1);
        add_to_amount(draft, index, 1)?;
        Some(Claim::Refused(14, index + 1))
    });
}

/// A debit zero is an amount: what is wrong beside it is found.
fn add_beside_a_debit_zero(list: &mut Vec<Recipe>) {
    for kind in ["01", "04", "07"] {
        let name = format!("{kind}-debit-zero-and-8");
        recipe(list, "pair-zero", name, move |rng, draft| {
            let index = debit_zero(rng, draft, kind)?;
            put(&mut draft.lines[index], 21, b"X");
            Some(Claim::Refused(8, index + 1))
        });
        let name = format!("{kind}-debit-zero-and-9");
        recipe(list, "pair-zero", name, move |rng, draft| {
            let index = debit_zero(rng, draft, kind)?;
            put(&mut draft.lines[index], 35, no_date(rng));
            Some(Claim::Refused(9, index + 1))
        });
    }
    for kind in ["04", "07"] {
        let name = format!("{kind}-debit-zero-and-10");
        recipe(list, "pair-zero", name, move |rng, draft| {
            let index = debit_zero(rng, draft, kind)?;
            change_key(rng, &mut draft.lines[index]);
            Some(Claim::Refused(10, index + 1))
        });
        let name = format!("{kind}-debit-zero-and-12");
        recipe(list, "pair-zero", name, move |rng, draft| {
            let index = debit_zero(rng, draft, kind)?;
            let day = day_before_old(rng, draft, index)?;
            put(&mut draft.lines[index], 35, &write_date(day));
            Some(Claim::Refused(12, index + 1))
        });
    }
    recipe(list, "pair-zero", "debit-zero-and-7", |rng, draft| {
        let index = debit_zero(rng, draft, "01")?;
        draft.lines.insert(index + 1, draft.lines[index].clone());
        Some(Claim::Refused(7, index + 2))
    });
    recipe(list, "pair-zero", "debit-zero-and-14", |rng, draft| {
        let kind = rng.pick(&["01", "04"]);
        let index = debit_zero(rng, draft, kind)?;
        draft.lines.truncate(index + 1);
        Some(Claim::Refused(14, index + 1))
    });
}

/// Puts a debit zero into a line of that kind; gives its index.
fn debit_zero(rng: &mut Rng, draft: &mut Draft, kind: &str) -> Option<usize> {
    let index = find(rng, draft, kind)?;
    put(&mut draft.lines[index], 91, DEBIT_ZERO);
    Some(index)
}

/// Cuts the file inside a statement; gives the last line left.
fn cut(rng: &mut Rng, draft: &mut Draft) -> Option<usize> {
    let index = find_where(rng, draft, |_, line| code(line) != b"07")?;
    draft.lines.truncate(index + 1);
    Some(index)
}
