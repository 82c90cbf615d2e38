//! The large cases: the limits of 20,000 and 9,999 records. The file given is only asked for
//! its line-end number.

use super::recipe::{add as recipe, Claim, Recipe};
use super::values::{add_to_amount, change, insert_complements};
use crate::record::{code, get, put, read_date, write_amount, write_date, MOST, RECORD};
use crate::rng::Rng;
use crate::valid::{file, one_statement, Draft};

const FAMILY: &str = "giant";

/// All large cases.
pub fn giants() -> Vec<Recipe> {
    let mut list = Vec::new();
    add_file_limit(&mut list);
    add_statement_limit(&mut list);
    add_at_the_limit(&mut list);
    list
}

fn add_file_limit(list: &mut Vec<Recipe>) {
    recipe(list, FAMILY, "records-20000", |rng, draft| {
        *draft = file(rng, draft.line_end, 20_000);
        Some(Claim::Accepted)
    });
    recipe(
        list,
        FAMILY,
        "records-20000-long-statements",
        |rng, draft| {
            let mut lines = Vec::new();
            for size in [9_999, 9_999, 2] {
                lines.append(&mut one_statement(rng, draft.line_end, size).lines);
            }
            draft.lines = lines;
            Some(Claim::Accepted)
        },
    );
    recipe(list, FAMILY, "records-20000-open", |rng, draft| {
        *draft = file(rng, draft.line_end, 19_999);
        let head = draft.lines[0].clone();
        draft.lines.push(head);
        Some(Claim::Refused(14, 20_000))
    });
    recipe(list, FAMILY, "records-20000-nonsense", |_, draft| {
        draft.lines = vec![draft.line(&[b' '; RECORD]); 20_000];
        Some(Claim::Refused(6, 1))
    });
    recipe(list, FAMILY, "records-20001", |rng, draft| {
        *draft = file(rng, draft.line_end, 20_001);
        Some(Claim::Refused(3, 0))
    });
    recipe(list, FAMILY, "records-20001-nonsense", |_, draft| {
        draft.lines = vec![draft.line(&[0; RECORD]); 20_001];
        Some(Claim::Refused(3, 0))
    });
    recipe(list, FAMILY, "records-20001-and-a-byte", |rng, draft| {
        *draft = file(rng, draft.line_end, 20_001);
        draft.lines.push(vec![b'0']);
        Some(Claim::Refused(2, 0))
    });
    recipe(
        list,
        FAMILY,
        "records-20001-line-end-number-3",
        |rng, draft| {
            *draft = file(rng, draft.line_end, 20_001);
            draft.line_end = 3;
            Some(Claim::Refused(1, 0))
        },
    );
}

fn add_statement_limit(list: &mut Vec<Recipe>) {
    recipe(list, FAMILY, "statement-9999", |rng, draft| {
        *draft = one_statement(rng, draft.line_end, 9_999);
        Some(Claim::Accepted)
    });
    recipe(list, FAMILY, "statement-9999-sum-far-out", |rng, draft| {
        *draft = one_statement(rng, draft.line_end, 9_999);
        raise_sum(draft);
        Some(Claim::Accepted)
    });
    recipe(list, FAMILY, "statement-9999-no-07", |rng, draft| {
        *draft = one_statement(rng, draft.line_end, 10_000);
        draft.lines.truncate(9_999);
        Some(Claim::Refused(14, 9_999))
    });
    recipe(list, FAMILY, "statement-9999-sum-wrong", |rng, draft| {
        *draft = one_statement(rng, draft.line_end, 9_999);
        new_sum(rng, draft, 9_998);
        Some(Claim::Refused(13, 9_999))
    });
    for (kind, wanted) in [("04", b"04"), ("05", b"05"), ("07", b"07")] {
        let name = format!("10000th-is-{kind}");
        recipe(list, FAMILY, name, move |rng, draft| {
            *draft = statement_with(rng, draft.line_end, wanted);
            Some(Claim::Refused(15, 10_000))
        });
    }
    recipe(list, FAMILY, "10000th-of-second-statement", |rng, draft| {
        let mut lines = file(rng, draft.line_end, 7).lines;
        lines.append(&mut statement_with(rng, draft.line_end, b"07").lines);
        draft.lines = lines;
        Some(Claim::Refused(15, 10_007))
    });
    recipe(list, FAMILY, "10000th-then-bad-byte", |rng, draft| {
        *draft = statement_with(rng, draft.line_end, b"04");
        draft.lines[10_000][0] = 0xFF;
        Some(Claim::Refused(15, 10_000))
    });
    recipe(list, FAMILY, "10000th-is-last-and-open", |rng, draft| {
        *draft = statement_with(rng, draft.line_end, b"04");
        draft.lines.truncate(10_000);
        Some(Claim::Refused(15, 10_000))
    });
}

/// A lower number at the 10,000th record comes before 15.
fn add_at_the_limit(list: &mut Vec<Recipe>) {
    recipe(list, FAMILY, "10000th-07-sum-wrong", |rng, draft| {
        *draft = statement_with(rng, draft.line_end, b"07");
        new_sum(rng, draft, 9_999);
        Some(Claim::Refused(13, 10_000))
    });
    recipe(list, FAMILY, "10000th-07-date-before-old", |rng, draft| {
        *draft = statement_with(rng, draft.line_end, b"07");
        let day = read_date(get(&draft.lines[0], 35, 40))?.checked_sub(1)?;
        put(&mut draft.lines[9_999], 35, &write_date(day));
        Some(Claim::Refused(12, 10_000))
    });
    recipe(list, FAMILY, "10000th-second-mmo", |rng, draft| {
        *draft = one_statement(rng, draft.line_end, 10_000);
        let movement = draft.lines.iter().find(|line| code(line) == b"04")?.clone();
        draft.lines.truncate(9_997);
        draft.lines.push(movement);
        insert_complements(rng, draft, 9_997, "MM");
        Some(Claim::Refused(11, 10_000))
    });
    recipe(list, FAMILY, "10000th-04-key-differs", |rng, draft| {
        *draft = statement_with(rng, draft.line_end, b"04");
        change(rng, &mut draft.lines[9_999], 22, 32);
        Some(Claim::Refused(10, 10_000))
    });
    recipe(list, FAMILY, "10000th-is-01", |rng, draft| {
        *draft = statement_with(rng, draft.line_end, b"04");
        let mut next = one_statement(rng, draft.line_end, 2);
        draft.lines.truncate(9_999);
        draft.lines.append(&mut next.lines);
        Some(Claim::Refused(7, 10_000))
    });
    let edits: [(&str, usize, &[u8], u32); 4] = [
        ("date", 35, b"310225", 9),
        ("zone", 21, b"X", 8),
        ("code", 1, b"02", 6),
        ("byte", 120, b"\x7F", 5),
    ];
    for (name, position, bytes, number) in edits {
        let name = format!("10000th-04-{name}-wrong");
        recipe(list, FAMILY, name, move |rng, draft| {
            *draft = statement_with(rng, draft.line_end, b"04");
            put(&mut draft.lines[9_999], position, bytes);
            Some(Claim::Refused(number, 10_000))
        });
    }
    recipe(list, FAMILY, "10000th-line-end-wrong", |rng, draft| {
        *draft = statement_with(rng, draft.line_end, b"04");
        *draft.lines[9_999].get_mut(RECORD)? = b' ';
        Some(Claim::Refused(4, 10_000))
    });
}

/// A statement too long whose 10,000th record has that code. A 07 is the last record.
fn statement_with(rng: &mut Rng, line_end: u64, wanted: &[u8]) -> Draft {
    let size = if wanted == b"07" { 10_000 } else { 10_010 };
    loop {
        let draft = one_statement(rng, line_end, size);
        if code(&draft.lines[9_999]) == wanted {
            return draft;
        }
    }
}

/// Makes the amount of a 07 wrong by one.
fn new_sum(rng: &mut Rng, draft: &mut Draft, index: usize) {
    let one = rng.pick(&[1, -1]);
    if add_to_amount(draft, index, one).is_none() {
        put(&mut draft.lines[index], 91, &write_amount(0));
    }
}

/// All movements the largest: first credits, then as many debits, so that the sum goes far
/// beyond 14 digits and comes back.
fn raise_sum(draft: &mut Draft) {
    let movements: Vec<usize> = (0..draft.lines.len())
        .filter(|&index| code(&draft.lines[index]) == b"04")
        .collect();
    let half = movements.len() / 2;
    for (number, &index) in movements.iter().enumerate() {
        let value = match number {
            _ if number < half => MOST,
            _ if number < 2 * half => -MOST,
            _ => 0,
        };
        put(&mut draft.lines[index], 91, &write_amount(value));
    }
    let last = draft.lines.len() - 1;
    let balance = get(&draft.lines[0], 91, 104).to_vec();
    put(&mut draft.lines[last], 91, &balance);
}
