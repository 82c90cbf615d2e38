//! Fixed cases that read a table, and statements read and written again.

use super::calls::{reading, Call, TableCase};
use crate::check::Answer;
use crate::damage::{giants, recipes};
use crate::hostile;
use crate::nil;
use crate::rng::Rng;
use crate::valid::{file, one_statement, Draft};
use crate::write::small_damaged_case;

/// All of them.
pub fn fixed_readings(rng: &mut Rng) -> Vec<TableCase> {
    let mut cases = Vec::new();
    for line_end in 0..3 {
        add_numbers(rng, &mut cases, line_end);
        add_refused(rng, &mut cases, line_end);
    }
    add_hostile(rng, &mut cases);
    add_nil(&mut cases);
    add_recipes(rng, &mut cases);
    add_large(rng, &mut cases);
    cases
}

/// A file of four statements, the last without movements: every k and every length around theirs.
fn add_numbers(rng: &mut Rng, cases: &mut Vec<TableCase>, line_end: u64) {
    let mut bytes = Vec::new();
    for records in [8, 3, 5, 2] {
        bytes.extend(one_statement(rng, line_end, records).bytes());
    }
    let far_out = [0, 5, 6, 257, (1 << 32) + 1, 1 << 63, u64::MAX - 1, u64::MAX];
    for k in (1..=4).chain(far_out) {
        for rows in 0..=8 {
            let name = format!("k-{k}-rows-{rows}");
            cases.push(reading(name, line_end, bytes.clone(), k, rows));
        }
    }
    for k in 1..=4 {
        let (name, file) = (format!("k-{k}"), bytes.clone());
        let call = Call::Trip { line_end, file, k };
        cases.push(TableCase { name, call });
    }
}

/// A file whose last record is at fault: its refusal before 16 and before 18.
fn add_refused(rng: &mut Rng, cases: &mut Vec<TableCase>, line_end: u64) {
    let Draft { mut lines, .. } = file(rng, line_end, 6);
    if let Some(last) = lines.last_mut() {
        last[90] = b'x';
    }
    let bytes = lines.concat();
    for k in [0, 1, 9, u64::MAX] {
        for rows in [0, 1, 9] {
            let name = format!("refused-k-{k}-rows-{rows}");
            cases.push(reading(name, line_end, bytes.clone(), k, rows));
        }
    }
    for (k, rows) in [(0, 0), (1, 0), (1, 2), (u64::MAX, 2)] {
        let name = format!("no-file-k-{k}-rows-{rows}");
        cases.push(reading(name, line_end, Vec::new(), k, rows));
    }
}

/// Line ends that are none, and a file cut after each of its bytes.
fn add_hostile(rng: &mut Rng, cases: &mut Vec<TableCase>) {
    for case in hostile::checks(rng) {
        cases.push(reading(case.name, case.line_end, case.bytes, 1, 2));
    }
}

/// Amounts of nothing with either zero: each file read, and where it is accepted its first statement
/// written again.
fn add_nil(cases: &mut Vec<TableCase>) {
    for case in nil::checks() {
        let (line_end, file, k) = (case.line_end, case.bytes, 1);
        cases.push(reading(case.name.clone(), line_end, file.clone(), k, 2));
        if let Some(Answer::Accepted { .. }) = case.expected {
            let (name, call) = (case.name, Call::Trip { line_end, file, k });
            cases.push(TableCase { name, call });
        }
    }
}

/// Each damage of a file once.
fn add_recipes(rng: &mut Rng, cases: &mut Vec<TableCase>) {
    for (number, recipe) in recipes().iter().enumerate() {
        if let Some(case) = small_damaged_case(rng, recipe, number) {
            let name = case.name;
            cases.push(reading(name, case.line_end, case.bytes, 1, number % 9));
        }
    }
}

/// The large files, and the longest statement into tables around its movements.
fn add_large(rng: &mut Rng, cases: &mut Vec<TableCase>) {
    for (number, recipe) in giants().iter().enumerate() {
        let mut drafts = (number as u64..).map(|line_end| Draft {
            line_end: line_end % 3,
            lines: Vec::new(),
        });
        if let Some(case) = drafts.find_map(|draft| recipe.damage(rng, draft)) {
            let name = case.name;
            cases.push(reading(name, case.line_end, case.bytes, 1, 9_997));
        }
    }
    let bytes = one_statement(rng, 1, 9_999).bytes();
    for rows in [0, 100, 9_997] {
        let name = format!("records-9999-rows-{rows}");
        cases.push(reading(name, 1, bytes.clone(), 1, rows));
    }
    let (name, file) = ("records-9999".to_string(), bytes);
    let call = Call::Trip {
        line_end: 1,
        file,
        k: 1,
    };
    cases.push(TableCase { name, call });
}
