//! Cases with their answers in two binary files, for a program that is linked with the exported
//! functions and compares: checks, and series of operations on a journal.
//!
//! Numbers stand low byte first. README.md has the format.

use std::io;
use std::path::Path;

use crate::answers::Numbers;
use crate::case_file::{put_bytes, Cases};
use crate::damage::{case, giants, recipes, Case, Claim, Recipe};
use crate::recorded::Series;
use crate::rng::Rng;
use crate::series_cases::{large_cases, series_case};
use crate::valid::{few_records, Draft};
use crate::write::damaged_from;
use crate::{expected, hostile, hostile_series, isolation, month_ends, nil};

/// The first bytes of the two files.
pub const CHECKS: &[u8; 8] = b"CHCHECKS";
pub const SERIES: &[u8; 8] = b"CHSERIES";

/// Writes the fixed checks and so many generated ones. Gives a line that says what they are.
pub fn replay_checks(seed: u64, count: u64, path: &Path) -> io::Result<String> {
    let mut rng = Rng::new(seed);
    let lengths = hostile::lengths();
    let files = fixed_checks(&mut rng);
    let fixed = (lengths.len() + files.len()) as u64;
    let mut cases = Cases::create(path, CHECKS, seed, fixed + count)?;
    for (line_end, length) in lengths {
        add_length(&mut cases, line_end, length)?;
    }
    for case in &files {
        add_check(&mut cases, case)?;
    }
    let list = recipes();
    for number in 0..count {
        add_check(&mut cases, &generated_check(&mut rng, &list, number))?;
    }
    let tally = cases.finish()?;
    Ok(format!(
        "checks: seed {seed}, {fixed} fixed, {count} generated: {}",
        tally.words()
    ))
}

/// A file: letter, line-end number, file, the answer of the check, that to its length, its earliest
/// old balance date.
pub fn add_check(cases: &mut Cases, case: &Case) -> io::Result<()> {
    let checked = Numbers::of_check(case.line_end, &case.bytes);
    let by_length = Numbers::of_length(case.line_end, case.bytes.len() as u64);
    let earliest = Numbers::of_earliest(case.line_end, &case.bytes);
    let mut body = vec![b'C'];
    body.extend(case.line_end.to_le_bytes());
    put_bytes(&mut body, &case.bytes);
    checked.put(&mut body);
    by_length.put(&mut body);
    earliest.put(&mut body);
    cases.add(&case.name, &body, &[checked.number])
}

/// A length without a file: letter, line-end number, length, answer.
pub fn add_length(cases: &mut Cases, line_end: u64, length: u64) -> io::Result<()> {
    let answer = Numbers::of_length(line_end, length);
    let mut body = vec![b'R'];
    body.extend(line_end.to_le_bytes());
    body.extend(length.to_le_bytes());
    answer.put(&mut body);
    let name = format!("length-{length}-line-end-{line_end}");
    cases.add(&name, &body, &[answer.number])
}

/// The large files, which show refusals 3 and 15, the hostile ones, and the vectors of amounts of
/// nothing.
fn fixed_checks(rng: &mut Rng) -> Vec<Case> {
    let mut cases = Vec::new();
    for (number, recipe) in giants().iter().enumerate() {
        // A recipe may have no place in a file with this line end.
        let mut drafts = (number as u64..).map(|line_end| Draft {
            line_end: line_end % 3,
            lines: Vec::new(),
        });
        cases.extend(drafts.find_map(|draft| recipe.damage(rng, draft)));
    }
    cases.append(&mut hostile::checks(rng));
    cases.append(&mut nil::checks());
    cases
}

/// Of eight, two are valid, five damaged and one is random bytes.
fn generated_check(rng: &mut Rng, list: &[Recipe], number: u64) -> Case {
    match number % 8 {
        0 | 4 => case("valid", &few_records(rng), Claim::Accepted),
        7 => hostile::random_file(rng),
        _ => damaged_from(rng, list, few_records),
    }
}

/// Writes the fixed series and so many generated ones. Gives a line that says what they are.
pub fn replay_series(seed: u64, count: u64, path: &Path) -> io::Result<String> {
    let fixed = fixed_series(seed)?;
    let total = fixed.len() as u64 + count;
    let mut cases = Cases::create(path, SERIES, seed, total)?;
    for series in &fixed {
        add_series(&mut cases, series)?;
    }
    for index in 0..count {
        let case = series_case(seed, index as usize);
        add_series(&mut cases, &Series::of(case.name, &case.bytes)?)?;
    }
    let tally = cases.finish()?;
    Ok(format!(
        "series: seed {seed}, {} fixed, {count} generated: {}",
        fixed.len(),
        tally.words()
    ))
}

pub fn add_series(cases: &mut Cases, series: &Series) -> io::Result<()> {
    cases.add(&series.name, &series.body(), &series.numbers())
}

/// The large series, the vectors of amounts of nothing, of month ends, of what was expected and of
/// accounts beside others, and the hostile series.
fn fixed_series(seed: u64) -> io::Result<Vec<Series>> {
    let vectors = [
        nil::series(),
        month_ends::series(),
        expected::series(),
        isolation::series(),
    ]
    .concat();
    let cases = [large_cases(), vectors].concat();
    let cases = cases.iter().map(|case| Series::of(case.name, &case.bytes));
    let mut list = cases.collect::<io::Result<Vec<Series>>>()?;
    list.append(&mut hostile_series::series(&mut Rng::new(seed)));
    Ok(list)
}
