//! Writes inputs for the listing program with the output expected of it.

use std::io;
use std::path::Path;

use crate::damage::{case, recipes, Case, Claim, Recipe};
use crate::listing::{listing, MOST_BYTES};
use crate::record::put;
use crate::rng::Rng;
use crate::valid::{file, one_statement, Draft};
use crate::write::{one_of_each_family, KEPT_BYTES};

const LF: u64 = 1;
/// As many records as are listed at most.
const MOST_RECORDS: usize = MOST_BYTES / 121;

/// Writes each case as NNN.cfonb and NNN.out. Gives a line a case, four columns with tabs
/// between: file name, bytes, last line of the output, what it tries; then a line of totals.
pub fn listings(seed: u64, count: usize, directory: &Path) -> io::Result<Vec<String>> {
    std::fs::create_dir_all(directory)?;
    let mut totals = Totals::default();
    let mut lines = Vec::new();
    for (number, case) in (1..).zip(listing_cases(seed, count)) {
        let name = format!("{number:03}");
        let output = listing(&case.bytes);
        std::fs::write(directory.join(format!("{name}.cfonb")), &case.bytes)?;
        std::fs::write(directory.join(format!("{name}.out")), &output)?;
        let last = output.lines().last().unwrap_or("");
        let length = case.bytes.len();
        lines.push(format!("{name}.cfonb\t{length}\t{last}\t{}", case.name));
        totals.add(last);
    }
    lines.push(totals.line());
    Ok(lines)
}

/// How many cases end in which way.
#[derive(Default)]
struct Totals {
    listed: u64,
    refused: u64,
    too_long: u64,
}

impl Totals {
    fn add(&mut self, last_line: &str) {
        match last_line.split(' ').next() {
            Some("OK") => self.listed += 1,
            Some("REFUS") => self.refused += 1,
            _ => self.too_long += 1,
        }
    }

    fn line(&self) -> String {
        let total = self.listed + self.refused + self.too_long;
        format!(
            "total {total}: {} listed, {} refused, {} too long",
            self.listed, self.refused, self.too_long
        )
    }
}

/// First the cases of size and line ends, then one valid file and two damaged ones in turn.
pub fn listing_cases(seed: u64, count: usize) -> Vec<Case> {
    let mut rng = Rng::new(seed);
    let list = recipes();
    let mut in_turn = one_of_each_family(&mut rng, &list).into_iter().cycle();
    let mut cases = size_cases(&mut rng);
    cases.append(&mut line_end_cases(&mut rng));
    while cases.len() < count {
        if cases.len() % 3 == 0 {
            cases.push(valid_case(&mut rng));
        } else if let Some(recipe) = in_turn.next() {
            cases.extend(damaged_case(&mut rng, recipe));
        }
    }
    cases.truncate(count);
    cases
}

/// Sizes around the limit, with and without a fault, and none.
fn size_cases(rng: &mut Rng) -> Vec<Case> {
    let empty = file(rng, LF, 0);
    let full = file(rng, LF, MOST_RECORDS);
    let one = one_statement(rng, LF, MOST_RECORDS);
    let over = file(rng, LF, MOST_RECORDS + 1);
    let fault = Claim::Refused(6, MOST_RECORDS);
    let length = Claim::Refused(2, 0);
    vec![
        case("empty", &empty, Claim::Accepted),
        case("bytes-65340", &full, Claim::Accepted),
        case("bytes-65341", &with_a_byte(&full), length),
        case("bytes-65341-fault", &with_a_byte(&spoilt(&full)), length),
        case("bytes-65340-fault", &spoilt(&full), fault),
        case("bytes-65339", &without_a_byte(&full), length),
        case("bytes-65340-one-statement", &one, Claim::Accepted),
        case("bytes-65461", &over, Claim::Accepted),
        case("bytes-65461-fault", &spoilt(&over), fault),
    ]
}

/// The last record within the limit gets an unknown code.
fn spoilt(draft: &Draft) -> Draft {
    let mut draft = draft.clone();
    put(&mut draft.lines[MOST_RECORDS - 1], 1, b"09");
    draft
}

fn with_a_byte(draft: &Draft) -> Draft {
    let mut draft = draft.clone();
    draft.lines.push(b"\n".to_vec());
    draft
}

fn without_a_byte(draft: &Draft) -> Draft {
    let mut draft = draft.clone();
    if let Some(line) = draft.lines.last_mut() {
        line.pop();
    }
    draft
}

/// Files with other line ends, some of a length that is right both ways.
fn line_end_cases(rng: &mut Rng) -> Vec<Case> {
    let mut cases = Vec::new();
    for (line_end, records, refusal) in [(0, 7, 2), (2, 7, 2), (0, 121, 4), (2, 121, 4)] {
        let draft = Draft {
            line_end: LF,
            lines: file(rng, line_end, records).lines,
        };
        let record = if refusal == 4 { 1 } else { 0 };
        let name = format!("line-end-{line_end}-{records}-records");
        cases.push(case(&name, &draft, Claim::Refused(refusal, record)));
    }
    cases
}

fn valid_case(rng: &mut Rng) -> Case {
    let records = 2 + rng.index(40);
    let draft = file(rng, LF, records);
    case(&format!("valid-{records}-records"), &draft, Claim::Accepted)
}

/// Nothing for a damage of another line-end number or one that needs a larger file.
fn damaged_case(rng: &mut Rng, recipe: &Recipe) -> Option<Case> {
    const TRIES: usize = 100;
    for _ in 0..TRIES {
        let records = 2 + rng.index(24);
        let draft = file(rng, LF, records);
        let case = recipe.damage(rng, draft);
        if let Some(case) = case.filter(|case| case.line_end == LF) {
            return Some(case).filter(|case| case.bytes.len() < KEPT_BYTES);
        }
    }
    None
}
