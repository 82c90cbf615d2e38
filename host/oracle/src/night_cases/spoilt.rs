//! Files that were cut on their way, and damaged ones.

use super::months::{Habits, Months};
use super::plan::{Known, Letter, Plan};
use crate::check::{check, Answer};
use crate::damage::{pick, Case, Recipe};
use crate::night::found_line_end;
use crate::record::{line_end, RECORD};
use crate::rng::Rng;
use crate::valid::{key, Draft, Statement};

/// A damage is tried on so many files at most.
const TRIES: usize = 400;
/// What a small file can be refused with, where no line end is named.
const REFUSALS: [u32; 12] = [2, 4, 5, 6, 7, 8, 9, 10, 11, 12, 13, 14];

/// A file of the night, cut. Mostly the whole one comes as well.
pub fn add_cut(rng: &mut Rng, plan: &mut Plan) {
    let index = match plan.some_letter(rng) {
        Some(index) => index,
        None => return,
    };
    let letter = plan.letters[index].clone();
    send_cut(rng, plan, &letter);
    if rng.one_in(4) {
        plan.tries("cut-alone");
        plan.letters.remove(index);
        plan.know_less(letter.story, Known::ByFiles);
    } else {
        plan.tries("cut-and-whole");
    }
}

/// The first part of a file. Where the cut goes through a statement it is refused.
fn send_cut(rng: &mut Rng, plan: &mut Plan, letter: &Letter) {
    let line = RECORD + letter.line_end as usize;
    let records = letter.bytes.len() / line;
    let between = letter.statements.len() > 1;
    let (what, length) = match rng.below(4) {
        0 | 1 if between => {
            let statements = 1 + rng.index(letter.statements.len() - 1);
            let first = letter.statements[..statements].to_vec();
            plan.send_with(rng, letter.line_end, first, None);
            plan.know_less(letter.story, Known::ByFiles);
            return plan.tries("cut-between-statements");
        }
        0 | 2 => (
            "cut-between-records",
            line * cut_record(rng, letter, records),
        ),
        _ => (
            "cut-inside-a-record",
            line * rng.index(records) + 1 + rng.index(line - 1),
        ),
    };
    plan.send_bytes(rng, letter.bytes[..length].to_vec());
    plan.tries(what);
}

/// A number of records after which a statement is open.
fn cut_record(rng: &mut Rng, letter: &Letter, records: usize) -> usize {
    let line = letter.bytes.len() / records;
    loop {
        let count = 1 + rng.index(records - 1);
        if !letter.bytes[line * (count - 1)..].starts_with(b"07") {
            return count;
        }
    }
}

/// A damaged file: one of the night, or one of an account that nothing else is known of.
pub fn add_damaged(rng: &mut Rng, plan: &mut Plan, list: &[Recipe]) {
    match plan.some_letter(rng) {
        Some(index) if rng.one_in(5) => {
            let letter = plan.letters[index].clone();
            let draft = draft_of(letter.line_end, &letter.statements);
            let damaged = (0..TRIES).find_map(|_| pick(rng, list).damage(rng, draft.clone()));
            if let Some(case) = damaged {
                send_damaged_month(rng, plan, case.bytes, letter.story);
            }
        }
        _ if rng.one_in(10) => {
            let bytes = wrong_line_end(rng);
            plan.send_bytes(rng, bytes);
            plan.tries("wrong-line-end");
        }
        _ => {
            if let Some(case) = strange_case(rng, list) {
                plan.send_bytes(rng, case.bytes);
                plan.tries("damaged");
            }
        }
    }
}

/// A damaged file of the night beside the whole one. Some are accepted all the same, with statements
/// that nothing is known of.
fn send_damaged_month(rng: &mut Rng, plan: &mut Plan, bytes: Vec<u8>, story: Option<usize>) {
    match check(found_line_end(&bytes), &bytes) {
        Answer::Refused { .. } => plan.tries("damaged-month"),
        Answer::Accepted { .. } => {
            plan.know_less(story, Known::Not);
            plan.tries("changed-month");
        }
    }
    plan.send_bytes(rng, bytes);
}

/// A damaged file of some account. Half of them are of a number that comes in turn with the others,
/// as far as the damages say one.
fn strange_case(rng: &mut Rng, list: &[Recipe]) -> Option<Case> {
    let wanted = rng.pick(&REFUSALS);
    let any = rng.one_in(2);
    (0..TRIES).find_map(|_| {
        let draft = strange_draft(rng);
        let case = pick(rng, list).damage(rng, draft)?;
        let said = match case.expected {
            Some(Answer::Refused { number, .. }) => number,
            _ => 0,
        };
        Some(case).filter(|_| any || said == wanted)
    })
}

/// A file with one wrong byte in the place of a line end's, seldom in the first.
fn wrong_line_end(rng: &mut Rng) -> Vec<u8> {
    let number = 1 + rng.below(2);
    let mut draft = draft_of(number, &strange_months(rng));
    let line = rng.index(draft.lines.len());
    let place = RECORD + rng.index(number as usize);
    draft.lines[line][place] = rng.pick(b" 0X\t\x00\xFF");
    draft.bytes()
}

/// One to three months of some account.
fn strange_months(rng: &mut Rng) -> Vec<Statement> {
    let key = key(rng);
    let months = 1 + rng.index(3);
    let habits = Habits::some(rng);
    Months::new(rng).statements(rng, &key, 0..months, habits)
}

fn strange_draft(rng: &mut Rng) -> Draft {
    let line_end = rng.below(3);
    draft_of(line_end, &strange_months(rng))
}

fn draft_of(number: u64, statements: &[Statement]) -> Draft {
    let records = statements.iter().flat_map(|one| &one.records);
    Draft {
        line_end: number,
        lines: records
            .map(|record| [&record[..], line_end(number)].concat())
            .collect(),
    }
}
