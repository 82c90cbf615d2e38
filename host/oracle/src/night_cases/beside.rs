//! Files of which nothing is stored: ignored, empty, too large.

use super::months::next_month;
use super::names::ignored_name;
use super::plan::{Letter, Plan};
use crate::damage::giants;
use crate::rng::Rng;
use crate::series_cases::accounts::file;
use crate::valid::Draft;

pub fn add(rng: &mut Rng, plan: &mut Plan) {
    if rng.one_in(4) {
        plan.send_bytes(rng, Vec::new());
        plan.tries("empty-file");
    } else {
        ignored(rng, plan);
    }
}

/// A file with a name that is not taken: what is sent already, or the month after the last.
fn ignored(rng: &mut Rng, plan: &mut Plan) {
    let bytes = match plan.some_letter(rng) {
        Some(index) if rng.one_in(3) => plan.letters[index].bytes.clone(),
        _ => month_after(rng, plan),
    };
    let name = ignored_name(rng, &plan.used_names);
    plan.used_names.insert(name.clone());
    plan.letters.push(Letter {
        name,
        line_end: 0,
        statements: Vec::new(),
        bytes,
        story: None,
    });
    plan.tries("ignored-name");
}

/// A file of the month that follows the last one that is held of an account in the end.
fn month_after(rng: &mut Rng, plan: &Plan) -> Vec<u8> {
    let chain = &plan.chains[rng.index(plan.chains.len())];
    match chain.end.last() {
        Some(&last) => {
            let last = &chain.statements[last];
            let next = next_month(rng, &chain.key, last.new, last.new.day + 30, false);
            file(rng.below(3), &[&next])
        }
        None => Vec::new(),
    }
}

/// A file of more than 20,000 records.
pub fn add_too_many_records(rng: &mut Rng, plan: &mut Plan) {
    add_giant(rng, plan, "records-20001");
    plan.tries("too-many-records");
}

/// A file with a statement of 10,000 records.
pub fn add_long_statement(rng: &mut Rng, plan: &mut Plan) {
    add_giant(rng, plan, "10000th-is-07");
    plan.tries("statement-too-long");
}

fn add_giant(rng: &mut Rng, plan: &mut Plan, name: &str) {
    let draft = Draft {
        line_end: rng.below(3),
        lines: Vec::new(),
    };
    let list = giants();
    let giant = list.iter().find(|recipe| recipe.name == name);
    let case = giant.and_then(|recipe| recipe.damage(rng, draft));
    plan.send_bytes(rng, case.expect("a large file of that name").bytes);
}
