//! The journal before the night, and how much room is left in it.

use super::ends::ends;
use super::never::add_beside_single_day;
use super::plan::{Chain, Known, Plan};
use super::NightCase;
use crate::cash_cases::statements::journal_of;
use crate::check::RECORD;
use crate::journal::ENTRIES;
use crate::night::Incoming;
use crate::record::line_end;
use crate::rng::Rng;
use crate::series_cases::accounts::Account;
use crate::valid::{Balance, Statement};

/// How the room of a night is.
#[derive(Clone, Copy, PartialEq, Eq)]
enum Room {
    Enough,
    FewEntries,
    FewLines,
}

/// Lays the journal out, with room for what comes or with too little.
pub fn end(rng: &mut Rng, mut plan: Plan) -> NightCase {
    let room = match rng.below(8) {
        0 => Room::FewEntries,
        1 => Room::FewLines,
        _ => Room::Enough,
    };
    see_ends(&mut plan);
    let coming = coming(&plan.chains);
    let room = if coming.is_empty() {
        Room::Enough
    } else {
        room
    };
    let background = background(rng, &mut plan, room, coming.len());
    if room != Room::Enough {
        add_held(rng, &mut plan, &background);
    }
    add_beside_single_day(rng, &mut plan, &background);
    let held = plan
        .chains
        .iter()
        .map(|chain| &chain.statements[..chain.held]);
    let rows: Vec<&[Statement]> = held.chain([&background[..]]).collect();
    let list = interleaved(rng, rows);
    let lines = lines_of(&coming);
    let spare = match room {
        Room::Enough | Room::FewEntries => lines + lines_that_wait(&plan) + rng.index(20),
        Room::FewLines => too_few(rng, lines),
    };
    finish(plan, room, journal_of(&list, spare), list.len())
}

/// How each account ends. What its story tells is what follows from the files, in any order.
fn see_ends(plan: &mut Plan) {
    let by_files = ends(&plan.chains, plan.letters.iter());
    let backwards = ends(&plan.chains, plan.letters.iter().rev());
    assert_eq!(by_files, backwards);
    for (chain, end) in plan.chains.iter_mut().zip(by_files) {
        assert!(chain.known != Known::ByStory || chain.end == end);
        chain.end = end;
    }
}

/// Less than what is needed, seldom nothing.
fn too_few(rng: &mut Rng, needed: usize) -> usize {
    rng.index(needed).max(rng.index(needed))
}

/// The statements that come and are not held.
fn coming(chains: &[Chain]) -> Vec<Statement> {
    let coming = chains.iter().flat_map(|chain| {
        let months = chain.end.iter().filter(move |&&month| month >= chain.held);
        months.map(move |&month| chain.statements[month].clone())
    });
    coming.collect()
}

fn lines_of(statements: &[Statement]) -> usize {
    statements.iter().map(|one| one.records.len()).sum()
}

/// As many lines as all files together have, but for the large ones, which are refused.
fn lines_that_wait(plan: &Plan) -> usize {
    let lines = plan
        .letters
        .iter()
        .map(|letter| letter.bytes.len() / RECORD);
    lines.filter(|&lines| lines < 9_999).sum()
}

/// Statements of another account, later than all that come: none, some, or so many that the table
/// has too few entries left. The last of several may be of a single day.
fn background(rng: &mut Rng, plan: &mut Plan, room: Room, coming: usize) -> Vec<Statement> {
    let held: usize = plan.chains.iter().map(|chain| chain.held).sum();
    let count = match room {
        Room::FewEntries => ENTRIES - held - too_few(rng, coming),
        Room::FewLines => 1 + rng.index(6),
        Room::Enough if plan.first_night || rng.one_in(2) => 0,
        Room::Enough => 1 + rng.index(12),
    };
    let mut account = Account::new(rng);
    account.last = Balance {
        day: plan.last_day + 1 + rng.below(40),
        value: account.last.value,
    };
    let mut statements = Vec::new();
    for number in 1..=count {
        let single_day = number > 1 && number == count && rng.one_in(2);
        statements.push(if single_day {
            account.empty_period(rng, &[])
        } else {
            account.next_quiet(rng)
        });
    }
    match room {
        Room::Enough => {}
        Room::FewEntries => plan.tries("entries-full"),
        Room::FewLines => plan.tries("lines-full"),
    }
    statements
}

/// A file of what is held already, which comes after all others.
fn add_held(rng: &mut Rng, plan: &mut Plan, background: &[Statement]) {
    let first = rng.index(background.len());
    let end = background.len().min(first + 1 + rng.index(3));
    plan.send(rng, background[first..end].to_vec(), None);
    plan.tries("held-though-full");
}

/// The statements of several accounts in one row, each account's in their order.
fn interleaved(rng: &mut Rng, mut rows: Vec<&[Statement]>) -> Vec<Statement> {
    let mut list = Vec::new();
    loop {
        rows.retain(|row| !row.is_empty());
        if rows.is_empty() {
            return list;
        }
        let place = rng.index(rows.len());
        if let Some((first, rest)) = rows[place].split_first() {
            list.push(first.clone());
            rows[place] = rest;
        }
    }
}

fn finish(plan: Plan, room: Room, journal: Vec<u8>, held: usize) -> NightCase {
    let heads: usize = plan.letters.iter().map(|letter| heads(&letter.bytes)).sum();
    let enough = room == Room::Enough && held + heads <= ENTRIES;
    let incoming = plan.letters.into_iter().map(|letter| Incoming {
        name: letter.name,
        bytes: letter.bytes,
    });
    NightCase {
        journal,
        incoming: incoming.collect(),
        tries: plan.tries,
        chains: plan.chains,
        enough,
    }
}

/// How many statements a file can have at most, as long as it is not refused for its size.
fn heads(bytes: &[u8]) -> usize {
    if bytes.len() >= 9_999 * RECORD {
        return 0;
    }
    let count = |number: u64| {
        let lines = bytes.chunks(RECORD + line_end(number).len());
        lines.filter(|line| line.starts_with(b"01")).count()
    };
    (0..3).map(count).max().unwrap_or(0)
}
