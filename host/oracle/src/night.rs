//! A night of an intake: which of the waiting files are taken, in which order they are delivered,
//! and what becomes of each.

use std::collections::{BTreeMap, BTreeSet};

use crate::check::RECORD;
use crate::delivery::{deliver, to_be_held, Delivered, NotDelivered};
use crate::journal::{held, last_of, Held};
use crate::read::Refusal;

/// Names with these ends belong to files that have not arrived whole.
const UNFINISHED: [&str; 4] = [".part", ".tmp", ".filepart", "~"];

/// A file that waits.
#[derive(Clone, Debug)]
pub struct Incoming {
    pub name: String,
    pub bytes: Vec<u8>,
}

/// What becomes of a file that is taken.
#[derive(Clone, Copy, Debug, PartialEq, Eq)]
pub enum Fate {
    Done(Delivered),
    /// Refused by the file's own fault, or with 22 where nothing of it can ever be stored.
    Refused(Refusal),
    /// It waits on, for what it has to follow or for room.
    Left(Refusal),
    /// It waits on, for an earlier statement in another file, and is not delivered.
    HeldBack,
}

/// An account that the night began: its key as in an entry, and its first old balance date.
#[derive(Clone, Debug, PartialEq, Eq)]
pub struct Begun {
    pub key: Vec<u8>,
    pub date: u32,
}

/// An account that skipped days in the night: its key as in an entry, the last new balance date, and
/// the old balance date with which it went on.
#[derive(Clone, Debug, PartialEq, Eq)]
pub struct Skipped {
    pub key: Vec<u8>,
    pub from: u32,
    pub to: u32,
}

/// How a night ends.
#[derive(Clone, Debug, PartialEq, Eq)]
pub struct Night {
    pub journal: Vec<u8>,
    /// By name, in the order of their bytes.
    pub fates: BTreeMap<String, Fate>,
    /// The names that are not taken.
    pub ignored: BTreeSet<String>,
    /// In order of first arrival.
    pub begun: Vec<Begun>,
    /// In the order in which they were stored.
    pub skipped: Vec<Skipped>,
    /// How many files each round got done.
    pub rounds: Vec<usize>,
}

/// A file that is taken, while it waits.
struct Waiting<'a> {
    name: &'a str,
    bytes: &'a [u8],
    line_end: u64,
    /// Its statements as the journal would hold them, in file order; none for a refused file.
    statements: Vec<Held>,
}

impl<'a> Waiting<'a> {
    fn new(file: &'a Incoming) -> Waiting<'a> {
        let line_end = found_line_end(&file.bytes);
        Waiting {
            name: &file.name,
            bytes: &file.bytes,
            line_end,
            statements: to_be_held(line_end, &file.bytes).unwrap_or_default(),
        }
    }

    /// Old and new balance date of its earliest statement, 0 where it has none.
    fn dates(&self) -> (u32, u32) {
        let statements = self.statements.iter();
        let dates = statements.map(|statement| (statement.old_date, statement.new_date));
        dates.min().unwrap_or((0, 0))
    }

    /// Whether nothing of it can ever be stored: each of its statements is held, or begins before the
    /// last one that is held of its account ends.
    fn comes_too_late(&self, list: &[Held]) -> bool {
        let is_passed = |statement: &Held| {
            let last = last_of(list, &statement.key);
            last.map_or(false, |last| statement.old_date < last.new_date)
        };
        let mut statements = self.statements.iter();
        statements.all(|statement| list.contains(statement) || is_passed(statement))
    }
}

/// Whether one statement has to be stored before another of the same account, lest it never be. The
/// account's last new date before the other is known, if there is one.
fn has_precedence(one: &Held, other: &Held, last: Option<u32>) -> bool {
    let is_earlier = (one.old_date, one.new_date) < (other.old_date, other.new_date);
    is_earlier
        && last.map_or(true, |last| {
            // What begins before the last new date is too early already. What begins on it skips no
            // days, and goes ahead.
            let may_be_stored = one.old_date >= last;
            let skips_days = other.old_date > last;
            may_be_stored && skips_days
        })
}

/// Delivers what waits to a sound journal, round after round while that gets a file done.
pub fn night(journal: &[u8], incoming: &[Incoming]) -> Night {
    let (taken, ignored): (Vec<&Incoming>, Vec<&Incoming>) =
        incoming.iter().partition(|file| is_taken(&file.name));
    let mut after = journal.to_vec();
    let mut fates = BTreeMap::new();
    let mut waiting: Vec<Waiting> = taken.into_iter().map(Waiting::new).collect();
    waiting.sort_by_key(|file| (file.dates(), file.name.as_bytes()));
    let mut rounds = Vec::new();
    while !waiting.is_empty() && rounds.last() != Some(&0) {
        rounds.push(round(&mut after, &mut waiting, &mut fates));
    }
    Night {
        begun: begun(journal, &after),
        skipped: skipped(journal, &after),
        journal: after,
        fates,
        ignored: ignored.iter().map(|file| file.name.clone()).collect(),
        rounds,
    }
}

/// Whether a file of that name has arrived whole.
pub fn is_taken(name: &str) -> bool {
    !name.starts_with('.') && !UNFINISHED.iter().any(|end| name.ends_with(end))
}

/// The line-end number by the byte after the first record; where no line end begins there, by the
/// length.
pub fn found_line_end(file: &[u8]) -> u64 {
    match file.get(RECORD) {
        Some(b'\n') => 1,
        Some(b'\r') => 2,
        _ => {
            let divides = |line_end: &u64| file.len() % (RECORD + *line_end as usize) == 0;
            (0..3).find(divides).unwrap_or(0)
        }
    }
}

/// Looks at each file that waits, in order, and keeps those that wait on. Gives how many are done.
fn round(
    journal: &mut [u8],
    waiting: &mut Vec<Waiting>,
    fates: &mut BTreeMap<String, Fate>,
) -> usize {
    let mut done = 0;
    let mut place = 0;
    while place < waiting.len() {
        let file = &waiting[place];
        let fate = if is_held_back(waiting, place, journal) {
            Fate::HeldBack
        } else {
            delivered(journal, file)
        };
        fates.insert(file.name.to_string(), fate);
        match fate {
            Fate::Left(_) | Fate::HeldBack => place += 1,
            Fate::Done(_) | Fate::Refused(_) => {
                done += usize::from(matches!(fate, Fate::Done(_)));
                waiting.remove(place);
            }
        }
    }
    done
}

/// Whether a statement of the file at that place has to wait for one in another file.
fn is_held_back(waiting: &[Waiting], place: usize, journal: &[u8]) -> bool {
    let list = held_by(journal);
    let mut latest = BTreeMap::new();
    for statement in &list {
        note(&mut latest, &statement.key, statement.new_date);
    }
    let mut there: Vec<&Held> = list.iter().collect();
    for statement in &waiting[place].statements {
        let last = latest.get(&statement.key[..]).copied();
        let others = (0..waiting.len()).filter(|&other| other != place);
        // What is held, or stands before it in its file, is no reason to wait.
        let mut of_account = others
            .flat_map(|other| &waiting[other].statements)
            .filter(|other| other.key == statement.key && !there.contains(other));
        if of_account.any(|other| has_precedence(other, statement, last)) {
            return true;
        }
        note(&mut latest, &statement.key, statement.new_date);
        there.push(statement);
    }
    false
}

/// Keeps the latest date of each account.
fn note<'a>(latest: &mut BTreeMap<&'a [u8], u32>, key: &'a [u8], date: u32) {
    let kept = latest.entry(key).or_insert(date);
    *kept = date.max(*kept);
}

/// What becomes of a file that is delivered. With 22 it waits on as long as something of it may still
/// be stored.
fn delivered(journal: &mut [u8], file: &Waiting) -> Fate {
    match deliver(journal, file.line_end, file.bytes) {
        Ok(delivered) => Fate::Done(delivered),
        Err(NotDelivered { refusal, .. }) => match refusal.number {
            1..=15 => Fate::Refused(refusal),
            22 if file.comes_too_late(&held_by(journal)) => Fate::Refused(refusal),
            22..=24 => Fate::Left(refusal),
            number => panic!("the journal of a night is refused with {number}"),
        },
    }
}

/// What the journal of a night holds.
fn held_by(journal: &[u8]) -> Vec<Held> {
    held(journal).expect("the journal of a night is sound")
}

/// The accounts that the second journal holds and the first does not.
fn begun(before: &[u8], after: &[u8]) -> Vec<Begun> {
    let mut known: BTreeSet<Vec<u8>> = held_by(before).into_iter().map(|held| held.key).collect();
    let mut begun = Vec::new();
    for held in held_by(after) {
        if known.insert(held.key.clone()) {
            begun.push(Begun {
                key: held.key,
                date: held.old_date,
            });
        }
    }
    begun
}

/// What the second journal holds more than the first, and what begins on a later day than the last
/// of its account ended.
fn skipped(before: &[u8], after: &[u8]) -> Vec<Skipped> {
    let (first, all) = (held_by(before).len(), held_by(after));
    let mut skipped = Vec::new();
    for (index, new) in all.iter().enumerate().skip(first) {
        if let Some(last) = last_of(&all[..index], &new.key) {
            if last.new_date < new.old_date {
                skipped.push(Skipped {
                    key: new.key.clone(),
                    from: last.new_date,
                    to: new.old_date,
                });
            }
        }
    }
    skipped
}
