//! Delivery of a file to a journal, and the newest statement of an account.
//!
//! Both judge the file's statements in turn, each on the list as the earlier ones would leave it.
//! Delivery then lays the new list out; the newest statement is only looked up.

use crate::check::RECORD;
use crate::journal::{body_lines, held, last_of, lay_out, places, Held, ENTRIES};
use crate::read::{statements, Place, Refusal, Statement};

const DOES_NOT_FOLLOW: u32 = 22;
pub const TABLE_FULL: u32 = 23;
pub const TOO_FEW_LINES: u32 = 24;
const NO_STATEMENT: u32 = 25;

/// How many statements of the file were stored and how many were held already.
#[derive(Clone, Copy, Debug, PartialEq, Eq)]
pub struct Delivered {
    pub stored: u64,
    pub held: u64,
}

/// What a statement that does not follow had to begin with: the new date and the new balance of the
/// last of its account. Both are 0 where that is not what was wrong; no date is 0.
#[derive(Clone, Copy, Debug, Default, PartialEq, Eq)]
pub struct Expected {
    pub date: u32,
    pub balance: i128,
}

impl Expected {
    /// What is expected behind this one.
    fn behind(last: &Held) -> Expected {
        Expected {
            date: last.new_date,
            balance: last.new_balance,
        }
    }
}

/// Why a file was not delivered, and what was expected of it.
#[derive(Clone, Copy, Debug, PartialEq, Eq)]
pub struct NotDelivered {
    pub refusal: Refusal,
    pub expected: Expected,
}

impl From<Refusal> for NotDelivered {
    /// A refusal with which nothing was expected.
    fn from(refusal: Refusal) -> NotDelivered {
        NotDelivered {
            refusal,
            expected: Expected::default(),
        }
    }
}

/// Which of the two holds the newest statement.
#[derive(Clone, Copy, Debug, PartialEq, Eq)]
pub enum Source {
    Journal,
    File,
}

/// Where the newest statement of an account stands, and the line-end number to read it with.
#[derive(Clone, Copy, Debug, PartialEq, Eq)]
pub struct Newest {
    pub source: Source,
    pub place: Place,
    pub line_end: u64,
}

/// A journal's list and a file's statements, judged one by one.
struct Judged {
    /// What the journal held before the file.
    before: Vec<Held>,
    /// What it would hold after it.
    after: Vec<Held>,
    /// Where the statements to be stored stand in the file, with their keys, in file order.
    stored: Vec<(Place, Vec<u8>)>,
    /// How many statements of the file are held already.
    held: u64,
}

/// Stores the statements of a file that are not held yet. A refusal changes nothing.
pub fn deliver(journal: &mut [u8], line_end: u64, file: &[u8]) -> Result<Delivered, NotDelivered> {
    let judged = judge(journal, line_end, file)?;
    journal.copy_from_slice(&lay_out(&judged.after, journal.len()));
    Ok(Delivered {
        stored: judged.stored.len() as u64,
        held: judged.held,
    })
}

/// The newest statement of an account: the last one that delivery now would store, else the last
/// held. The journal stays as it is. What was expected is not said here.
pub fn newest(journal: &[u8], line_end: u64, file: &[u8], key: &[u8]) -> Result<Newest, Refusal> {
    let judged = judge(journal, line_end, file).map_err(|not_delivered| not_delivered.refusal)?;
    in_file(&judged, line_end, key)
        .or_else(|| in_journal(&judged, key))
        .ok_or(Refusal {
            number: NO_STATEMENT,
            record: 0,
        })
}

/// The last statement of the account that would be stored. It has the file's line ends.
fn in_file(judged: &Judged, line_end: u64, key: &[u8]) -> Option<Newest> {
    let mut backwards = judged.stored.iter().rev();
    let (place, _) = backwards.find(|(_, stored_key)| stored_key == key)?;
    Some(Newest {
        source: Source::File,
        place: *place,
        line_end,
    })
}

/// The last statement of the account that was held before. A body has no line ends.
fn in_journal(judged: &Judged, key: &[u8]) -> Option<Newest> {
    let places = places(&judged.before);
    let mut backwards = judged.before.iter().zip(places).rev();
    let (_, place) = backwards.find(|(statement, _)| statement.key == key)?;
    Some(Newest {
        source: Source::Journal,
        place,
        line_end: 0,
    })
}

/// 21 first, then the file's refusals, then its statements in turn.
fn judge(journal: &[u8], line_end: u64, file: &[u8]) -> Result<Judged, NotDelivered> {
    let before = held(journal)?;
    let lines = body_lines(journal.len()).unwrap_or(0);
    let mut judged = Judged {
        after: before.clone(),
        before,
        stored: Vec::new(),
        held: 0,
    };
    // The line-end numbers of accepted files are also the lengths of their line ends.
    let statements = statements(line_end, file)?;
    let line_length = RECORD + line_end as usize;
    for statement in &statements {
        let new = one_to_be_held(statement, file, line_length);
        if is_held(&judged.after, &new) {
            judged.held += 1;
            continue;
        }
        let record = (statement.place.first / line_length) as u64 + 1;
        may_be_stored(&judged.after, &new, lines).map_err(|(number, expected)| NotDelivered {
            refusal: Refusal { number, record },
            expected,
        })?;
        judged.stored.push((statement.place, new.key.clone()));
        judged.after.push(new);
    }
    Ok(judged)
}

/// The statements of a file as the journal would hold them, or the check's refusal.
pub fn to_be_held(line_end: u64, file: &[u8]) -> Result<Vec<Held>, Refusal> {
    let statements = statements(line_end, file)?;
    let line_length = RECORD + line_end as usize;
    let held = statements
        .iter()
        .map(|statement| one_to_be_held(statement, file, line_length));
    Ok(held.collect())
}

/// A statement of an accepted file as the journal would hold it, without line ends.
fn one_to_be_held(statement: &Statement, file: &[u8], line_length: usize) -> Held {
    let place = statement.place;
    let part = &file[place.first..place.first + place.length];
    let records: Vec<&[u8]> = part
        .chunks_exact(line_length)
        .map(|line| &line[..RECORD])
        .collect();
    Held::read(&records.concat()).expect("a statement of an accepted file is accepted alone")
}

/// Whether one of the list has identical records, as they are stored.
fn is_held(list: &[Held], new: &Held) -> bool {
    list.iter().any(|held| held.records == new.records)
}

/// 22 with what was expected, then 23, then 24, for a statement that is not held.
fn may_be_stored(list: &[Held], new: &Held, lines: usize) -> Result<(), (u32, Expected)> {
    match last_of(list, &new.key) {
        Some(last) if !new.follows(last) => return Err((DOES_NOT_FOLLOW, Expected::behind(last))),
        _ => {}
    }
    let nothing = Expected::default();
    if list.len() == ENTRIES {
        return Err((TABLE_FULL, nothing));
    }
    let used: usize = list.iter().map(Held::lines).sum();
    if used + new.lines() > lines {
        return Err((TOO_FEW_LINES, nothing));
    }
    Ok(())
}
