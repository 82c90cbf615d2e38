//! The journal: opening, the sound test, the body of an entry, how much is used.
//!
//! The sound test goes the long way round: it reads the list of statements out of the table and
//! the body lines, lays that list out again and compares all bytes. What `lay_out` gives is the
//! one place that says how a journal looks. A statement is laid out as it is stored, so a body
//! with a debit zero, which the check accepts, is not what is laid out.

use crate::check::{number, zone, RECORD};
use crate::read::{statements, Place, Refusal};

/// Entries in the table of contents.
pub const ENTRIES: usize = 128;
/// Bytes of an entry.
pub const ENTRY: usize = 60;
/// Bytes of the table; the body lines stand after it.
pub const TABLE: usize = ENTRIES * ENTRY;
const MOST_LINES: usize = 100_000;

/// The two writings of a zero.
const CREDIT_ZERO: &[u8; 14] = b"0000000000000{";
const DEBIT_ZERO: &[u8; 14] = b"0000000000000}";

pub const NOT_SOUND: u32 = 21;
pub const NO_ENTRY: u32 = 25;

/// A statement as a journal holds it: its records as they are stored, and what they say.
#[derive(Clone, Debug, PartialEq, Eq)]
pub struct Held {
    pub records: Vec<u8>,
    /// Bank, branch, currency, decimals, account: 25 bytes as in an entry.
    pub key: Vec<u8>,
    pub old_date: u32,
    pub old_balance: i128,
    pub new_date: u32,
    pub new_balance: i128,
}

impl Held {
    /// Reads records without line ends, as a file or a journal has them. Nothing unless they are
    /// accepted as just one statement.
    pub fn read(records: &[u8]) -> Option<Held> {
        let statements = statements(0, records).ok()?;
        let head = match &statements[..] {
            [statement] => statement.head,
            _ => return None,
        };
        Some(Held {
            records: as_stored(records),
            key: key_bytes(records),
            old_date: head.old_date,
            old_balance: head.old_balance,
            new_date: head.new_date,
            new_balance: head.new_balance,
        })
    }

    /// Whether this one may come after the other: it begins with the balance that the other ends
    /// with, on the day that the other ends or later. A bank may close a month on its last working
    /// day and open the next one with its last day.
    pub fn follows(&self, last: &Held) -> bool {
        self.old_balance == last.new_balance && self.old_date >= last.new_date
    }

    /// The number of body lines it takes.
    pub fn lines(&self) -> usize {
        self.records.len() / RECORD
    }
}

/// The records as the writer would write them: in the amount of an 01, 04 or 07 a zero is a credit.
/// Other zones stay, whatever their bytes look like.
pub fn as_stored(records: &[u8]) -> Vec<u8> {
    let mut stored = records.to_vec();
    for record in stored.chunks_exact_mut(RECORD) {
        let has_amount = matches!(zone(record, 1, 2), b"01" | b"04" | b"07");
        if has_amount && zone(record, 91, 104) == DEBIT_ZERO {
            record[90..104].copy_from_slice(CREDIT_ZERO);
        }
    }
    stored
}

/// The key of an 01, in the order of an entry.
fn key_bytes(old: &[u8]) -> Vec<u8> {
    let zones = [
        zone(old, 3, 7),
        zone(old, 12, 16),
        zone(old, 17, 19),
        zone(old, 20, 20),
        zone(old, 22, 32),
    ];
    zones.concat()
}

/// Blanks any buffer of a right length.
pub fn open(journal: &mut [u8]) -> Result<(), Refusal> {
    body_lines(journal.len()).ok_or(refusal(NOT_SOUND))?;
    journal.fill(b' ');
    Ok(())
}

/// The number of body lines in a journal of that length, or nothing for a length that none has.
pub fn body_lines(length: usize) -> Option<usize> {
    let bodies = length.checked_sub(TABLE)?;
    let lines = bodies / RECORD;
    (bodies % RECORD == 0 && lines <= MOST_LINES).then_some(lines)
}

pub fn is_sound(journal: &[u8]) -> bool {
    held(journal).is_ok()
}

/// The list of statements that a sound journal holds, in the order of its entries; else 21.
pub fn held(journal: &[u8]) -> Result<Vec<Held>, Refusal> {
    let list = read_out(journal).ok_or(refusal(NOT_SOUND))?;
    let sound =
        lay_out(&list, journal.len()) == journal && all_different(&list) && all_chained(&list);
    if sound {
        Ok(list)
    } else {
        Err(refusal(NOT_SOUND))
    }
}

/// How much of a journal is used.
#[derive(Clone, Copy, Debug, PartialEq, Eq)]
pub struct Used {
    pub statements: usize,
    /// The body lines that they take.
    pub lines_taken: usize,
    /// The body lines in all.
    pub lines: usize,
}

/// How much of a sound journal is used; else 21.
pub fn used(journal: &[u8]) -> Result<Used, Refusal> {
    let list = held(journal)?;
    Ok(Used {
        statements: list.len(),
        lines_taken: list.iter().map(Held::lines).sum(),
        lines: (journal.len() - TABLE) / RECORD,
    })
}

/// Where the body of entry e stands, in bytes from the journal's first; entries count from 1.
pub fn entry(journal: &[u8], e: u64) -> Result<Place, Refusal> {
    let list = held(journal)?;
    let mut numbered = (1..).zip(places(&list));
    let found = numbered.find(|&(number, _)| number == e);
    found.map(|(_, place)| place).ok_or(refusal(NO_ENTRY))
}

/// The body of entry e.
pub fn body(journal: &[u8], e: u64) -> Result<&[u8], Refusal> {
    let place = entry(journal, e)?;
    Ok(&journal[place.first..place.first + place.length])
}

/// Where the bodies of a list stand: one after another from the first line.
pub fn places(list: &[Held]) -> Vec<Place> {
    let mut places = Vec::new();
    let mut first = TABLE;
    for statement in list {
        let length = statement.records.len();
        places.push(Place { first, length });
        first += length;
    }
    places
}

/// The journal of that length that holds the list. The list has room in it.
pub fn lay_out(list: &[Held], length: usize) -> Vec<u8> {
    let mut table = Vec::new();
    let mut bodies: Vec<u8> = Vec::new();
    for statement in list {
        let first_line = bodies.len() / RECORD;
        table.append(&mut entry_bytes(statement, first_line));
        bodies.extend(&statement.records);
    }
    table.resize(TABLE, b' ');
    let mut journal = [table, bodies].concat();
    journal.resize(length, b' ');
    journal
}

/// An entry: key and dates as they stand in the 01 and 07, then line and number of records.
fn entry_bytes(statement: &Held, first_line: usize) -> Vec<u8> {
    let records = &statement.records;
    let old = &records[..RECORD];
    let new = &records[records.len() - RECORD..];
    let place = format!("{first_line:06}{:04}{:13}", statement.lines(), "");
    [
        &key_bytes(old)[..],
        zone(old, 35, 40),
        zone(new, 35, 40),
        place.as_bytes(),
    ]
    .concat()
}

/// The statements that the entries up to the first blank one cut from the body lines, or nothing
/// where they cut no statements.
fn read_out(journal: &[u8]) -> Option<Vec<Held>> {
    body_lines(journal.len())?;
    let (table, mut rest) = journal.split_at(TABLE);
    let mut list = Vec::new();
    for entry in table.chunks_exact(ENTRY).take_while(|entry| !blank(entry)) {
        let length = RECORD * number_of_records(entry)?;
        if length > rest.len() {
            return None;
        }
        let (records, after) = rest.split_at(length);
        list.push(Held::read(records)?);
        rest = after;
    }
    Some(list)
}

/// The number of records that an entry tells, if it stands there in digits.
fn number_of_records(entry: &[u8]) -> Option<usize> {
    let digits = zone(entry, 44, 47);
    let right = digits.iter().all(u8::is_ascii_digit);
    right.then(|| number(digits) as usize)
}

/// Whether no two have identical records, as they are stored.
fn all_different(list: &[Held]) -> bool {
    list.iter().enumerate().all(|(index, statement)| {
        let earlier = &list[..index];
        earlier
            .iter()
            .all(|other| other.records != statement.records)
    })
}

/// Whether each follows the one before it of the same account, if there is one.
fn all_chained(list: &[Held]) -> bool {
    list.iter().enumerate().all(|(index, statement)| {
        let last = last_of(&list[..index], &statement.key);
        last.map_or(true, |last| statement.follows(last))
    })
}

/// The last statement of an account.
pub fn last_of<'a>(list: &'a [Held], key: &[u8]) -> Option<&'a Held> {
    list.iter().rev().find(|statement| statement.key == key)
}

fn blank(bytes: &[u8]) -> bool {
    bytes.iter().all(|&byte| byte == b' ')
}

/// A refusal of the journal itself reports record 0.
pub fn refusal(number: u32) -> Refusal {
    Refusal { number, record: 0 }
}
