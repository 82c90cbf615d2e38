//! What an entry says, read where it stands. Nothing is asked of the journal but its length: of one
//! that is not sound it is said what stands there.

use crate::check::{date, zone};
use crate::journal::{body_lines, refusal, ENTRIES, ENTRY, NOT_SOUND, NO_ENTRY};
use crate::read::Refusal;

/// Bytes of a row: the key (25) and the two dates (8 each).
pub const ROW: usize = 41;

const OUTPUT_TOO_SHORT: u32 = 20;

/// Where an entry says that its body stands.
#[derive(Clone, Copy, Debug, PartialEq, Eq)]
pub struct Listed {
    pub records: usize,
    pub first_line: usize,
}

/// Where the body of entry e stands, and its key and dates in the first bytes of the row; entries
/// count from 1. A refusal leaves the row as it was.
pub fn listed(journal: &[u8], e: u64, row: &mut [u8]) -> Result<Listed, Refusal> {
    let lines = body_lines(journal.len()).ok_or(refusal(NOT_SOUND))?;
    let entry = used_entry(journal, e).ok_or(refusal(NO_ENTRY))?;
    let listed = Listed {
        records: weighed(zone(entry, 44, 47)),
        first_line: weighed(zone(entry, 38, 43)),
    };
    if listed.first_line + listed.records > lines {
        return Err(refusal(NO_ENTRY));
    }
    let row = row.get_mut(..ROW).ok_or(refusal(OUTPUT_TOO_SHORT))?;
    row.copy_from_slice(&row_of(entry));
    Ok(listed)
}

/// The bytes of entry e, if its first digit of the number of records is not blank.
fn used_entry(journal: &[u8], e: u64) -> Option<&[u8]> {
    let entries = journal.chunks_exact(ENTRY).take(ENTRIES);
    let (_, entry) = (1..).zip(entries).find(|&(number, _)| number == e)?;
    (zone(entry, 44, 44) != b" ").then_some(entry)
}

/// The key as it stands, and both dates.
fn row_of(entry: &[u8]) -> Vec<u8> {
    let old_date = written_out(zone(entry, 26, 31));
    let new_date = written_out(zone(entry, 32, 37));
    [zone(entry, 1, 25), &old_date, &new_date].concat()
}

/// A date as YYYYMMDD; zeros where it is none.
fn written_out(ddmmyy: &[u8]) -> Vec<u8> {
    let digits = ddmmyy.iter().all(u8::is_ascii_digit);
    let date = if digits { date(ddmmyy) } else { None };
    format!("{:08}", date.unwrap_or(0)).into_bytes()
}

/// A number in decimal places. A byte that is no digit counts by its low four bits, as a digit does.
fn weighed(bytes: &[u8]) -> usize {
    let step = |value: usize, &byte: &u8| 10 * value + usize::from(byte % 16);
    bytes.iter().fold(0, step)
}
