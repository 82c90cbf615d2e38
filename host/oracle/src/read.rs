//! The readers of one file. The check judges the whole file first; an accepted file is then read
//! from end to end, and each reader picks its answer by number. Nothing of the file is copied.
//!
//! Statements, movements and complements are numbered from 1.

use crate::check::{amount, check, date, number, zone, Answer, RECORD};

const NO_STATEMENT: u32 = 16;
const NO_MOVEMENT_OR_COMPLEMENT: u32 = 17;

/// Number and record of a refusal; nothing else is answered with it.
#[derive(Clone, Copy, Debug, PartialEq, Eq)]
pub struct Refusal {
    pub number: u32,
    pub record: u64,
}

/// Where a statement stands in the file: from the first byte of its 01 to the end of its 07, the
/// line end included. The file's first byte is byte 0.
#[derive(Clone, Copy, Debug, PartialEq, Eq)]
pub struct Place {
    pub first: usize,
    pub length: usize,
}

/// The account key.
#[derive(Clone, Copy, Debug, PartialEq, Eq)]
pub struct Key<'a> {
    pub bank: &'a [u8],
    pub branch: &'a [u8],
    pub currency: &'a [u8],
    pub decimals: u8,
    pub account: &'a [u8],
}

impl Key<'_> {
    /// The 25 bytes with which a journal's entry begins.
    pub fn bytes(&self) -> Vec<u8> {
        let decimals = [self.decimals];
        let zones = [
            self.bank,
            self.branch,
            self.currency,
            &decimals,
            self.account,
        ];
        zones.concat()
    }
}

/// The head of a statement. Dates are numbers YYYYMMDD here and below.
#[derive(Clone, Copy, Debug, PartialEq, Eq)]
pub struct Head<'a> {
    pub key: Key<'a>,
    pub old_date: u32,
    pub old_balance: i128,
    pub new_date: u32,
    pub new_balance: i128,
}

/// The fields of a movement: all zones of its 04 that are neither key nor reserved, and the
/// number of its complements.
#[derive(Clone, Copy, Debug, PartialEq, Eq)]
pub struct Row<'a> {
    pub internal: &'a [u8],
    pub code: &'a [u8],
    pub booked: u32,
    pub reject: &'a [u8],
    pub value: u32,
    pub label: &'a [u8],
    pub entry: u64,
    pub exempt: u8,
    pub unavailable: u8,
    pub amount: i128,
    pub reference: &'a [u8],
    pub complements: u64,
}

/// A movement with its complements, each the 73 bytes 46-118 of a 05.
#[derive(Clone, Debug, PartialEq, Eq)]
pub struct Movement<'a> {
    pub row: Row<'a>,
    pub complements: Vec<&'a [u8]>,
}

/// A statement with all its movements.
#[derive(Clone, Debug, PartialEq, Eq)]
pub struct Statement<'a> {
    pub place: Place,
    pub head: Head<'a>,
    pub movements: Vec<Movement<'a>>,
}

/// First byte and length of statement k.
pub fn place(line_end: u64, file: &[u8], k: u64) -> Result<Place, Refusal> {
    let statements = statements(line_end, file)?;
    let statement = numbered(&statements, k, NO_STATEMENT)?;
    Ok(statement.place)
}

/// The head of statement k and, beside it, the number of its movements.
pub fn head(line_end: u64, file: &[u8], k: u64) -> Result<(Head<'_>, u64), Refusal> {
    let statements = statements(line_end, file)?;
    let statement = numbered(&statements, k, NO_STATEMENT)?;
    Ok((statement.head, statement.movements.len() as u64))
}

/// The fields of movement m of statement k.
pub fn movement(line_end: u64, file: &[u8], k: u64, m: u64) -> Result<Row<'_>, Refusal> {
    let statements = statements(line_end, file)?;
    let statement = numbered(&statements, k, NO_STATEMENT)?;
    let movement = numbered(&statement.movements, m, NO_MOVEMENT_OR_COMPLEMENT)?;
    Ok(movement.row)
}

/// The 73 bytes of complement c of movement m of statement k.
pub fn complement(line_end: u64, file: &[u8], k: u64, m: u64, c: u64) -> Result<&[u8], Refusal> {
    let statements = statements(line_end, file)?;
    let statement = numbered(&statements, k, NO_STATEMENT)?;
    let movement = numbered(&statement.movements, m, NO_MOVEMENT_OR_COMPLEMENT)?;
    let complement = numbered(&movement.complements, c, NO_MOVEMENT_OR_COMPLEMENT)?;
    Ok(complement)
}

/// The earliest old balance date among the statements of the file, 0 where it has none.
pub fn earliest(line_end: u64, file: &[u8]) -> Result<u32, Refusal> {
    let statements = statements(line_end, file)?;
    let dates = statements.iter().map(|statement| statement.head.old_date);
    Ok(dates.min().unwrap_or(0))
}

/// All statements of an accepted file, or the file's refusal.
pub fn statements(line_end: u64, file: &[u8]) -> Result<Vec<Statement<'_>>, Refusal> {
    if let Answer::Refused { number, record } = check(line_end, file) {
        return Err(Refusal { number, record });
    }
    // The line-end numbers of accepted files are also the lengths of their line ends.
    let line_length = RECORD + line_end as usize;
    let lines: Vec<&[u8]> = file.chunks_exact(line_length).collect();
    let mut statements = Vec::new();
    let mut first = 0;
    for lines in lines.split_inclusive(|line| record_code(line) == b"07") {
        let length = lines.len() * line_length;
        statements.push(read_statement(Place { first, length }, lines));
        first += length;
    }
    Ok(statements)
}

/// The item of that number, or the refusal, which reports record 0.
fn numbered<T>(items: &[T], wanted: u64, refusal: u32) -> Result<&T, Refusal> {
    let mut numbered = (1..).zip(items);
    let found = numbered.find(|&(number, _)| number == wanted);
    found.map(|(_, item)| item).ok_or(Refusal {
        number: refusal,
        record: 0,
    })
}

/// A statement from its lines, 01 to 07.
fn read_statement<'a>(place: Place, lines: &[&'a [u8]]) -> Statement<'a> {
    let last = lines.len() - 1;
    // Each movement is a 04 with the 05 after it.
    let starts = (1..last).filter(|&at| record_code(lines[at]) != b"05");
    let end = |start: usize| {
        let later = (start + 1..last).find(|&at| record_code(lines[at]) != b"05");
        later.unwrap_or(last)
    };
    Statement {
        place,
        head: read_head(lines[0], lines[last]),
        movements: starts
            .map(|start| read_movement(&lines[start..end(start)]))
            .collect(),
    }
}

/// The head from the 01 and the 07.
fn read_head<'a>(old: &'a [u8], new: &'a [u8]) -> Head<'a> {
    Head {
        key: read_key(old),
        old_date: read_date(old, 35),
        old_balance: read_amount(old),
        new_date: read_date(new, 35),
        new_balance: read_amount(new),
    }
}

fn read_key(line: &[u8]) -> Key<'_> {
    Key {
        bank: zone(line, 3, 7),
        branch: zone(line, 12, 16),
        currency: zone(line, 17, 19),
        decimals: byte(line, 20),
        account: zone(line, 22, 32),
    }
}

/// A movement from its lines, the 04 first.
fn read_movement<'a>(lines: &[&'a [u8]]) -> Movement<'a> {
    let complements: Vec<&[u8]> = lines[1..].iter().map(|line| zone(line, 46, 118)).collect();
    Movement {
        row: read_row(lines[0], complements.len() as u64),
        complements,
    }
}

fn read_row(line: &[u8], complements: u64) -> Row<'_> {
    Row {
        internal: zone(line, 8, 11),
        code: zone(line, 33, 34),
        booked: read_date(line, 35),
        reject: zone(line, 41, 42),
        value: read_date(line, 43),
        label: zone(line, 49, 79),
        entry: number(zone(line, 82, 88)),
        exempt: byte(line, 89),
        unavailable: byte(line, 90),
        amount: read_amount(line),
        reference: zone(line, 105, 120),
        complements,
    }
}

fn record_code(line: &[u8]) -> &[u8] {
    zone(line, 1, 2)
}

fn byte(line: &[u8], position: usize) -> u8 {
    line[position - 1]
}

fn read_date(line: &[u8], position: usize) -> u32 {
    date(zone(line, position, position + 5)).expect("dates of an accepted file exist")
}

fn read_amount(line: &[u8]) -> i128 {
    amount(zone(line, 91, 104)).expect("amounts of an accepted file are right")
}
