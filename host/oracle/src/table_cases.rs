//! Cases for the lent table and the writer, with their answers, in one binary file for a program
//! that is linked with the two exported functions and compares.
//!
//! Numbers stand low byte first. README.md has the format.

mod calls;
mod changes;
mod damages;
mod edges;
mod readings;
mod sweeps;
mod worked;

pub use calls::{statement_bytes, Call, TableCase};
pub use damages::{damages, hostile_values, Damage};
pub use edges::{edges, Edge};
pub use readings::fixed_readings;
pub use sweeps::sweeps;
pub use worked::{with_complements, worked};

use std::io;
use std::path::Path;

use crate::case_file::{put_bytes, Cases};
use crate::check::RECORD;
use crate::damage::{recipes, Recipe};
use crate::hostile;
use crate::journal::as_stored;
use crate::read::{statements, Refusal};
use crate::rng::Rng;
use crate::valid::few_records;
use crate::values::{Head, Key, Row, Values};
use crate::write::damaged_from;
use crate::writer::{movements, write_statement};
use calls::reading;

/// The first bytes of the file.
pub const TABLES: &[u8; 8] = b"CHTABLES";

/// Writes the fixed cases and so many generated ones. Gives a line that says what they are.
pub fn replay_tables(seed: u64, count: u64, path: &Path) -> io::Result<String> {
    let mut rng = Rng::new(seed);
    let fixed = fixed(&mut rng);
    let total = fixed.len() as u64 + count;
    let mut cases = Cases::create(path, TABLES, seed, total)?;
    for case in &fixed {
        add(&mut cases, case)?;
    }
    let (recipes, damages) = (recipes(), damages());
    for number in 0..count {
        add(&mut cases, &generated(&mut rng, &recipes, &damages, number))?;
    }
    let tally = cases.finish()?;
    Ok(format!(
        "tables: seed {seed}, {} fixed, {count} generated: {}",
        fixed.len(),
        tally.words()
    ))
}

fn add(cases: &mut Cases, case: &TableCase) -> io::Result<()> {
    let (body, number) = body(&case.call);
    cases.add(&case.name, &body, &[number])
}

/// The edges, the sweeps through all zones, and the readings.
fn fixed(rng: &mut Rng) -> Vec<TableCase> {
    let edges = edges().into_iter().map(|edge| TableCase {
        name: edge.name,
        call: Call::Write {
            values: edge.values,
            bytes: edge.bytes,
        },
    });
    let mut cases: Vec<TableCase> = edges.collect();
    for (name, values) in sweeps() {
        let bytes = statement_bytes(&values);
        let call = Call::Write { values, bytes };
        cases.push(TableCase { name, call });
    }
    cases.append(&mut fixed_readings(rng));
    cases
}

/// Of ten, four read, five write, one does both. Of five that write, three have right values.
pub fn generated(rng: &mut Rng, recipes: &[Recipe], damages: &[Damage], number: u64) -> TableCase {
    match number % 10 {
        0..=2 => valid_reading(rng),
        3 => other_reading(rng, recipes),
        4..=6 => writing(rng, "valid".to_string(), some_values),
        7 | 8 if rng.one_in(8) => writing(rng, "hostile-values".to_string(), hostile_values),
        7 => damaged_writing(rng, damages, 1),
        8 => damaged_writing(rng, damages, 2),
        _ => trip(rng),
    }
}

/// A valid file; the statement and the length of the table are mostly right.
fn valid_reading(rng: &mut Rng) -> TableCase {
    let draft = few_records(rng);
    let (line_end, file) = (draft.line_end, draft.bytes());
    let counts: Vec<usize> = statements(line_end, &file)
        .map(|list| list.iter().map(|one| one.movements.len()).collect())
        .expect("a valid file");
    let last = counts.len() as u64;
    let k = match rng.below(10) {
        0 => rng.pick(&[0, last + 1, u64::MAX]),
        1 => rng.pick(&hostile::FAR_OUT),
        _ => 1 + rng.below(last.max(1)),
    };
    let wanted = counts.get((k as usize).wrapping_sub(1)).copied();
    let rows = some_rows(rng, wanted.unwrap_or(2));
    reading("valid".to_string(), line_end, file, k, rows)
}

/// None, one short, more or exactly so many.
fn some_rows(rng: &mut Rng, wanted: usize) -> usize {
    match rng.below(10) {
        0 => 0,
        1 => wanted.saturating_sub(1),
        2..=4 => wanted + 1 + rng.index(4),
        _ => wanted,
    }
}

/// A damaged file or random bytes.
fn other_reading(rng: &mut Rng, recipes: &[Recipe]) -> TableCase {
    let case = match rng.below(8) {
        0 => hostile::random_file(rng),
        _ => damaged_from(rng, recipes, few_records),
    };
    let k = rng.pick(&[1, 1, 1, 2, 0, u64::MAX]);
    let rows = rng.index(6);
    reading(case.name, case.line_end, case.bytes, k, rows)
}

/// The values of one of the statements of a valid file.
pub fn some_values(rng: &mut Rng) -> Values {
    loop {
        let draft = few_records(rng);
        let file = draft.bytes();
        let list = statements(draft.line_end, &file).expect("a valid file");
        if !list.is_empty() {
            return Values::of(&list[rng.index(list.len())]);
        }
    }
}

fn writing(rng: &mut Rng, name: String, values: fn(&mut Rng) -> Values) -> TableCase {
    let values = values(rng);
    let bytes = some_bytes(rng, statement_bytes(&values));
    let call = Call::Write { values, bytes };
    TableCase { name, call }
}

/// None, one short, fewer, more or exactly so many.
fn some_bytes(rng: &mut Rng, wanted: usize) -> usize {
    match rng.below(16) {
        0 => 0,
        1 => wanted - 1,
        2 => rng.index(wanted),
        3..=6 => wanted + 1 + rng.index(300),
        _ => wanted,
    }
}

/// Right values, damaged so many times. The name says by what.
fn damaged_writing(rng: &mut Rng, damages: &[Damage], times: usize) -> TableCase {
    let mut values = some_values(rng);
    let mut names = Vec::new();
    while names.len() < times {
        let damage = &damages[rng.index(damages.len())];
        if (damage.apply)(rng, &mut values).is_some() {
            names.push(damage.name);
        } else if rng.one_in(4) {
            // Other values may have a place for the damages.
            (values, names) = (some_values(rng), Vec::new());
        }
    }
    let bytes = some_bytes(rng, statement_bytes(&values));
    let call = Call::Write { values, bytes };
    TableCase {
        name: names.join("+"),
        call,
    }
}

fn trip(rng: &mut Rng) -> TableCase {
    loop {
        let draft = few_records(rng);
        let (line_end, file) = (draft.line_end, draft.bytes());
        let list = statements(line_end, &file).expect("a valid file");
        let last = list.len() as u64;
        if last > 0 {
            let k = 1 + rng.below(last);
            let name = "valid".to_string();
            let call = Call::Trip { line_end, file, k };
            return TableCase { name, call };
        }
    }
}

/// A case without its name, and the refusal that it expects or 0.
pub fn body(call: &Call) -> (Vec<u8>, u32) {
    let mut out = Vec::new();
    let number = match call {
        Call::Read {
            line_end,
            file,
            k,
            rows,
        } => {
            out.push(b'R');
            put_reading(&mut out, (*line_end, file, *k), *rows)
        }
        Call::Write { values, bytes } => {
            out.push(b'W');
            put_writing(&mut out, values, *bytes)
        }
        Call::Trip { line_end, file, k } => {
            out.push(b'T');
            put_trip(&mut out, *line_end, file, *k);
            0
        }
    };
    (out, number)
}

/// Line end, file, k, rows, answer, the rows filled.
fn put_reading(out: &mut Vec<u8>, (line_end, file, k): (u64, &[u8], u64), rows: usize) -> u32 {
    let mut table = vec![worked().rows[0]; rows];
    let answer = movements(line_end, file, k, &mut table);
    out.extend(line_end.to_le_bytes());
    put_bytes(out, file);
    out.extend(k.to_le_bytes());
    out.extend((rows as u64).to_le_bytes());
    let number = put_answer(out, answer);
    for row in &table[..answer.unwrap_or(0) as usize] {
        put_row(out, row);
    }
    number
}

/// Head, rows, complements, bytes lent, answer, the bytes written.
fn put_writing(out: &mut Vec<u8>, values: &Values, bytes: usize) -> u32 {
    let Values {
        head,
        rows,
        complements,
    } = values;
    let mut lent = vec![0; bytes];
    let answer = write_statement(head, rows, complements, &mut lent);
    put_head(out, head);
    put_count(out, rows.len());
    for row in rows {
        put_row(out, row);
    }
    put_bytes(out, complements);
    out.extend((bytes as u64).to_le_bytes());
    let number = put_answer(out, answer);
    put_bytes(out, &lent[..answer.unwrap_or(0) as usize]);
    number
}

/// Line end, file, k, number of rows, head, complements, the records that are written.
fn put_trip(out: &mut Vec<u8>, line_end: u64, file: &[u8], k: u64) {
    let list = statements(line_end, file).expect("a valid file");
    let statement = &list[k as usize - 1];
    let values = Values::of(statement);
    let lines = &file[statement.place.first..][..statement.place.length];
    let records = lines.chunks_exact(RECORD + line_end as usize);
    let records: Vec<&[u8]> = records.map(|line| &line[..RECORD]).collect();
    out.extend(line_end.to_le_bytes());
    put_bytes(out, file);
    out.extend(k.to_le_bytes());
    put_count(out, values.rows.len());
    put_head(out, &values.head);
    put_bytes(out, &values.complements);
    put_bytes(out, &as_stored(&records.concat()));
}

/// Refusal, record and the number answered. Gives the refusal.
fn put_answer(out: &mut Vec<u8>, answer: Result<u64, Refusal>) -> u32 {
    let (refusal, value) = match answer {
        Ok(value) => (
            Refusal {
                number: 0,
                record: 0,
            },
            value,
        ),
        Err(refusal) => (refusal, 0),
    };
    for number in [u64::from(refusal.number), refusal.record, value] {
        out.extend(number.to_le_bytes());
    }
    refusal.number
}

fn put_count(out: &mut Vec<u8>, count: usize) {
    let count = u32::try_from(count).expect("fewer rows than 2^32");
    out.extend(count.to_le_bytes());
}

fn put_head(out: &mut Vec<u8>, head: &Head) {
    let Key {
        bank,
        branch,
        currency,
        decimals,
        account,
    } = &head.key;
    for zone in [&bank[..], branch, currency, &[*decimals], account] {
        out.extend(zone);
    }
    out.extend(head.old_date.to_le_bytes());
    out.extend(head.old_balance.to_le_bytes());
    out.extend(head.new_date.to_le_bytes());
    out.extend(head.new_balance.to_le_bytes());
}

/// The fields one after another, with nothing between.
fn put_row(out: &mut Vec<u8>, row: &Row) {
    out.extend(row.internal);
    out.extend(row.code);
    out.extend(row.booked.to_le_bytes());
    out.extend(row.reject);
    out.extend(row.value.to_le_bytes());
    out.extend(row.label);
    out.extend(row.entry.to_le_bytes());
    out.extend([row.exempt, row.unavailable]);
    out.extend(row.amount.to_le_bytes());
    out.extend(row.reference);
    out.extend(row.complements.to_le_bytes());
}
