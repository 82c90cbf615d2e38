//! Hostile journals for the exported functions: lengths that none has, random bytes, contents that
//! speak of lines that are not there, entries and line ends far out.

use crate::check::RECORD;
use crate::contents::ROW;
use crate::delivery::deliver;
use crate::hostile::{random_bytes, FAR_OUT};
use crate::hostile_entries;
use crate::journal::{ENTRIES, ENTRY, TABLE};
use crate::recorded::Series;
use crate::rng::Rng;
use crate::series::Operation;
use crate::valid::one_statement;

/// The fixed hostile series.
pub fn series(rng: &mut Rng) -> Vec<Series> {
    let mut list = Vec::new();
    add_journal_lengths(rng, &mut list);
    list.push(numbers_far_out(rng));
    for lines in 0..4 {
        add_random_journals(rng, &mut list, lines);
    }
    add_strange_contents(rng, &mut list);
    add_cut_journals(rng, &mut list);
    add_strange_entries(rng, &mut list);
    list
}

/// Every length around the shortest journals, some short ones, and those around the longest.
fn add_journal_lengths(rng: &mut Rng, list: &mut Vec<Series>) {
    let short = [0, 1, 59, 60, 61, 119, 120, 121, 240, 3_840, 7_440];
    let long = [
        12_007_560, 12_007_679, 12_007_680, 12_007_681, 12_007_740, 12_007_800, 16_777_216,
    ];
    for length in short.into_iter().chain(7_559..=8_041).chain(long) {
        let file = one_statement(rng, 1, 2).bytes();
        let mut series = Series::new(format!("hostile-journal-length-{length}"));
        series.perform(Operation::Journal { length });
        every_call(&mut series, &file);
        series.perform(Operation::Open);
        every_call(&mut series, &file);
        list.push(series.end());
    }
}

/// Deliveries of a file with LF and of none, and entries.
fn every_call(series: &mut Series, file: &[u8]) {
    series.perform(Operation::Entry { number: 1 });
    series.perform(Operation::Deliver { line_end: 1, file });
    series.perform(Operation::Deliver {
        line_end: 2,
        file: b"",
    });
    series.perform(Operation::Entry { number: 1 });
}

/// Line ends and entries that there are not, on a sound journal and on an unsound one.
fn numbers_far_out(rng: &mut Rng) -> Series {
    let file = one_statement(rng, 1, 5).bytes();
    let mut series = Series::new("hostile-numbers");
    let length = TABLE + 5 * RECORD;
    series.perform(Operation::Journal { length });
    series.perform(Operation::Open);
    series.perform(Operation::Deliver {
        line_end: 1,
        file: &file,
    });
    for byte in b" ." {
        series.poke(TABLE as u64 - 1, &[*byte]);
        for number in FAR_OUT {
            series.listed(number, ROW);
            series.perform(Operation::Entry { number });
            for file in [&file[..], b"", &file[..1]] {
                let line_end = number;
                series.perform(Operation::Deliver { line_end, file });
            }
        }
        series.perform(Operation::Entry { number: 1 });
    }
    series.end()
}

/// Random bytes for a whole journal, for its contents or for its lines; one byte throughout.
fn add_random_journals(rng: &mut Rng, list: &mut Vec<Series>, lines: usize) {
    let length = TABLE + RECORD * lines;
    let file = one_statement(rng, 1, 2).bytes();
    let mut contents = random_bytes(rng, TABLE);
    contents.resize(length, b' ');
    let mut bodies = random_bytes(rng, length);
    bodies[..TABLE].fill(b' ');
    let journals = [
        ("all", random_bytes(rng, length)),
        ("contents", contents),
        ("lines", bodies),
        ("nul", vec![0; length]),
        ("ff", vec![0xFF; length]),
        ("zeros", vec![b'0'; length]),
        ("nines", vec![b'9'; length]),
    ];
    for (what, bytes) in journals {
        let name = format!("hostile-journal-of-{what}-{lines}");
        list.push(given_journal(name, &bytes, &file));
    }
}

/// A journal of these bytes, asked, opened, asked.
fn given_journal(name: String, journal: &[u8], file: &[u8]) -> Series {
    let mut series = Series::new(name);
    let length = journal.len();
    series.perform(Operation::Journal { length });
    series.poke(0, journal);
    every_call(&mut series, file);
    series.perform(Operation::Open);
    every_call(&mut series, file);
    series.end()
}

/// Contents that speak of lines far behind the last, in one entry or in all; the lines are right.
fn add_strange_contents(rng: &mut Rng, list: &mut Vec<Series>) {
    let (held, file) = filled_journal(rng);
    for place in ["0000009999", "9999990001", "9999999999", "0000000000"] {
        for entries in [1, 2, ENTRIES] {
            let mut journal = held.clone();
            let first = held[..ENTRY].to_vec();
            for entry in journal[..TABLE].chunks_exact_mut(ENTRY).take(entries) {
                entry.copy_from_slice(&first);
                entry[37..47].copy_from_slice(place.as_bytes());
            }
            let name = format!("hostile-contents-{place}-{entries}");
            list.push(given_journal(name, &journal, &file));
        }
    }
}

/// A filled journal with its last lines cut off, one by one, and with a line more than it had;
/// each also without its last byte.
fn add_cut_journals(rng: &mut Rng, list: &mut Vec<Series>) {
    let (mut journal, file) = filled_journal(rng);
    journal.extend([b' '; RECORD]);
    while journal.len() >= TABLE {
        for length in [journal.len(), journal.len() - 1] {
            let name = format!("hostile-journal-cut-to-{length}");
            list.push(given_journal(name, &journal[..length], &file));
        }
        journal.truncate(journal.len() - RECORD);
    }
}

/// Tables that no delivery writes, in journals of few lines and in the longest. Each entry is
/// listed.
fn add_strange_entries(rng: &mut Rng, list: &mut Vec<Series>) {
    for table in hostile_entries::years(rng) {
        list.push(given_table("hostile-years", &table, 1));
    }
    for lines in [0, 1, 2, 9, 100, 12_345, 100_000] {
        let name = format!("hostile-entries-{lines}");
        let tables = if lines > 1_000 { 1 } else { 4 };
        for _ in 0..tables {
            let table = hostile_entries::strange(rng, lines);
            list.push(given_table(&name, &table, lines as usize));
        }
    }
}

/// A journal with this table and so many lines, asked for each entry, right and one byte too long.
fn given_table(name: &str, table: &[u8], lines: usize) -> Series {
    let mut series = Series::new(name);
    for more in 0..2 {
        let length = TABLE + RECORD * lines + more;
        series.perform(Operation::Journal { length });
        series.poke(0, table);
        for number in 1..=ENTRIES as u64 {
            let row = ROW + number as usize % 3;
            series.listed(number, row);
        }
        series.used();
    }
    series.end()
}

/// A journal with two statements and no line to spare, and the file they came in.
fn filled_journal(rng: &mut Rng) -> (Vec<u8>, Vec<u8>) {
    let mut file = one_statement(rng, 1, 4).bytes();
    file.extend(one_statement(rng, 1, 3).bytes());
    let mut journal = vec![b' '; TABLE + 7 * RECORD];
    deliver(&mut journal, 1, &file).expect("two accounts and room for both");
    (journal, file)
}
