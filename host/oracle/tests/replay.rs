//! The files for the replay, read back by this test's own code.

mod redelivered;
mod replays;
mod runs;

use std::collections::BTreeSet;

use oracle::case_file::Cases;
use oracle::check::{check, records_in, Answer};
use oracle::contents::listed;
use oracle::damage::Case;
use oracle::journal::{entry, open, used};
use oracle::read::Refusal;
use oracle::recorded::{fnv, Series};
use oracle::replay::{
    add_check, add_length, add_series, replay_checks, replay_series, CHECKS, SERIES,
};
use oracle::rng::Rng;
use oracle::series::{operations, Operation};
use oracle::series_cases::{series_case, KINDS};
use redelivered::{deliver_again, refused, Numbers};
use replays::{same_by_command, Reader};
use runs::{mistaken, path};

const TABLE: usize = 7_680;

fn checked(line_end: u64, file: &[u8]) -> Numbers {
    match check(line_end, file) {
        Answer::Accepted {
            statements,
            movements,
            complements,
        } => [0, 0, 0, statements, movements, complements],
        Answer::Refused { number, record } => refused(Refusal { number, record }),
    }
}

fn of_length(line_end: u64, length: u64) -> Numbers {
    match records_in(line_end, length) {
        Ok(records) => [0, 0, 0, records, 0, 0],
        Err(number) => refused(Refusal { number, record: 0 }),
    }
}

#[test]
fn checks_by_hand_are_read_back() {
    let path = path("by-hand.checks");
    let mut cases = Cases::create(&path, CHECKS, 9, 3).unwrap();
    add_length(&mut cases, 1, 242).unwrap();
    for (name, line_end, bytes) in [("empty", 2, &b""[..]), ("far-out", u64::MAX, b"0\xFF")] {
        let case = Case {
            name: name.to_string(),
            line_end,
            bytes: bytes.to_vec(),
            expected: None,
        };
        add_check(&mut cases, &case).unwrap();
    }
    let tally = cases.finish().unwrap();
    assert_eq!(tally.0.into_iter().collect::<Vec<_>>(), [(0, 2), (1, 1)]);
    let expected = [
        &b"CHCHECKS\x09\0\0\0\0\0\0\0\x03\0\0\0\0\0\0\0"[..],
        b"\x15\0\0\0length-242-line-end-1R\x01\0\0\0\0\0\0\0\xF2\0\0\0\0\0\0\0",
        b"\0\0\0\0\0\0\0\0\0\x02\0\0\0\0\0\0\0\0\0\0\0",
        b"\x05\0\0\0emptyC\x02\0\0\0\0\0\0\0\0\0\0\0",
        b"\0\0\0\0\0\0\0\0\0\0\0\0\0\0\0\0\0\0\0\0\0",
        b"\0\0\0\0\0\0\0\0\0\0\0\0\0\0\0\0\0\0\0\0\0",
        b"\0\0\0\0\0\0\0\0\0\0\0\0\0\0\0\0\0\0\0\0\0",
        b"\x07\0\0\0far-outC\xFF\xFF\xFF\xFF\xFF\xFF\xFF\xFF\x02\0\0\x000\xFF",
        b"\x01\x01\0\0\0\0\0\0\0\0\0\0\0\0\0\0\0\0\0\0\0",
        b"\x01\x01\0\0\0\0\0\0\0\0\0\0\0\0\0\0\0\0\0\0\0",
        b"\x01\x01\0\0\0\0\0\0\0\0\0\0\0\0\0\0\0\0\0\0\0",
    ];
    assert!(std::fs::read(&path).unwrap() == expected.concat());
}

#[test]
fn hostile_checks_get_the_answer_they_expect() {
    for case in oracle::hostile::checks(&mut Rng::new(7)) {
        let answer = check(case.line_end, &case.bytes);
        assert_eq!(case.expected.unwrap_or(answer), answer, "{}", case.name);
    }
}

/// The old balance dates of an accepted file as YYYYMMDD, from its lines that begin with 01.
fn old_dates(line_end: u64, file: &[u8]) -> Vec<u64> {
    let lines = file.chunks(120 + line_end as usize);
    let number = |digits: &[u8]| String::from_utf8_lossy(digits).parse::<u64>().unwrap();
    let date = |line: &[u8]| {
        let yy = number(&line[38..40]);
        let century = if yy < 80 { 2000 } else { 1900 };
        10_000 * (century + yy) + 100 * number(&line[36..38]) + number(&line[34..36])
    };
    lines
        .filter(|line| line.starts_with(b"01"))
        .map(date)
        .collect()
}

/// What is answered for the earliest old balance date of a file, after the check's answer.
fn earliest_of(checked: Numbers, line_end: u64, file: &[u8]) -> Numbers {
    match checked {
        [0, ..] => {
            let dates = old_dates(line_end, file);
            [0, 0, 0, dates.into_iter().min().unwrap_or(0), 0, 0]
        }
        refused => refused,
    }
}

/// Where the earliest date of an accepted file stands among several: first, between, last.
fn place_of_earliest(dates: &[u64]) -> Option<&'static str> {
    let least = dates.iter().min()?;
    let place = dates.iter().position(|date| date == least)?;
    match (dates.len(), place) {
        (0..=2, _) => None,
        (_, 0) => Some("first"),
        (count, place) if place == count - 1 => Some("last"),
        _ => Some("between"),
    }
}

/// Every refusal of the check occurs, and the answers are the check's, those to the length and the
/// earliest old balance date, which stands anywhere among several.
#[test]
fn checks_are_read_back() {
    let path = path("generated.checks");
    let line = replay_checks(3, 2_000, &path).unwrap();
    assert!(line.starts_with("checks: seed 3, 1903 fixed, 2000 generated: answered "));
    let file = std::fs::read(&path).unwrap();
    let mut reader = Reader(&file);
    let (mut refusals, mut places) = (BTreeSet::new(), BTreeSet::new());
    for _ in 0..reader.cases(CHECKS, 3) {
        assert!(!reader.bytes().is_empty());
        let (letter, line_end) = (reader.number(1) as u8, reader.number(8));
        if letter == b'R' {
            let length = reader.number(8);
            assert_eq!(reader.answer(), of_length(line_end, length));
            continue;
        }
        assert_eq!(letter, b'C');
        let file = reader.bytes();
        let answer = reader.answer();
        assert_eq!(answer, checked(line_end, file));
        assert_eq!(reader.answer(), of_length(line_end, file.len() as u64));
        assert_eq!(reader.answer(), earliest_of(answer, line_end, file));
        refusals.insert(answer[1]);
        if answer[0] == 0 {
            places.extend(place_of_earliest(&old_dates(line_end, file)));
        }
    }
    assert!(reader.0.is_empty());
    assert_eq!(refusals, (0..=15).collect());
    assert_eq!(places, ["between", "first", "last"].into());
}

/// Questions for entries, each with the length of its row, that are all refused with 25.
fn no_such_entries(questions: &[(u64, u64)]) -> Vec<u8> {
    let mut bytes = Vec::new();
    for (entry, row) in questions {
        bytes.push(b'L');
        bytes.extend(entry.to_le_bytes());
        bytes.extend(row.to_le_bytes());
        bytes.extend(b"\x01\x19\0\0\0\0\0\0\0\0\0\0\0\0\0\0\0\0\0\0\0");
        bytes.extend(b"\0\0\0\0");
    }
    bytes
}

/// A journal of that length, changed, asked, opened, and a file that is none.
fn series_by_hand(length: usize) -> Series {
    let mut series = Series::new("hand");
    series.perform(Operation::Journal { length });
    series.poke(7, b"ab");
    series.perform(Operation::Poke {
        offset: 9,
        byte: b'c',
    });
    series.perform(Operation::Sound);
    series.perform(Operation::Poke {
        offset: u64::MAX,
        byte: 0,
    });
    series.perform(Operation::Entry { number: 1 });
    series.perform(Operation::Open);
    series.perform(Operation::Newest {
        line_end: 1,
        key: b"",
        file: b"",
    });
    let file = b"x";
    series.perform(Operation::Deliver { line_end: 2, file });
    series.end()
}

/// A journal of two lines: pokes that touch are one, the sound test and the newest are left out.
/// Questions are put in after the entry and after the opening; the delivery changes nothing. A
/// table of dots looks full, with bodies far out.
#[test]
fn a_series_by_hand_is_read_back() {
    let path = path("by-hand.series");
    let length = TABLE + 240;
    let mut cases = Cases::create(&path, SERIES, 10, 1).unwrap();
    add_series(&mut cases, &series_by_hand(length)).unwrap();
    cases.finish().unwrap();
    let mut dots = vec![b'.'; length];
    dots[7..10].copy_from_slice(b"abc");
    let most = u64::MAX;
    let expected = [
        &b"CHSERIES\x0A\0\0\0\0\0\0\0\x01\0\0\0\0\0\0\0"[..],
        b"\x04\0\0\0hand\x1B\0\0\0",
        b"J\xF0\x1E\0\0\0\0\0\0",
        b"P\x07\0\0\0\0\0\0\0\x03\0\0\0abc",
        b"P\xFF\xFF\xFF\xFF\xFF\xFF\xFF\xFF\x01\0\0\0\0",
        b"E\x01\0\0\0\0\0\0\0",
        b"\x01\x15\0\0\0\0\0\0\0\0\0\0\0\0\0\0\0\0\0\0\0",
        &fnv(&dots).to_le_bytes(),
        &no_such_entries(&[(0, 41), (1, 41), (5, 41), (128, 41), (129, 41), (most, 41)]),
        &no_such_entries(&[(128, 0), (128, 40), (128, 60), (129, 40)]),
        b"U\x01\x15\0\0\0\0\0\0\0\0\0\0\0\0\0\0\0\0\0\0\0",
        &fnv(&dots).to_le_bytes(),
        b"O\0\0\0\0\0\0\0\0\0\0\0\0\0\0\0\0\0\0\0\0\0",
        &fnv(&vec![b' '; length]).to_le_bytes(),
        &no_such_entries(&[(0, 41), (1, 41), (128, 41), (129, 41), (most, 41)]),
        &no_such_entries(&[(0, 0), (0, 40), (0, 60), (1, 40)]),
        b"U\0\0\0\0\0\0\0\0\0\0\0\0\0\0\0\0\0\x02\0\0\0",
        &fnv(&vec![b' '; length]).to_le_bytes(),
        b"D\x02\0\0\0\0\0\0\0\x01\0\0\0x",
        b"\x01\x02\0\0\0\0\0\0\0\0\0\0\0\0\0\0\0\0\0\0\0",
        b"\0\0\0\0\0\0\0\0\0\0\0\0\0\0\0\0",
        &fnv(&vec![b' '; length]).to_le_bytes(),
    ];
    assert!(std::fs::read(&path).unwrap() == expected.concat());
}

/// An entry of no records is listed, in a journal that is not sound and has no lines.
#[test]
fn a_row_by_hand_is_read_back() {
    let path = path("by-hand-row.series");
    let entry = b"1234500010EUR20001234567A3101992902250000000000";
    let mut series = Series::new("row");
    series.perform(Operation::Journal { length: TABLE });
    series.poke(60, entry);
    series.listed(2, 42);
    series.listed(2, 40);
    series.used();
    let mut cases = Cases::create(&path, SERIES, 11, 1).unwrap();
    add_series(&mut cases, &series.end()).unwrap();
    cases.finish().unwrap();
    let mut journal = vec![b'.'; TABLE];
    journal[60..107].copy_from_slice(entry);
    let expected = [
        &b"CHSERIES\x0B\0\0\0\0\0\0\0\x01\0\0\0\0\0\0\0"[..],
        b"\x03\0\0\0row\x05\0\0\0",
        b"J\x00\x1E\0\0\0\0\0\0",
        b"P\x3C\0\0\0\0\0\0\0\x2F\0\0\0",
        entry,
        b"L\x02\0\0\0\0\0\0\0\x2A\0\0\0\0\0\0\0",
        b"\0\0\0\0\0\0\0\0\0\0\0\0\0\0\0\0\0\0\0\0\0",
        b"\x29\0\0\x001234500010EUR20001234567A1999013100000000",
        b"L\x02\0\0\0\0\0\0\0\x28\0\0\0\0\0\0\0",
        b"\x01\x14\0\0\0\0\0\0\0\0\0\0\0\0\0\0\0\0\0\0\0",
        b"\0\0\0\0",
        b"U\x01\x15\0\0\0\0\0\0\0\0\0\0\0\0\0\0\0\0\0\0\0",
        &fnv(&journal).to_le_bytes(),
    ];
    assert!(std::fs::read(&path).unwrap() == expected.concat());
}

/// A statement of two records from one date to another, with one balance.
fn quiet(dates: [&str; 2], balance: &str) -> Vec<u8> {
    let record = |code, date| {
        let key = "12345    00010EUR2 0001234567A  ";
        format!("{code}{key}{date}{:50}{balance}{:16}", "", "")
    };
    let records = [record("01", dates[0]), record("07", dates[1])];
    records.concat().into_bytes()
}

/// What is expected stands between answer and hash, a debit in two's complement; in a delivery that
/// is accepted both are 0. 2025-02-28 is 0x0134FE74 as a number, -120833 is 2^64 - 0x1D801.
#[test]
fn what_was_expected_is_read_back() {
    let path = path("by-hand-expected.series");
    let first = quiet(["310125", "280225"], "0000000012083L");
    let second = quiet(["280225", "310325"], "0000000012083C");
    let length = TABLE + 480;
    let mut series = Series::new("expected");
    series.perform(Operation::Journal { length });
    series.perform(Operation::Open);
    for file in [&first, &second] {
        series.perform(Operation::Deliver { line_end: 0, file });
    }
    let mut cases = Cases::create(&path, SERIES, 12, 1).unwrap();
    add_series(&mut cases, &series.end()).unwrap();
    cases.finish().unwrap();
    let mut journal = vec![b' '; length];
    journal[..47].copy_from_slice(b"1234500010EUR20001234567A3101252802250000000002");
    journal[TABLE..TABLE + 240].copy_from_slice(&first);
    let hash = fnv(&journal).to_le_bytes();
    let accepted = [
        &b"D\0\0\0\0\0\0\0\0\xF0\0\0\0"[..],
        &first,
        b"\0\0\0\0\0\0\0\0\0\x01\0\0\0\0\0\0\0\0\0\0\0",
        b"\0\0\0\0\0\0\0\0\0\0\0\0\0\0\0\0",
        &hash,
    ];
    let refused = [
        &b"D\0\0\0\0\0\0\0\0\xF0\0\0\0"[..],
        &second,
        b"\x01\x16\0\0\0\x01\0\0\0\0\0\0\0\0\0\0\0\0\0\0\0",
        b"\x74\xFE\x34\x01\0\0\0\0\xFF\x27\xFE\xFF\xFF\xFF\xFF\xFF",
        &hash,
    ];
    let file = std::fs::read(&path).unwrap();
    assert!(contains(&file, &accepted.concat()));
    assert!(file.ends_with(&refused.concat()));
}

fn contains(bytes: &[u8], part: &[u8]) -> bool {
    bytes.windows(part.len()).any(|window| window == part)
}

/// An operation as it was put in: letter, number, bytes.
type Put = (u8, u64, Vec<u8>);

/// Reads a series and runs it: the answers and the journals are the same.
fn rerun(reader: &mut Reader, refusals: &mut BTreeSet<u64>) -> Vec<Put> {
    let mut journal: Vec<u8> = Vec::new();
    let mut put = Vec::new();
    for _ in 0..reader.number(4) {
        let letter = reader.number(1) as u8;
        let a = match letter {
            b'O' | b'U' => 0,
            _ => reader.number(8),
        };
        let bytes = match letter {
            b'P' | b'D' => reader.bytes(),
            _ => b"",
        };
        if letter == b'L' {
            refusals.insert(list_again(reader, &journal, a));
        } else if letter == b'D' {
            let (answer, ..) = deliver_again(reader, &mut journal, a, bytes);
            refusals.insert(answer[1]);
        } else if let Some(answer) = rerun_one(&mut journal, letter, a, bytes) {
            assert_eq!(reader.answer(), answer);
            assert_eq!(reader.number(8), fnv(&journal));
            refusals.insert(answer[1]);
        }
        match letter {
            b'P' => put.extend((a..).zip(bytes).map(|(a, &byte)| (b'P', a, vec![byte]))),
            _ => put.push((letter, a, bytes.to_vec())),
        }
    }
    put
}

/// Lists an entry: the answer and the row are the same. Gives the refusal or 0.
fn list_again(reader: &mut Reader, journal: &[u8], entry: u64) -> u64 {
    let mut row = vec![b'#'; reader.number(8) as usize];
    let answer = listed(journal, entry, &mut row).map(|found| {
        let (records, first_line) = (found.records as u64, found.first_line as u64);
        [0, 0, 0, records, first_line, 0]
    });
    let put = if answer.is_ok() { &row[..41] } else { b"" };
    let answer = answer.unwrap_or_else(refused);
    assert_eq!(reader.answer(), answer);
    assert_eq!(reader.bytes(), put);
    answer[1]
}

/// The answer of another operation on the whole journal that has one.
fn rerun_one(journal: &mut Vec<u8>, letter: u8, a: u64, bytes: &[u8]) -> Option<Numbers> {
    let answer = match letter {
        b'J' => {
            *journal = vec![b'.'; a as usize];
            return None;
        }
        b'P' => {
            let places = journal.iter_mut().skip(a as usize);
            places.zip(bytes).for_each(|(place, &byte)| *place = byte);
            return None;
        }
        b'O' => open(journal).map(|()| [0; 6]),
        b'E' => entry(journal, a).map(|place| {
            let line = (place.first - TABLE) / 120;
            [0, 0, 0, place.length as u64 / 120, line as u64, 0]
        }),
        b'U' => used(journal).map(|used| {
            let numbers = [used.statements, used.lines_taken, used.lines];
            let [a, b, c] = numbers.map(|number| number as u64);
            [0, 0, 0, a, b, c]
        }),
        _ => panic!("unknown letter {letter}"),
    };
    Some(answer.unwrap_or_else(refused))
}

/// The exported operations of a series in its text form.
fn exported(text: &[u8]) -> Vec<Put> {
    let put = |operation: Operation| match operation {
        Operation::Journal { length } => Some((b'J', length as u64, Vec::new())),
        Operation::Open => Some((b'O', 0, Vec::new())),
        Operation::Entry { number } => Some((b'E', number, Vec::new())),
        Operation::Poke { offset, byte } => Some((b'P', offset, vec![byte])),
        Operation::Deliver { line_end, file } => Some((b'D', line_end, file.to_vec())),
        Operation::Sound | Operation::Newest { .. } => None,
    };
    operations(text)
        .unwrap()
        .into_iter()
        .filter_map(put)
        .collect()
}

/// Each kind once: what was put in comes out. Every refusal of a journal occurs, and the lengths,
/// line ends and entries that a hostile caller may try are there.
#[test]
fn series_are_read_back() {
    let path = path("generated.series");
    let generated = KINDS.len() as u64;
    replay_series(4, generated, &path).unwrap();
    let file = std::fs::read(&path).unwrap();
    let mut reader = Reader(&file);
    let cases = reader.cases(SERIES, 4);
    let mut refusals = BTreeSet::new();
    let mut tried = BTreeSet::new();
    for number in 0..cases {
        let name = reader.bytes();
        let mut put = rerun(&mut reader, &mut refusals);
        tried.extend(put.iter().map(|&(letter, a, _)| (letter, a)));
        put.retain(|(letter, ..)| !b"LU".contains(letter));
        if let Some(index) = (number + generated).checked_sub(cases) {
            let case = series_case(4, index as usize);
            assert_eq!(name, case.name.as_bytes());
            assert!(put == exported(&case.bytes), "{}", case.name);
        }
    }
    assert!(reader.0.is_empty());
    assert_eq!(refusals, (0..=15).chain(20..=25).collect());
    for length in [0, 1, 7_560, 7_679, 7_680, 7_681, 12_007_680, 12_007_800] {
        assert!(tried.contains(&(b'J', length)), "{length}");
    }
    for number in [3, 255, 256, 1 << 32, 1 << 63, u64::MAX] {
        assert!(tried.contains(&(b'D', number)), "{number}");
        assert!(tried.contains(&(b'E', number)), "{number}");
        assert!(tried.contains(&(b'L', number)), "{number}");
    }
}

/// The published values of this hash.
#[test]
fn known_hashes() {
    assert_eq!(fnv(b""), 0xCBF2_9CE4_8422_2325);
    assert_eq!(fnv(b"a"), 0xAF63_DC4C_8601_EC8C);
    assert_eq!(fnv(b"foobar"), 0x8594_4171_F739_67E8);
}

/// The commands write the same files, and mistakes in the call end with 2.
#[test]
fn replay_commands() {
    same_by_command("replay-checks", replay_checks);
    mistaken(&[
        &["replay-checks", "1", "10"],
        &["replay-series", "1", "x", "no such file"],
        &["replay-series", "1", "0", "no such directory/file"],
    ]);
}
