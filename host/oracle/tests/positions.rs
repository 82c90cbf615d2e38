//! The balance in value on generated journals against a second formulation: for each day the sum
//! of all movements, read by this test's own code. The file for the replay is read back.

mod asked;
mod replays;
mod runs;

use std::collections::{BTreeMap, BTreeSet};

use asked::{asked, UNTOUCHED};
use oracle::cash::{balance, day, position};
use oracle::cash_cases::{big_account, replay_positions, some_book, Question, POSITIONS};
use oracle::journal::is_sound;
use oracle::read::Refusal;
use oracle::record::{date_number, read_amount, read_date, DAYS};
use oracle::rng::Rng;
use replays::{same_by_command, Reader};
use runs::{mistaken, oracle, path};

const TABLE: usize = 7_680;

/// The records of the statements of an account, in the order of a sound journal's entries.
fn statements<'a>(journal: &'a [u8], key: &[u8]) -> Vec<Vec<&'a [u8]>> {
    let number = |digits: &[u8]| -> usize { String::from_utf8_lossy(digits).parse().unwrap() };
    let used = journal[..TABLE].chunks(60).filter(|entry| entry[0] != b' ');
    let own = used.filter(|entry| &entry[..25] == key);
    own.map(|entry| {
        let lines = journal[TABLE..].chunks(120).skip(number(&entry[37..43]));
        lines.take(number(&entry[43..47])).collect()
    })
    .collect()
}

fn amount_in(record: &[u8]) -> i128 {
    i128::from(read_amount(&record[90..104]).unwrap())
}

/// The value date of a 04, in days from 1980-01-01.
fn valued(record: &[u8]) -> u64 {
    read_date(&record[42..48]).unwrap()
}

fn movements<'a>(statements: &[Vec<&'a [u8]>]) -> Vec<&'a [u8]> {
    let records = statements.iter().flatten().copied();
    records.filter(|record| record.starts_with(b"04")).collect()
}

/// All days from 1980 to 2079 as numbers YYYYMMDD.
fn calendar() -> Vec<u64> {
    (0..DAYS).map(date_number).collect()
}

/// The first and the last day, in days from 1980-01-01, if that is a span.
fn span(calendar: &[u64], first: u64, last: u64) -> Option<(u64, u64)> {
    let first = calendar.binary_search(&first).ok()?;
    let last = calendar.binary_search(&last).ok()?;
    let right = first <= last && last - first < 400;
    right.then_some((first as u64, last as u64))
}

/// The amounts, each a sum over all movements of its own, or the refusal.
fn by_sums(
    journal: &[u8],
    key: &[u8],
    span: Option<(u64, u64)>,
    rows: usize,
) -> Result<Vec<i64>, u32> {
    if !is_sound(journal) {
        return Err(21);
    }
    let (first, last) = span.ok_or(27u32)?;
    let statements = statements(journal, key);
    let old = amount_in(statements.first().ok_or(25u32)?[0]);
    if (rows as u64) < last - first + 1 {
        return Err(18);
    }
    let movements = movements(&statements);
    let until = |day: u64| {
        let counted = movements.iter().filter(|record| valued(record) <= day);
        let sum: i128 = counted.map(|record| amount_in(record)).sum();
        i64::try_from(old + sum).unwrap()
    };
    Ok((first..=last).map(until).collect())
}

/// The answer and the table that such amounts, or such a refusal, ask for.
fn expected(sums: Result<Vec<i64>, u32>, rows: usize) -> (Result<u64, Refusal>, Vec<i64>) {
    let answer = match &sums {
        Ok(amounts) => Ok(amounts.len() as u64),
        Err(number) => Err(Refusal {
            number: *number,
            record: 0,
        }),
    };
    let mut table = sums.unwrap_or_default();
    table.resize(rows, UNTOUCHED);
    (answer, table)
}

#[test]
fn positions_are_sums_over_all_movements() {
    let mut rng = Rng::new(61);
    let calendar = calendar();
    let mut answers: BTreeMap<u32, u64> = BTreeMap::new();
    for _ in 0..300 {
        let book = some_book(&mut rng);
        for case in &book.cases {
            if let Question::Position {
                key,
                first,
                last,
                rows,
            } = &case.question
            {
                let span = span(&calendar, *first, *last);
                let sums = by_sums(&book.journal, key, span, *rows);
                let number = sums.as_ref().err().copied().unwrap_or(0);
                let came = asked(&book.journal, key, (*first, *last), *rows);
                assert_eq!(came, expected(sums, *rows));
                *answers.entry(number).or_default() += 1;
            }
        }
    }
    let numbers: Vec<u32> = answers.keys().copied().collect();
    assert_eq!(numbers, [0, 18, 21, 25, 27]);
    assert!(answers.values().all(|&count| count > 300), "{answers:?}");
}

/// On the last value date of an account and ever after, the amount is its last new balance; a day
/// before its first value date it is its first old balance.
#[test]
fn positions_begin_and_end_with_the_balances() {
    let mut rng = Rng::new(62);
    let mut accounts = 0;
    for _ in 0..300 {
        let journal = some_book(&mut rng).journal;
        if !is_sound(&journal) {
            continue;
        }
        let entries = journal[..TABLE].chunks(60).filter(|entry| entry[0] != b' ');
        let keys: BTreeSet<&[u8]> = entries.map(|entry| &entry[..25]).collect();
        for key in keys {
            let statements = statements(&journal, key);
            let [first, last] = [&statements[0], &statements[statements.len() - 1]];
            let old = amount_in(first[0]);
            let new = amount_in(last[last.len() - 1]);
            let dates: Vec<u64> = movements(&statements).into_iter().map(valued).collect();
            let latest = dates.iter().copied().max().unwrap_or(0);
            let before = dates.iter().min().map_or(Some(0), |day| day.checked_sub(1));
            let mut ends = vec![(latest, new), (DAYS - 1, new)];
            ends.extend(before.map(|day| (day, old)));
            for (day, expected) in ends {
                let day = date_number(day);
                let (answer, table) = asked(&journal, key, (day, day), 1);
                assert_eq!((answer, i128::from(table[0])), (Ok(1), expected));
            }
            accounts += 1;
        }
    }
    assert!(accounts > 300, "{accounts}");
}

/// Each day is reached from the first, and none beyond the last.
#[test]
fn days_are_those_of_the_calendar() {
    let mut rng = Rng::new(63);
    for _ in 0..2_000 {
        let (from, after) = (rng.below(DAYS), rng.below(DAYS + 10));
        let reached = from + after;
        let expected = if reached < DAYS {
            date_number(reached)
        } else {
            0
        };
        assert_eq!(day(date_number(from), after), expected);
    }
}

// The file for the replay, read back by this test's own code.

/// The journal of a case: the one before, or a new one.
fn read_journal(reader: &mut Reader, journal: &mut Vec<u8>) {
    if reader.number(1) == 1 {
        let length = reader.number(8) as usize;
        *journal = reader.bytes().to_vec();
        assert!(journal.len() <= length && journal.last() != Some(&b' '));
        journal.resize(length, b' ');
    }
}

fn signed(reader: &mut Reader) -> i64 {
    reader.number(8) as i64
}

/// A case that asks for a position: a fresh call answers the same. Gives the refusal or 0, and the
/// amounts.
fn reread_position(reader: &mut Reader, journal: &[u8]) -> (u64, Vec<i64>) {
    let key = reader.bytes();
    let [first, last, rows] = [(); 3].map(|_| reader.number(8));
    let [kind, number, record, days, b, c] = [1, 4, 4, 4, 4, 4].map(|width| reader.number(width));
    let amounts: Vec<i64> = (0..days).map(|_| signed(reader)).collect();
    assert_eq!((record, b, c), (0, 0, 0));
    let mut table = vec![UNTOUCHED; rows as usize];
    match position(journal, key, first, last, &mut table) {
        Ok(answered) => assert_eq!((kind, number, days), (0, 0, answered)),
        Err(refusal) => assert_eq!((kind, number, days), (1, u64::from(refusal.number), 0)),
    }
    assert_eq!(table[..days as usize], amounts);
    (number, amounts)
}

/// Of a sound journal the balances are told, of another none.
fn reread_balances(reader: &mut Reader, journal: &[u8]) {
    let told = reader.number(1) == 1;
    assert_eq!(told, is_sound(journal));
    for _ in 0..reader.number(4) {
        let (entry, expected) = (reader.number(8), signed(reader));
        assert_eq!(balance(journal, entry), told.then_some(expected));
    }
}

fn reread_days(reader: &mut Reader) {
    for _ in 0..reader.number(4) {
        let [from, after, expected] = [(); 3].map(|_| reader.number(8));
        assert_eq!(day(from, after), expected);
    }
}

/// Every refusal and the largest amounts occur, the vectors are there, and the answers are those of
/// the calls.
#[test]
fn positions_are_read_back() {
    let path = path("generated.positions");
    let line = replay_positions(3, 1_000, &path).unwrap();
    assert!(line.starts_with("positions: seed 3, 2877 fixed, 1000 generated: answered "));
    let file = std::fs::read(&path).unwrap();
    let mut reader = Reader(&file);
    let mut journal = Vec::new();
    let mut names = BTreeSet::new();
    let mut refusals = BTreeSet::new();
    let (mut largest, mut least) = (0, 0);
    for _ in 0..reader.cases(POSITIONS, 3) {
        let name = String::from_utf8(reader.bytes().to_vec()).unwrap();
        let letter = reader.number(1) as u8;
        match letter {
            b'P' => {
                read_journal(&mut reader, &mut journal);
                let (number, amounts) = reread_position(&mut reader, &journal);
                refusals.insert(number);
                largest = amounts.iter().copied().fold(largest, i64::max);
                least = amounts.iter().copied().fold(least, i64::min);
            }
            b'B' => {
                read_journal(&mut reader, &mut journal);
                reread_balances(&mut reader, &journal);
            }
            _ => {
                assert_eq!(letter, b'D');
                reread_days(&mut reader);
            }
        }
        names.extend(name.split_once('-').map(|(point, _)| point.to_string()));
    }
    assert!(reader.0.is_empty());
    assert_eq!(refusals, [0, 18, 21, 25, 27].into());
    assert_eq!(largest, 4_998_999_999_999_950_010);
    assert_eq!(least, -4_998_999_999_999_950_010);
    for point in [
        "1", "2", "3", "4", "5", "6", "7", "8", "9", "10", "12", "13",
    ] {
        assert!(names.contains(&format!("P{point}")), "{point}");
    }
    assert!(names.contains("M3"));
}

/// The command writes the same file, and mistakes in the call end with 2.
#[test]
fn the_command_for_positions() {
    same_by_command("replay-positions", replay_positions);
    mistaken(&[
        &["replay-positions", "1", "10"],
        &["replay-positions", "1", "0", "no such directory/file"],
    ]);
}

/// A journal to measure with, and its times.
#[test]
fn the_commands_that_measure() {
    let path = path("big.journal");
    for lines in [2, 3, 9_999, 10_000, 10_001] {
        big_account(lines, &path).unwrap();
        let journal = std::fs::read(&path).unwrap();
        assert_eq!(journal.len() as u64, 7_680 + 120 * lines);
        assert!(is_sound(&journal) && journal[journal.len() - 120..].starts_with(b"07"));
    }
    let path = path.to_str().unwrap();
    let key = "1234500010EUR20001234567A";
    let made = oracle(&["big-account", "500", path]);
    let words = format!("account {key}, valued from 20240101 to 20250203\n");
    assert_eq!(made.stdout, words.as_bytes());
    let timed = oracle(&["time-position", path, key, "20240101", "20250203", "3"]);
    assert_eq!(timed.status.code(), Some(0));
    let line = String::from_utf8(timed.stdout).unwrap();
    assert!(line.starts_with("best ") && line.ends_with(" ns, of 3\n"));
    mistaken(&[
        &["big-account", "1", path],
        &["big-account", "100001", path],
        &["time-position", path, key, "20240101", "20250203", "0"],
        &["time-position", path, key, "20240101", "20250204", "1"],
        &[
            "time-position",
            "no such file",
            key,
            "20240101",
            "20250203",
            "1",
        ],
    ]);
}
