//! The kept cases of the proved programs: what they are held to is what is answered here. The last
//! files are the vectors of amounts of nothing, the last series those, the vectors of month ends and
//! those of what was expected.

use std::path::PathBuf;

use oracle::check::{check, Answer};
use oracle::read::{complement, head, movement, place};
use oracle::series::{operations, run, Operation};
use oracle::series_cases::{KEPT_JOURNAL, KEPT_SERIES};
use oracle::show::{complement_line, head_line, line, place_line, readings, row_line};
use oracle::write::answer_text;
use oracle::{expected, month_ends, nil};

/// A number of no statement, movement or complement.
const NONE: u64 = 20_001;

fn kept(program: &str, name: &str) -> PathBuf {
    let crates = PathBuf::from(env!("CARGO_MANIFEST_DIR")).join("../../crates");
    crates.join(program).join(name)
}

fn text(program: &str, name: &str) -> String {
    std::fs::read_to_string(kept(program, name)).unwrap()
}

fn data(program: &str, name: &str) -> Vec<u8> {
    std::fs::read(kept(program, "data").join(name)).unwrap()
}

/// Names and line-end numbers of the files that a program is run on.
fn files(program: &str) -> Vec<(String, u64)> {
    let arguments = text(program, "args");
    let arguments: Vec<&str> = arguments.lines().collect();
    let pairs = arguments.chunks_exact(2);
    pairs
        .map(|pair| (pair[0].to_string(), pair[1].parse().unwrap()))
        .collect()
}

/// The program goes on with large files of its own.
#[test]
fn answers_of_check_cases() {
    let mut lines = String::new();
    for (name, line_end) in files("check_cases") {
        let answer = check(line_end, &data("check_cases", &name));
        lines += &format!("{name} {}\n", answer_text(answer));
    }
    let kept = text("check_cases", "stdout");
    assert!(kept.starts_with(&lines));
    assert!(kept[lines.len()..].starts_with("records-20000 "));
}

/// All that a file holds, then what there is not.
fn read(line_end: u64, file: &[u8]) -> Vec<String> {
    let mut lines = readings(line_end, file);
    lines.push(line(place(line_end, file, NONE), place_line));
    lines.push(line(head(line_end, file, NONE), head_line));
    lines.push(line(movement(line_end, file, NONE, 1), row_line));
    for [k, m, c] in [
        [NONE, 1, 1],
        [1, 0, 1],
        [1, NONE, 1],
        [1, 1, 0],
        [1, 1, NONE],
    ] {
        lines.push(line(complement(line_end, file, k, m, c), complement_line));
    }
    lines
}

#[test]
fn answers_of_reader_cases() {
    let mut lines = Vec::new();
    for (name, line_end) in files("reader_cases") {
        let file = data("reader_cases", &name);
        lines.push(name);
        lines.append(&mut read(line_end, &file));
    }
    let kept = text("reader_cases", "stdout");
    assert_eq!(kept.lines().collect::<Vec<_>>(), lines);
}

#[test]
fn answers_of_journal_cases() {
    let mut lines = Vec::new();
    for name in text("journal_cases", "args").lines() {
        lines.push(format!("== data/{name}"));
        lines.append(&mut run(&data("journal_cases", name)).unwrap());
    }
    let kept = text("journal_cases", "stdout");
    assert_eq!(kept.lines().collect::<Vec<_>>(), lines);
}

/// The readers have those that are accepted.
#[test]
fn last_files_are_the_vectors() {
    let cases = nil::kept();
    let accepted = cases
        .iter()
        .filter(|case| matches!(case.expected, Some(Answer::Accepted { .. })));
    for (program, cases) in [
        ("check_cases", cases.iter().collect::<Vec<_>>()),
        ("reader_cases", accepted.collect()),
    ] {
        let files = files(program);
        let last = &files[files.len() - cases.len()..];
        for ((name, line_end), case) in last.iter().zip(cases) {
            assert_eq!(*line_end, case.line_end);
            assert!(data(program, name) == case.bytes, "{}", case.name);
        }
    }
}

#[test]
fn last_series_are_the_vectors() {
    let names = text("journal_cases", "args");
    let names: Vec<&str> = names.lines().collect();
    let series = [nil::series(), month_ends::series(), expected::series()].concat();
    let last = &names[names.len() - series.len()..];
    for (name, case) in last.iter().zip(&series) {
        assert!(data("journal_cases", name) == case.bytes, "{}", case.name);
    }
}

/// Whatever made them, kept series and the journals in them are small.
#[test]
fn kept_series_are_small() {
    for name in text("journal_cases", "args").lines() {
        let series = data("journal_cases", name);
        assert!(series.len() <= KEPT_SERIES, "{name}");
        for operation in operations(&series).unwrap() {
            if let Operation::Journal { length } = operation {
                assert!(length <= KEPT_JOURNAL, "{name}");
            }
        }
    }
}
