//! The commands over the readers, the listing and the series, run as programs.

use std::io::Write;
use std::path::PathBuf;
use std::process::{Command, Output, Stdio};

use crate::common::{with_complements, worked};

fn oracle(arguments: &[&str], input: &[u8]) -> Output {
    let mut child = Command::new(env!("CARGO_BIN_EXE_oracle"))
        .args(arguments)
        .stdin(Stdio::piped())
        .stdout(Stdio::piped())
        .stderr(Stdio::piped())
        .spawn()
        .unwrap();
    child.stdin.take().unwrap().write_all(input).unwrap();
    child.wait_with_output().unwrap()
}

/// Status 0 and nothing on standard error, whatever is read.
#[test]
fn g5_status_and_standard_error_of_the_listing() {
    let inputs = [
        (worked().bytes(b"\n"), "OK 1\n"),
        (worked().bytes(b"\r\n"), "REFUS 2 0\n"),
        (vec![b'x'; 65_341], "TROP LONG\n"),
        (Vec::new(), "OK 0\n"),
    ];
    for (input, end) in inputs {
        let output = oracle(&["listing"], &input);
        assert_eq!(output.status.code(), Some(0));
        assert_eq!(output.stderr, b"");
        assert_eq!(output.stdout, oracle::listing::listing(&input).as_bytes());
        assert!(output.stdout.ends_with(end.as_bytes()));
    }
}

#[test]
fn reader_commands() {
    let path = PathBuf::from(env!("CARGO_TARGET_TMPDIR")).join("readers.cfonb");
    std::fs::write(&path, with_complements().bytes(b"\r\n")).unwrap();
    let path = path.to_str().unwrap();
    let mmo = format!("MMO{:70}\n", "USD200000000002700");
    let cases: [(&[&str], &str); 9] = [
        (&["place", "2", path, "1"], "0|854\n"),
        (&["place", "2", path, "2"], "refused 16 0\n"),
        (&["place", "1", path, "1"], "refused 2 0\n"),
        (
            &["head", "2", path, "1"],
            "12345|00010|EUR|2|0001234567A|20250131|100000|20250228|120833|2\n",
        ),
        (
            &["movement", "2", path, "1", "1"],
            "    |05|20250205|  |20250206|                               |0|0|0|25050|\
             \u{20}               |3\n",
        ),
        (&["movement", "2", path, "1", "3"], "refused 17 0\n"),
        (&["complement", "2", path, "1", "1", "2"], &mmo),
        (&["complement", "2", path, "1", "1", "0"], "refused 17 0\n"),
        (&["readings", "3", path], "refused 1 0\n"),
    ];
    for (arguments, expected) in cases {
        let output = oracle(arguments, b"");
        assert_eq!(output.status.code(), Some(0));
        assert_eq!(String::from_utf8(output.stdout).unwrap(), expected);
    }
}

/// A series prints its lines; a malformed one prints nothing, ends with 2 and says why.
#[test]
fn series_command() {
    let path = PathBuf::from(env!("CARGO_TARGET_TMPDIR")).join("hand.series");
    let series = b"J 0000000000000000002 00000000\n\
                   P 0000000000000000001 00000255\n\
                   O 0000000000000000000 00000000\n";
    std::fs::write(&path, series).unwrap();
    let arguments = ["series", path.to_str().unwrap()];
    let output = oracle(&arguments, b"");
    assert_eq!(output.status.code(), Some(0));
    assert_eq!(output.stdout, b"J 2\nO refused 21 0 1681\n");
    std::fs::write(&path, &series[..92]).unwrap();
    let output = oracle(&arguments, b"");
    assert_eq!(output.status.code(), Some(2));
    assert_eq!(output.stdout, b"");
    let error = b"oracle: operation 3 at byte 62: header cut short\n";
    assert_eq!(output.stderr, error);
}

/// The kept series are numbered files, and the lines are those of their runs.
#[test]
fn series_kept_command() {
    let directory = PathBuf::from(env!("CARGO_TARGET_TMPDIR")).join("kept-series");
    let directory = directory.to_str().unwrap();
    let output = oracle(&["series-kept", "5", "3", directory], b"");
    assert_eq!(output.status.code(), Some(0));
    let mut lines = Vec::new();
    for name in ["001", "002", "003"] {
        let path = format!("{directory}/{name}.series");
        lines.append(&mut oracle(&["series", &path], b"").stdout);
    }
    assert!(!lines.is_empty());
    assert_eq!(output.stdout, lines);
}

/// The vectors of amounts of nothing are numbered files, and the lines are the answers to them.
#[test]
fn nil_commands() {
    let directory = PathBuf::from(env!("CARGO_TARGET_TMPDIR")).join("nil");
    let directory = directory.to_str().unwrap();
    let listed = oracle(&["nil", directory], b"").stdout;
    let listed = String::from_utf8(listed).unwrap();
    assert!(!listed.is_empty());
    for line in listed.lines() {
        let columns: Vec<&str> = line.split('\t').collect();
        let path = format!("{directory}/{}", columns[0]);
        let answer = oracle(&["check", columns[1], &path], b"").stdout;
        assert_eq!(answer, format!("{}\n", columns[2]).as_bytes());
    }
    assert_lines_of_runs("series-nil", directory, 6);
}

#[test]
fn month_ends_command() {
    let directory = PathBuf::from(env!("CARGO_TARGET_TMPDIR")).join("month-ends");
    assert_lines_of_runs("series-month-ends", directory.to_str().unwrap(), 10);
}

#[test]
fn expected_command() {
    let directory = PathBuf::from(env!("CARGO_TARGET_TMPDIR")).join("expected");
    assert_lines_of_runs("series-expected", directory.to_str().unwrap(), 11);
}

/// A command writes so many numbered series and prints the lines of their runs.
fn assert_lines_of_runs(command: &str, directory: &str, count: usize) {
    let printed = oracle(&[command, directory], b"").stdout;
    let mut lines = Vec::new();
    for number in 1..=count {
        let path = format!("{directory}/{number:03}.series");
        lines.append(&mut oracle(&["series", &path], b"").stdout);
    }
    assert!(!lines.is_empty());
    assert_eq!(printed, lines);
}

#[test]
fn mistakes_in_the_call() {
    let calls: [&[&str]; 14] = [
        &["place", "1"],
        &["place", "x", "no such file", "1"],
        &["movement", "1", "no such file", "1"],
        &["listing", "1"],
        &["unknown", "1", "2"],
        &["series"],
        &["series", "no such file"],
        &["series-kept", "1", "x", "no such directory"],
        &["series-big"],
        &["nil"],
        &["series-nil"],
        &["series-month-ends"],
        &["series-expected"],
        &["series-of-no-kind", "no such directory"],
    ];
    for arguments in calls {
        assert_eq!(oracle(arguments, b"").status.code(), Some(2));
    }
}
