//! Writes nights with what is expected of them, a folder each.

use std::fs;
use std::io;
use std::path::Path;

use crate::night::{night, Begun, Fate, Night, Skipped};
use crate::night_cases::{night_case, NightCase};

/// Writes so many nights as DIR/000 and on; none of the folders may be there. Gives a line a night,
/// four columns with tabs between: folder, rounds, totals, what the night tries.
pub fn nights(seed: u64, count: usize, directory: &Path) -> io::Result<Vec<String>> {
    fs::create_dir_all(directory)?;
    let mut lines = Vec::new();
    for index in 0..count {
        let folder = format!("{index:03}");
        let case = night_case(seed, index);
        let night = night(&case.journal, &case.incoming);
        write_night(&directory.join(&folder), &case, &night)?;
        let words: Vec<&str> = case.tries.iter().copied().collect();
        lines.push(format!(
            "{folder}\t{}\t{}\t{}",
            night.rounds.len(),
            totals(&night),
            words.join(" ")
        ));
    }
    Ok(lines)
}

fn write_night(folder: &Path, case: &NightCase, night: &Night) -> io::Result<()> {
    fs::create_dir(folder)?;
    fs::write(folder.join("journal"), &case.journal)?;
    let incoming = folder.join("incoming");
    fs::create_dir(&incoming)?;
    for file in &case.incoming {
        fs::write(incoming.join(&file.name), &file.bytes)?;
    }
    fs::write(folder.join("expected.journal"), &night.journal)?;
    for (name, text) in expected(night) {
        fs::write(folder.join(format!("expected.{name}")), text)?;
    }
    Ok(())
}

/// What is expected beside the journal, by the names of the files that say it.
pub fn expected(night: &Night) -> [(&'static str, String); 8] {
    [
        ("done", names(night, |fate| matches!(fate, Fate::Done(_)))),
        (
            "refused",
            names(night, |fate| matches!(fate, Fate::Refused(_))),
        ),
        ("left", names(night, is_left)),
        ("ignored", lines(night.ignored.iter().cloned())),
        ("begun", lines(night.begun.iter().map(begun_line))),
        ("skipped", lines(night.skipped.iter().map(skipped_line))),
        ("totals", format!("{}\n", totals(night))),
        ("status", format!("{}\n", status(night))),
    ]
}

/// Whether the file waits on after the night.
fn is_left(fate: &Fate) -> bool {
    matches!(fate, Fate::Left(_) | Fate::HeldBack)
}

/// A line each, with LF after it.
fn lines(words: impl Iterator<Item = String>) -> String {
    words.map(|word| word + "\n").collect()
}

/// The names of the files that end so.
fn names(night: &Night, ends_so: fn(&Fate) -> bool) -> String {
    let found = night.fates.iter().filter(|(_, fate)| ends_so(fate));
    lines(found.map(|(name, _)| name.clone()))
}

/// The account; then the date.
fn begun_line(begun: &Begun) -> String {
    format!("{} {}", key_text(&begun.key), date_text(begun.date))
}

/// The account; then the day it ended on and the day it goes on with.
fn skipped_line(skipped: &Skipped) -> String {
    let key = key_text(&skipped.key);
    format!(
        "{key} {} {}",
        date_text(skipped.from),
        date_text(skipped.to)
    )
}

/// Bank, branch, currency, decimals, account.
fn key_text(key: &[u8]) -> String {
    let key = String::from_utf8_lossy(key);
    let zones = [
        &key[..5],
        &key[5..10],
        &key[10..13],
        &key[13..14],
        &key[14..],
    ];
    zones.join("-")
}

fn date_text(date: u32) -> String {
    let (year, rest) = (date / 10_000, date % 10_000);
    let (month, day) = (rest / 100, rest % 100);
    format!("{year}-{month:02}-{day:02}")
}

/// Numbers of files, and of statements in those that are done.
fn totals(night: &Night) -> String {
    let (mut done, mut refused, mut left, mut stored, mut held) = (0, 0, 0, 0, 0);
    for fate in night.fates.values() {
        match fate {
            Fate::Done(delivered) => {
                done += 1;
                stored += delivered.stored;
                held += delivered.held;
            }
            Fate::Refused(_) => refused += 1,
            Fate::Left(_) | Fate::HeldBack => left += 1,
        }
    }
    format!("done {done}, refused {refused}, left {left}, stored {stored}, held {held}")
}

/// 4 where some file is left, else 1 where one is refused, else 0.
fn status(night: &Night) -> u32 {
    let worst = night.fates.values().map(|fate| match fate {
        Fate::Done(_) => 0,
        Fate::Refused(_) => 1,
        Fate::Left(_) | Fate::HeldBack => 4,
    });
    worst.max().unwrap_or(0)
}
