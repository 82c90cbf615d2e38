//! Seeded generators of series: operations on a journal, kind by kind.
//!
//! Only what a case tries is said here; what its operations answer is left to the runner. The
//! damaged journals are the exception: each damage says whether it leaves the journal sound.

pub mod accounts;
mod asking;
mod at_nil;
mod damaged;
mod deliveries;
mod gaps;
mod large;
mod limits;
mod mixed;
mod refusals;
mod scenes;
mod script;

pub use deliveries::overlap;
pub use large::large_cases;
pub use scenes::{scenes, Damage, Scene};
pub use script::{Script, SeriesCase, Write, TABLE};

use std::collections::BTreeSet;
use std::io;
use std::path::Path;

use crate::failure::failure;
use crate::rng::Rng;
use crate::series::run;
use crate::{expected, month_ends, nil};
use script::Make;

/// Kept series are not longer than this.
pub const KEPT_SERIES: usize = 131_072;
/// Nor are the journals in them longer than this.
pub const KEPT_JOURNAL: usize = 65_536;
/// The kinds, which come in turn.
pub const KINDS: [(&str, Make); 38] = [
    ("retries-with-other-line-ends", deliveries::retries),
    ("statement-in-two-files", deliveries::two_files),
    ("partial-overlaps", deliveries::overlaps),
    ("chain-within-one-file", deliveries::chain),
    ("interleaved-accounts", deliveries::interleaved),
    ("keys-one-zone-apart", deliveries::one_zone_apart),
    ("corrected-statement", deliveries::corrected),
    ("empty-period", deliveries::empty_period),
    ("does-not-follow", deliveries::does_not_follow),
    ("table-full", limits::table_full),
    ("lines-full", limits::lines_full),
    ("table-and-lines-full", limits::table_and_lines_full),
    ("few-lines", limits::few_lines),
    ("wrong-lengths", limits::wrong_lengths),
    ("short-blank-buffers", limits::short_blank_buffers),
    ("refused-later-in-the-file", refusals::later_in_the_file),
    ("refused-for-room-later", refusals::room_later_in_the_file),
    ("refusals-of-the-file", refusals::of_the_file),
    ("journal-before-file", refusals::journal_before_file),
    ("empty-files", refusals::empty_files),
    ("newest", asking::newest),
    ("newest-refused", asking::newest_refused),
    ("damaged-unused-parts", damaged::unused_parts),
    ("damaged-entries", damaged::entries),
    ("damaged-bodies", damaged::bodies),
    ("damaged-places", damaged::places),
    ("damaged-order", damaged::order),
    ("damaged-lists", damaged::lists),
    ("damaged-with-nul-and-ff", damaged::strange_bytes),
    ("damaged-at-random", mixed::random_damages),
    ("mixed", mixed::mixed),
    ("nil-in-either-writing", at_nil::either_writing),
    ("nil-follows-nil", at_nil::follows),
    ("zeros-in-texts", at_nil::texts),
    ("damaged-by-debit-zeros", damaged::debit_zeros),
    ("month-ends", gaps::month_ends),
    ("passed-over", gaps::passed_over),
    ("behind-new-ones", refusals::behind_new_ones),
];

/// The series of that seed and index.
pub fn series_case(seed: u64, index: usize) -> SeriesCase {
    let (name, make) = KINDS[index % KINDS.len()];
    // The streams of two indices have nothing to do with one another.
    let base = Rng::new(seed).bits();
    let mut rng = Rng::new(Rng::new(base ^ index as u64).bits());
    let mut script = Script::default();
    make(&mut rng, &mut script);
    SeriesCase {
        name,
        bytes: script.bytes,
    }
}

/// Writes series to a directory as 001.series and so on. Gives the lines of their runs.
pub fn kept_series(seed: u64, count: usize, directory: &Path) -> io::Result<Vec<String>> {
    let cases: Vec<SeriesCase> = (0..count).map(|index| series_case(seed, index)).collect();
    let lines = write_series(directory, &cases)?;
    // 3 and 15 need a large file.
    let wanted = (1..=25).filter(|number| ![3, 15, 16, 17, 18, 19, 20].contains(number));
    warn_of_gaps(&lines, wanted);
    Ok(lines)
}

/// Writes the large series to a directory. Gives the lines of their runs.
pub fn big_series(directory: &Path) -> io::Result<Vec<String>> {
    write_series(directory, &large_cases())
}

/// Writes the vectors of amounts of nothing to a directory. Gives the lines of their runs.
pub fn nil_series(directory: &Path) -> io::Result<Vec<String>> {
    write_series(directory, &nil::series())
}

/// Writes the vectors of month ends to a directory. Gives the lines of their runs.
pub fn month_end_series(directory: &Path) -> io::Result<Vec<String>> {
    write_series(directory, &month_ends::series())
}

/// Writes the vectors of what was expected to a directory. Gives the lines of their runs.
pub fn expected_series(directory: &Path) -> io::Result<Vec<String>> {
    write_series(directory, &expected::series())
}

/// Names and kinds go to standard error, so that the lines are those of the runs alone.
fn write_series(directory: &Path, cases: &[SeriesCase]) -> io::Result<Vec<String>> {
    std::fs::create_dir_all(directory)?;
    let mut lines = Vec::new();
    for (number, case) in (1..).zip(cases) {
        let file_name = format!("{number:03}.series");
        std::fs::write(directory.join(&file_name), &case.bytes)?;
        eprintln!("{file_name}\t{}\t{}", case.bytes.len(), case.name);
        lines.append(&mut run(&case.bytes).map_err(failure)?);
    }
    Ok(lines)
}

/// Says which refusals the lines do not show.
fn warn_of_gaps(lines: &[String], wanted: impl Iterator<Item = u32>) {
    let shown: BTreeSet<&str> = lines
        .iter()
        .filter_map(|line| line.split_once(" refused "))
        .filter_map(|(_, answer)| answer.split(' ').next())
        .collect();
    for gap in wanted.filter(|number| !shown.contains(number.to_string().as_str())) {
        eprintln!("not shown: refusal {gap}");
    }
}
