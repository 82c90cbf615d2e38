//! The command over the check, the readers, the journal and the generators.

use std::io::{self, Read, Write};
use std::path::Path;
use std::process::ExitCode;
use std::sync::atomic::{AtomicU64, Ordering};
use std::time::Instant;

use oracle::cash::position;
use oracle::cash_cases::{big_account, replay_positions};
use oracle::check::check;
use oracle::failure::failure;
use oracle::listing::listing;
use oracle::listing_cases::listings;
use oracle::neighbours::replay_neighbours;
use oracle::nights::nights;
use oracle::read::{complement, head, movement, place};
use oracle::replay::{replay_checks, replay_series};
use oracle::samples::write_samples;
use oracle::series;
use oracle::series_cases::{
    big_series, expected_series, kept_series, month_end_series, nil_series,
};
use oracle::show::{complement_line, head_line, line, place_line, readings, row_line};
use oracle::table_cases::replay_tables;
use oracle::write::{answer_text, big, corpus, kept, nil_files};

const USAGE: &str = "usage:
  oracle check LINE_END FILE..
  oracle place LINE_END FILE K
  oracle head LINE_END FILE K
  oracle movement LINE_END FILE K M
  oracle complement LINE_END FILE K M C
  oracle readings LINE_END FILE
  oracle listing < FILE
  oracle corpus SEED COUNT OUT
  oracle kept SEED COUNT DIR
  oracle big DIR
  oracle nil DIR
  oracle listings SEED COUNT DIR
  oracle series FILE
      runs the operations on a journal that FILE holds, prints a line for each but the pokes
  oracle series-kept SEED COUNT DIR
      writes COUNT series as DIR/001.series .., prints the lines of their runs one after another;
      names, bytes and kinds on standard error
  oracle series-big DIR
      the same with the large series
  oracle series-nil DIR
      the same with the vectors of amounts of nothing
  oracle series-month-ends DIR
      the same with the vectors of month ends
  oracle series-expected DIR
      the same with the vectors of what was expected
  oracle replay-checks SEED COUNT OUT
      fixed checks and COUNT generated ones with their answers, in one binary file
  oracle replay-series SEED COUNT OUT
      the same with series
  oracle replay-neighbours SEED COUNT OUT
      the same with runs over the deliveries of one account among those of neighbours
  oracle replay-tables SEED COUNT OUT
      the same with tables of movements, and with statements to write
  oracle replay-positions SEED COUNT OUT
      the same with balances in value
  oracle nights SEED COUNT DIR
      writes COUNT nights of an intake as DIR/000 .., each a folder with what is expected of it;
      prints a line a night
  oracle samples DIR
      the files of samples/
  oracle time FILE LINE_END TIMES
  oracle big-account LINES OUT
      a journal that one account fills; says what to ask of it
  oracle time-position JOURNAL KEY FIRST LAST TIMES";

fn main() -> ExitCode {
    let arguments: Vec<String> = std::env::args().skip(1).collect();
    let arguments: Vec<&str> = arguments.iter().map(String::as_str).collect();
    match run(&arguments) {
        Ok(()) => ExitCode::SUCCESS,
        Err(error) => {
            eprintln!("oracle: {error}");
            ExitCode::from(2)
        }
    }
}

fn run(arguments: &[&str]) -> io::Result<()> {
    match arguments {
        ["check", line_end, files @ ..] if !files.is_empty() => {
            print_lines(&check_files(number(line_end)?, files)?)
        }
        ["corpus", seed, count, out] => corpus(number(seed)?, number(count)?, Path::new(out)),
        ["kept", seed, count, directory] => {
            let count = number(count)? as usize;
            print_lines(&kept(number(seed)?, count, Path::new(directory))?)
        }
        ["big", directory] => print_lines(&big(Path::new(directory))?),
        ["nil", directory] => print_lines(&nil_files(Path::new(directory))?),
        ["samples", directory] => print_lines(&write_samples(Path::new(directory))?),
        ["nights", seed, count, directory] => {
            let count = number(count)? as usize;
            print_lines(&nights(number(seed)?, count, Path::new(directory))?)
        }
        ["listings", seed, count, directory] => {
            let count = number(count)? as usize;
            print_lines(&listings(number(seed)?, count, Path::new(directory))?)
        }
        ["listing"] => print_listing(),
        ["time", file, line_end, times] => {
            print_lines(&[time(file, number(line_end)?, number(times)?)?])
        }
        ["replay-checks", seed, count, out] => replay(replay_checks, seed, count, out),
        ["replay-series", seed, count, out] => replay(replay_series, seed, count, out),
        ["replay-neighbours", seed, count, out] => replay(replay_neighbours, seed, count, out),
        ["replay-tables", seed, count, out] => replay(replay_tables, seed, count, out),
        ["replay-positions", seed, count, out] => replay(replay_positions, seed, count, out),
        ["big-account", lines, out] => print_lines(&[big_account(number(lines)?, Path::new(out))?]),
        ["time-position", journal, key, first, last, times] => {
            let span = (number(first)?, number(last)?);
            print_lines(&[time_position(journal, key, span, number(times)?)?])
        }
        [command, ..] if command.starts_with("series") => run_series(arguments),
        _ => run_reader(arguments),
    }
}

/// Writes cases of some kind with their answers.
type WriteCases = fn(u64, u64, &Path) -> io::Result<String>;

fn replay(write_cases: WriteCases, seed: &str, count: &str, out: &str) -> io::Result<()> {
    let line = write_cases(number(seed)?, number(count)?, Path::new(out))?;
    print_lines(&[line])
}

/// Series of operations on a journal.
fn run_series(arguments: &[&str]) -> io::Result<()> {
    match arguments {
        ["series", file] => {
            let series = std::fs::read(file)?;
            print_lines(&series::run(&series).map_err(failure)?)
        }
        ["series-kept", seed, count, directory] => {
            let count = number(count)? as usize;
            print_lines(&kept_series(number(seed)?, count, Path::new(directory))?)
        }
        ["series-big", directory] => print_lines(&big_series(Path::new(directory))?),
        ["series-nil", directory] => print_lines(&nil_series(Path::new(directory))?),
        ["series-month-ends", directory] => print_lines(&month_end_series(Path::new(directory))?),
        ["series-expected", directory] => print_lines(&expected_series(Path::new(directory))?),
        _ => Err(failure(USAGE)),
    }
}

/// The readers of one file.
fn run_reader(arguments: &[&str]) -> io::Result<()> {
    match arguments {
        ["place", line_end, file, k] => {
            let file = std::fs::read(file)?;
            let answer = place(number(line_end)?, &file, number(k)?);
            print_lines(&[line(answer, place_line)])
        }
        ["head", line_end, file, k] => {
            let file = std::fs::read(file)?;
            let answer = head(number(line_end)?, &file, number(k)?);
            print_lines(&[line(answer, head_line)])
        }
        ["movement", line_end, file, k, m] => {
            let file = std::fs::read(file)?;
            let answer = movement(number(line_end)?, &file, number(k)?, number(m)?);
            print_lines(&[line(answer, row_line)])
        }
        ["complement", line_end, file, k, m, c] => {
            let file = std::fs::read(file)?;
            let answer = complement(number(line_end)?, &file, number(k)?, number(m)?, number(c)?);
            print_lines(&[line(answer, complement_line)])
        }
        ["readings", line_end, file] => {
            let file = std::fs::read(file)?;
            print_lines(&readings(number(line_end)?, &file))
        }
        _ => Err(failure(USAGE)),
    }
}

/// The listing program: nothing on standard error, status 0 whatever it reads.
fn print_listing() -> io::Result<()> {
    let mut input = Vec::new();
    io::stdin().lock().read_to_end(&mut input)?;
    io::stdout().lock().write_all(listing(&input).as_bytes())
}

fn number(text: &str) -> io::Result<u64> {
    text.parse()
        .map_err(|_| failure(format!("not a number: {text}")))
}

fn print_lines(lines: &[String]) -> io::Result<()> {
    let mut out = io::stdout().lock();
    for line in lines {
        writeln!(out, "{line}")?;
    }
    Ok(())
}

/// One answer a file.
fn check_files(line_end: u64, files: &[&str]) -> io::Result<Vec<String>> {
    files
        .iter()
        .map(|file| {
            let bytes = std::fs::read(file)?;
            Ok(answer_text(check(line_end, &bytes)))
        })
        .collect()
}

/// The best time of the check on a file in memory, by record.
fn time(file: &str, line_end: u64, times: u64) -> io::Result<String> {
    let bytes = std::fs::read(file)?;
    let records = bytes.len() as u64 / (120 + line_end.min(2));
    if records == 0 || times == 0 {
        return Err(failure("nothing to time"));
    }
    let mut best = f64::INFINITY;
    let mut answer = check(line_end, &bytes);
    // Loaded anew in each turn, so that the compiler leaves none out.
    let line_end = AtomicU64::new(line_end);
    for _ in 0..times {
        let start = Instant::now();
        answer = check(line_end.load(Ordering::SeqCst), &bytes);
        best = best.min(start.elapsed().as_nanos() as f64);
    }
    let by_record = best / records as f64;
    let answer = answer_text(answer);
    Ok(format!(
        "{by_record:.1} ns per record, {records} records, best of {times}, {answer}"
    ))
}

/// The best and the median time of a position on a journal in memory, in nanoseconds.
fn time_position(journal: &str, key: &str, span: (u64, u64), times: u64) -> io::Result<String> {
    let journal = std::fs::read(journal)?;
    let mut table = [0; 400];
    let mut elapsed = Vec::new();
    // Loaded anew in each turn, so that the compiler leaves none out.
    let (first, last) = (AtomicU64::new(span.0), span.1);
    for _ in 0..times {
        let first = first.load(Ordering::SeqCst);
        let start = Instant::now();
        let answer = position(&journal, key.as_bytes(), first, last, &mut table);
        elapsed.push(start.elapsed().as_nanos());
        answer.map_err(|refusal| failure(format!("refused with {}", refusal.number)))?;
    }
    elapsed.sort_unstable();
    match (elapsed.first(), elapsed.get(elapsed.len() / 2)) {
        (Some(best), Some(median)) => Ok(format!("best {best} ns, median {median} ns, of {times}")),
        _ => Err(failure("nothing to time")),
    }
}
