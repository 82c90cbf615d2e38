//! A series of operations on one journal: its file format, its runner, its printed lines.
//!
//! An operation is a header of 31 bytes (a letter, number a in 19 digits, number b in 8 digits,
//! blanks between, LF at the end) and for `D` and `N` b bytes of payload.

use crate::delivery::{deliver, newest, NotDelivered, Source};
use crate::journal::{entry, is_sound, open};
use crate::read::Refusal;
use crate::show::refusal_line;

const HEADER: usize = 31;
/// Bytes of an account key at the start of an `N` payload.
const KEY: usize = 25;
/// A larger buffer is taken for a mistake in the series. The longest journal has 12,007,680.
const MOST_BYTES: u64 = 1 << 24;
/// The modulus of the hash, the largest prime below 2 to the 32nd.
const PRIME: u64 = 4_294_967_291;

/// One operation.
#[derive(Clone, Copy, Debug, PartialEq, Eq)]
pub enum Operation<'a> {
    /// `J`: a new buffer of dots.
    Journal { length: usize },
    /// `O`: opening.
    Open,
    /// `S`: the sound test.
    Sound,
    /// `E`: the place of an entry's body.
    Entry { number: u64 },
    /// `P`: one byte changed; nothing happens where the buffer has no such byte.
    Poke { offset: u64, byte: u8 },
    /// `D`: delivery.
    Deliver { line_end: u64, file: &'a [u8] },
    /// `N`: the newest statement of an account. A payload too short for a key is a short key.
    Newest {
        line_end: u64,
        key: &'a [u8],
        file: &'a [u8],
    },
}

impl Operation<'_> {
    /// The operation as it stands in a series.
    pub fn bytes(&self) -> Vec<u8> {
        match *self {
            Operation::Journal { length } => header('J', length as u64, 0),
            Operation::Open => header('O', 0, 0),
            Operation::Sound => header('S', 0, 0),
            Operation::Entry { number } => header('E', number, 0),
            Operation::Poke { offset, byte } => header('P', offset, usize::from(byte)),
            Operation::Deliver { line_end, file } => {
                [&header('D', line_end, file.len())[..], file].concat()
            }
            Operation::Newest {
                line_end,
                key,
                file,
            } => [
                &header('N', line_end, key.len() + file.len())[..],
                key,
                file,
            ]
            .concat(),
        }
    }
}

fn header(letter: char, a: u64, b: usize) -> Vec<u8> {
    format!("{letter} {a:019} {b:08}\n").into_bytes()
}

/// All operations of a series, or what is wrong with it.
pub fn operations(series: &[u8]) -> Result<Vec<Operation<'_>>, String> {
    let mut operations = Vec::new();
    let mut rest = series;
    while !rest.is_empty() {
        let (operation, length) = first_operation(rest).map_err(|error| {
            let offset = series.len() - rest.len();
            let number = operations.len() + 1;
            format!("operation {number} at byte {offset}: {error}")
        })?;
        operations.push(operation);
        rest = &rest[length..];
    }
    Ok(operations)
}

/// The operation at the start of these bytes and its length in bytes.
fn first_operation(bytes: &[u8]) -> Result<(Operation<'_>, usize), String> {
    let header = bytes.get(..HEADER).ok_or("header cut short")?;
    let form = header[1] == b' ' && header[21] == b' ' && header[30] == b'\n';
    let (a, b) = match (number(&header[2..21]), number(&header[22..30]), form) {
        (Some(a), Some(b), true) => (a, b),
        _ => return Err("header malformed".to_string()),
    };
    let operation = match header[0] {
        b'J' if a <= MOST_BYTES => Operation::Journal { length: a as usize },
        b'J' => return Err("buffer too large".to_string()),
        b'O' => Operation::Open,
        b'S' => Operation::Sound,
        b'E' => Operation::Entry { number: a },
        b'P' => Operation::Poke {
            offset: a,
            byte: u8::try_from(b).map_err(|_| "not a byte")?,
        },
        letter @ (b'D' | b'N') => return with_payload(letter, a, &bytes[HEADER..], b),
        _ => return Err("unknown letter".to_string()),
    };
    Ok((operation, HEADER))
}

/// A delivery or a newest, whose payload follows the header.
fn with_payload(
    letter: u8,
    line_end: u64,
    after_header: &[u8],
    length: u64,
) -> Result<(Operation<'_>, usize), String> {
    let length = length as usize;
    let payload = after_header.get(..length).ok_or("payload cut short")?;
    let operation = if letter == b'D' {
        Operation::Deliver {
            line_end,
            file: payload,
        }
    } else {
        let (key, file) = payload.split_at(KEY.min(length));
        Operation::Newest {
            line_end,
            key,
            file,
        }
    };
    Ok((operation, HEADER + length))
}

/// The value of decimal digits; 19 of them always fit.
fn number(digits: &[u8]) -> Option<u64> {
    let right = digits.iter().all(u8::is_ascii_digit);
    right.then(|| crate::check::number(digits))
}

/// Runs a series from an empty buffer. Gives the printed lines, or what is wrong with the series.
pub fn run(series: &[u8]) -> Result<Vec<String>, String> {
    let mut journal = Vec::new();
    let lines = operations(series)?
        .into_iter()
        .filter_map(|operation| perform(&mut journal, operation))
        .collect();
    Ok(lines)
}

/// Performs one operation. Gives the line it prints; a poke prints none.
pub fn perform(journal: &mut Vec<u8>, operation: Operation) -> Option<String> {
    match operation {
        Operation::Journal { length } => {
            *journal = vec![b'.'; length];
            Some(format!("J {length}"))
        }
        Operation::Open => {
            let answer = open(journal).map(|()| "opened".to_string());
            Some(format!("O {} {}", words(answer), hash(journal)))
        }
        Operation::Sound if is_sound(journal) => Some("S sound".to_string()),
        Operation::Sound => Some("S unsound".to_string()),
        Operation::Entry { number } => {
            let answer = entry(journal, number);
            let answer = answer.map(|place| format!("at {} {}", place.first, place.length));
            Some(format!("E {}", words(answer)))
        }
        Operation::Poke { offset, byte } => {
            poke(journal, offset, byte);
            None
        }
        Operation::Deliver { line_end, file } => {
            let answer = match deliver(journal, line_end, file) {
                Ok(done) => format!("stored {} held {}", done.stored, done.held),
                Err(not_delivered) => refused_delivery(not_delivered),
            };
            Some(format!("D {answer} {}", hash(journal)))
        }
        Operation::Newest {
            line_end,
            key,
            file,
        } => Some(newest_line(journal, line_end, key, file)),
    }
}

fn newest_line(journal: &[u8], line_end: u64, key: &[u8], file: &[u8]) -> String {
    let answer = newest(journal, line_end, file, key).map(|newest| {
        let source = match newest.source {
            Source::Journal => "journal",
            Source::File => "file",
        };
        let place = newest.place;
        format!(
            "{source} {} {} {}",
            place.first, place.length, newest.line_end
        )
    });
    format!("N {}", words(answer))
}

fn poke(journal: &mut [u8], offset: u64, byte: u8) {
    let place = usize::try_from(offset).ok();
    if let Some(found) = place.and_then(|offset| journal.get_mut(offset)) {
        *found = byte;
    }
}

/// The words of an answer, those of its refusal if it is one.
fn words(answer: Result<String, Refusal>) -> String {
    answer.unwrap_or_else(refusal_line)
}

/// The words of a delivery that is refused: its refusal, then what was expected.
fn refused_delivery(NotDelivered { refusal, expected }: NotDelivered) -> String {
    let refusal = refusal_line(refusal);
    format!("{refusal} expected {} {}", expected.date, expected.balance)
}

/// A number over all the journal's bytes.
pub fn hash(journal: &[u8]) -> u64 {
    journal
        .iter()
        .fold(0, |hash, &byte| (hash * 31 + u64::from(byte)) % PRIME)
}
