//! Tables of contents that no delivery writes: any bytes for keys, dates and places.

use crate::journal::{ENTRIES, TABLE};
use crate::record::{write_date, DAYS};
use crate::rng::Rng;

/// Days and months at the edges of what exists in a year, and far out.
const DAYS_AND_MONTHS: [&str; 16] = [
    "0101", "3112", "3212", "0012", "2802", "2902", "3002", "3004", "3104", "3101", "0113", "0100",
    "3011", "3111", "9999", "0000",
];

/// The edges of each year from 00 to 99, two in an entry that stands at line 0 with one record.
pub fn years(rng: &mut Rng) -> Vec<Vec<u8>> {
    let in_year = |year| DAYS_AND_MONTHS.map(|day| format!("{day}{year:02}"));
    let dates: Vec<String> = (0..100).flat_map(in_year).collect();
    let entries: Vec<Vec<u8>> = dates
        .chunks(2)
        .map(|pair| entry(key(rng), pair.concat().into_bytes(), b"0000000001".to_vec()))
        .collect();
    entries.chunks(ENTRIES).map(table).collect()
}

/// A full table of a journal of so many lines. About half of the bodies that its entries name are
/// inside.
pub fn strange(rng: &mut Rng, lines: u64) -> Vec<u8> {
    let entries: Vec<Vec<u8>> = (0..ENTRIES)
        .map(|_| {
            let dates = [date(rng), date(rng)].concat();
            entry(key(rng), dates, place(rng, lines))
        })
        .collect();
    table(&entries)
}

fn table(entries: &[Vec<u8>]) -> Vec<u8> {
    let mut table = entries.concat();
    table.resize(TABLE, b' ');
    table
}

fn entry(key: Vec<u8>, dates: Vec<u8>, place: Vec<u8>) -> Vec<u8> {
    [key, dates, place, vec![b' '; 13]].concat()
}

/// 25 bytes, all permitted or any.
fn key(rng: &mut Rng) -> Vec<u8> {
    let (first, last) = rng.pick(&[(0x20, 0x7E), (0, 255)]);
    (0..25).map(|_| rng.byte(first, last)).collect()
}

/// A day that exists, one with a byte changed, six digits, six bytes.
fn date(rng: &mut Rng) -> Vec<u8> {
    let mut day = write_date(rng.below(DAYS));
    match rng.below(6) {
        0 => day[rng.index(6)] = rng.byte(0, 255),
        1 => day[rng.index(6)] = rng.byte(b'0', b'9'),
        2 => day.fill_with(|| rng.byte(b'0', b'9')),
        3 => day.fill_with(|| rng.byte(0, 255)),
        _ => {}
    }
    day
}

/// A first line and a number of records: inside, up to the last line, one too many, far out.
fn place(rng: &mut Rng, lines: u64) -> Vec<u8> {
    let first = rng.below(lines + 1);
    let room = (lines - first).min(9_999);
    let (first, records) = match rng.below(6) {
        0 => (first, room),
        1 => (first, (room + 1).min(9_999)),
        2 => (lines + rng.below(2), 0),
        3 => (rng.below(1_000_000), rng.below(10_000)),
        _ => (first, rng.below(room + 1)),
    };
    let mut bytes = digits(rng, format!("{first:06}"));
    bytes.extend(digits(rng, format!("{records:04}")));
    bytes
}

/// Digits, or bytes that count like them: with other high bits, with ten carried to the right.
fn digits(rng: &mut Rng, digits: String) -> Vec<u8> {
    let mut bytes = digits.into_bytes();
    if rng.one_in(2) {
        return bytes;
    }
    for place in 1..bytes.len() {
        let (one, ten) = (bytes[place - 1] % 16, bytes[place] % 16 + 10);
        if one > 0 && ten < 16 && rng.one_in(2) {
            bytes[place - 1] -= 1;
            bytes[place] += 10;
        }
    }
    for byte in &mut bytes {
        if rng.one_in(3) {
            *byte = *byte % 16 + 16 * rng.byte(0, 15);
        }
    }
    bytes
}
