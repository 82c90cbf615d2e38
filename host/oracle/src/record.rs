//! Records as the generators build and change them: zones, dates, amounts.
//!
//! Kept apart from `check` on purpose: it writes what the other reads.

pub const RECORD: usize = 120;
/// Days from 1980-01-01 to 2079-12-31.
pub const DAYS: u64 = 36_525;
/// The largest amount of 14 digits.
pub const MOST: i64 = 99_999_999_999_999;

/// A zero as the writer writes it, and as some banks do.
pub const CREDIT_ZERO: &[u8] = b"0000000000000{";
pub const DEBIT_ZERO: &[u8] = b"0000000000000}";

const CREDIT: &[u8; 10] = b"{ABCDEFGHI";
const DEBIT: &[u8; 10] = b"}JKLMNOPQR";
const MONTHS: [u64; 12] = [31, 28, 31, 30, 31, 30, 31, 31, 30, 31, 30, 31];

/// Puts bytes at a position, which counts from 1.
pub fn put(line: &mut [u8], first: usize, bytes: &[u8]) {
    line[first - 1..first - 1 + bytes.len()].copy_from_slice(bytes);
}

/// The bytes from position `first` to position `last`.
pub fn get(line: &[u8], first: usize, last: usize) -> &[u8] {
    &line[first - 1..last]
}

/// A record of bank 12345 with its code, account and date, all else blank.
pub fn plain(code: &str, account: &str, date: &str) -> Vec<u8> {
    let mut record = vec![b' '; RECORD];
    put(&mut record, 1, code.as_bytes());
    put(&mut record, 3, b"12345");
    put(&mut record, 12, b"00010");
    put(&mut record, 17, b"EUR2");
    put(&mut record, 22, account.as_bytes());
    put(&mut record, 35, date.as_bytes());
    record
}

/// The record code.
pub fn code(line: &[u8]) -> &[u8] {
    get(line, 1, 2)
}

/// Whether this is a 05 with the qualifier MMO.
pub fn is_mmo(line: &[u8]) -> bool {
    code(line) == b"05" && get(line, 46, 48) == b"MMO"
}

/// Whether this record has an amount and that is a zero, with either sign.
pub fn is_nil(line: &[u8]) -> bool {
    let has_amount = matches!(code(line), b"01" | b"04" | b"07");
    has_amount && [CREDIT_ZERO, DEBIT_ZERO].contains(&get(line, 91, 104))
}

/// The line end of a file with this line-end number.
pub fn line_end(number: u64) -> &'static [u8] {
    match number {
        1 => b"\n",
        2 => b"\r\n",
        _ => b"",
    }
}

/// An amount as 14 bytes.
pub fn write_amount(value: i64) -> Vec<u8> {
    let mut bytes = format!("{:014}", value.unsigned_abs()).into_bytes();
    let last = usize::from(bytes[13] - b'0');
    bytes[13] = if value < 0 { DEBIT[last] } else { CREDIT[last] };
    bytes
}

/// The value of an amount, for damages that start from it.
pub fn read_amount(bytes: &[u8]) -> Option<i64> {
    let place = |signs: &[u8; 10]| signs.iter().position(|&sign| sign == bytes[13]);
    let first: i64 = std::str::from_utf8(&bytes[..13]).ok()?.parse().ok()?;
    match (place(CREDIT), place(DEBIT)) {
        (Some(last), _) => Some(10 * first + last as i64),
        (_, Some(last)) => Some(-10 * first - last as i64),
        _ => None,
    }
}

/// Day 0 is 1980-01-01; every fourth year from there is a leap year.
pub fn write_date(day: u64) -> Vec<u8> {
    let (four, in_four) = (day / 1461, day % 1461);
    // The first of four years has 366 days.
    let (year_in_four, mut rest) = if in_four < 366 {
        (0, in_four)
    } else {
        (1 + (in_four - 366) / 365, (in_four - 366) % 365)
    };
    let mut month = 0;
    while rest >= month_length(month, year_in_four) {
        rest -= month_length(month, year_in_four);
        month += 1;
    }
    let year = (80 + 4 * four + year_in_four) % 100;
    format!("{:02}{:02}{:02}", rest + 1, month + 1, year).into_bytes()
}

/// The day as the number YYYYMMDD.
pub fn date_number(day: u64) -> u64 {
    let digits = write_date(day);
    let two =
        |first: usize| 10 * u64::from(digits[first] - b'0') + u64::from(digits[first + 1] - b'0');
    let year = match two(4) {
        yy @ 0..=79 => 2000 + yy,
        yy => 1900 + yy,
    };
    10_000 * year + 100 * two(2) + two(0)
}

/// The day of a date that `write_date` gave; nothing for other bytes.
pub fn read_date(bytes: &[u8]) -> Option<u64> {
    let text = std::str::from_utf8(bytes).ok()?;
    let day: u64 = text.get(0..2)?.parse().ok()?;
    let month: usize = text.get(2..4)?.parse().ok()?;
    let year: u64 = text.get(4..6)?.parse().ok()?;
    if day == 0 || month == 0 || month > 12 {
        return None;
    }
    let years = (year + 20) % 100;
    let before: u64 = (0..month - 1).map(|m| month_length(m, years % 4)).sum();
    Some(365 * years + (years + 3) / 4 + before + day - 1)
}

fn month_length(month: usize, year_in_four: u64) -> u64 {
    if month == 1 && year_in_four == 0 {
        29
    } else {
        MONTHS[month]
    }
}
