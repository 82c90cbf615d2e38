//! The check of a file: one function per rule, record by record, in the order of the numbers.
//!
//! Positions count from 1, both ends included, as in the paper.

/// Bytes of a record without its line end.
pub const RECORD: usize = 120;
const MOST_RECORDS_IN_FILE: u64 = 20_000;
const MOST_RECORDS_IN_STATEMENT: u64 = 9_999;

/// The whole answer of the check.
#[derive(Clone, Copy, Debug, PartialEq, Eq)]
pub enum Answer {
    Accepted {
        statements: u64,
        movements: u64,
        complements: u64,
    },
    Refused {
        number: u32,
        record: u64,
    },
}

/// Judges a whole file. Refusals 1 to 3 come first, then the first record at fault, 14 last.
pub fn check(line_end: u64, file: &[u8]) -> Answer {
    let records = match records_in(line_end, file.len() as u64) {
        Ok(records) => records as usize,
        Err(number) => return refused(number, 0),
    };
    let end = line_end_bytes(line_end).expect("refusal 1 came first");
    let mut reader = Reader::new(end);
    for (index, line) in file.chunks_exact(RECORD + end.len()).enumerate() {
        if let Err(number) = reader.take(line) {
            return refused(number, index + 1);
        }
    }
    if reader.open.is_some() {
        return refused(14, records);
    }
    Answer::Accepted {
        statements: reader.statements,
        movements: reader.movements,
        complements: reader.complements,
    }
}

/// The number of records in a file of that length, or the first of refusals 1 to 3 that applies.
pub fn records_in(line_end: u64, length: u64) -> Result<u64, u32> {
    let end = line_end_bytes(line_end).ok_or(1u32)?;
    let line_length = (RECORD + end.len()) as u64;
    require(length % line_length == 0, 2)?;
    let records = length / line_length;
    require(records <= MOST_RECORDS_IN_FILE, 3)?;
    Ok(records)
}

fn refused(number: u32, record: usize) -> Answer {
    Answer::Refused {
        number,
        record: record as u64,
    }
}

/// What stands after every record, or nothing for a line-end number that is none.
fn line_end_bytes(line_end: u64) -> Option<&'static [u8]> {
    match line_end {
        0 => Some(b""),
        1 => Some(b"\n"),
        2 => Some(b"\r\n"),
        _ => None,
    }
}

#[derive(Clone, Copy, PartialEq, Eq)]
enum Kind {
    Old,
    Movement,
    Complement,
    New,
}

/// A statement whose 07 has not come yet.
struct Open<'a> {
    /// Its 01, which sets the key.
    head: &'a [u8],
    old_date: u32,
    /// The latest of the old balance date and the booking dates so far.
    latest_date: u32,
    /// The old balance and all amounts so far.
    sum: i128,
    /// Records so far, the 01 included.
    records: u64,
    /// The last 04, to which a 05 belongs.
    movement: Option<&'a [u8]>,
    /// Whether that movement has its MMO.
    has_mmo: bool,
}

/// Goes through the file; keeps the counts and the open statement.
struct Reader<'a> {
    end: &'static [u8],
    open: Option<Open<'a>>,
    statements: u64,
    movements: u64,
    complements: u64,
}

impl<'a> Reader<'a> {
    fn new(end: &'static [u8]) -> Reader<'a> {
        Reader {
            end,
            open: None,
            statements: 0,
            movements: 0,
            complements: 0,
        }
    }

    /// Judges one line, lowest number first, and takes it in.
    fn take(&mut self, line: &'a [u8]) -> Result<(), u32> {
        let (record, after) = line.split_at(RECORD);
        rule_4_line_end(after, self.end)?;
        rule_5_permitted(record)?;
        let kind = rule_6_code(record)?;
        rule_7_place(kind, self.open.as_ref())?;
        let amount = rule_8_zones(kind, record)?;
        let date = rule_9_dates(kind, record)?;
        if let Some(open) = &self.open {
            rule_10_same(kind, record, open)?;
            rule_11_one_mmo(kind, record, open)?;
            rule_12_order(kind, date, open)?;
            rule_13_sum(kind, amount, open)?;
            rule_15_length(open)?;
        }
        self.enter(kind, record, date, amount);
        Ok(())
    }

    /// Takes in a record that is right.
    fn enter(&mut self, kind: Kind, record: &'a [u8], date: u32, amount: i128) {
        match (kind, &mut self.open) {
            (Kind::Movement, Some(open)) => {
                self.movements += 1;
                open.records += 1;
                open.latest_date = open.latest_date.max(date);
                open.sum += amount;
                open.movement = Some(record);
                open.has_mmo = false;
            }
            (Kind::Complement, Some(open)) => {
                self.complements += 1;
                open.records += 1;
                open.has_mmo |= is_mmo(record);
            }
            (Kind::New, _) => {
                self.statements += 1;
                self.open = None;
            }
            // An 01: rule 7 lets nothing else come here.
            _ => {
                self.open = Some(Open {
                    head: record,
                    old_date: date,
                    latest_date: date,
                    sum: amount,
                    records: 1,
                    movement: None,
                    has_mmo: false,
                });
            }
        }
    }
}

/// 4: wrong line end after a record.
fn rule_4_line_end(after: &[u8], end: &[u8]) -> Result<(), u32> {
    require(after == end, 4)
}

/// 5: byte not permitted, in the 120 bytes of the record.
fn rule_5_permitted(record: &[u8]) -> Result<(), u32> {
    require(record.iter().all(|byte| (0x20..=0x7E).contains(byte)), 5)
}

/// 6: unknown record code.
fn rule_6_code(record: &[u8]) -> Result<Kind, u32> {
    match zone(record, 1, 2) {
        b"01" => Ok(Kind::Old),
        b"04" => Ok(Kind::Movement),
        b"05" => Ok(Kind::Complement),
        b"07" => Ok(Kind::New),
        _ => Err(6),
    }
}

/// 7: outside a statement only an 01 has its place; inside none; a 05 needs a 04 before it.
fn rule_7_place(kind: Kind, open: Option<&Open>) -> Result<(), u32> {
    let in_place = match (kind, open) {
        (Kind::Old, None) => true,
        (Kind::Movement | Kind::New, Some(_)) => true,
        (Kind::Complement, Some(open)) => open.movement.is_some(),
        _ => false,
    };
    require(in_place, 7)
}

/// 8: zone against its table line, or amount not right. Gives the amount, 0 for a 05.
fn rule_8_zones(kind: Kind, record: &[u8]) -> Result<i128, u32> {
    require(common_zones(kind, record), 8)?;
    match kind {
        Kind::Old | Kind::New => require(balance_zones(record), 8)?,
        Kind::Movement => require(movement_zones(record), 8)?,
        Kind::Complement => {
            require(complement_zones(record), 8)?;
            return Ok(0);
        }
    }
    amount(zone(record, 91, 104)).ok_or(8)
}

/// Positions 3 to 40.
fn common_zones(kind: Kind, record: &[u8]) -> bool {
    let operations = match kind {
        Kind::Old | Kind::New => blank(zone(record, 8, 11)) && blank(zone(record, 33, 34)),
        Kind::Movement | Kind::Complement => letters_or_digits(zone(record, 33, 34)),
    };
    operations
        && digits(zone(record, 3, 7))
        && digits(zone(record, 12, 16))
        && letters(zone(record, 17, 19))
        && digits(zone(record, 20, 20))
        && blank(zone(record, 21, 21))
        && letters_or_digits(zone(record, 22, 32))
        && digits(zone(record, 35, 40))
}

/// Positions 41 to 120 of an 01 or 07 but the amount.
fn balance_zones(record: &[u8]) -> bool {
    blank(zone(record, 41, 90)) && blank(zone(record, 105, 120))
}

/// Positions 41 to 120 of a 04 but the amount. Label and reference take any permitted bytes.
fn movement_zones(record: &[u8]) -> bool {
    let reject_reason = zone(record, 41, 42);
    (digits(reject_reason) || blank(reject_reason))
        && digits(zone(record, 43, 48))
        && blank(zone(record, 80, 81))
        && digits(zone(record, 82, 88))
        && zone(record, 89, 90).iter().all(|b| b"01 ".contains(b))
}

/// Positions 41 to 120 of a 05. Information other than MMO takes any permitted bytes.
fn complement_zones(record: &[u8]) -> bool {
    blank(zone(record, 41, 45))
        && letters_or_digits(zone(record, 46, 48))
        && blank(zone(record, 119, 120))
        && (!is_mmo(record) || mmo_zones(record))
}

/// The information of an MMO.
fn mmo_zones(record: &[u8]) -> bool {
    letters(zone(record, 49, 51))
        && digits(zone(record, 52, 52))
        && digits(zone(record, 53, 66))
        && blank(zone(record, 67, 118))
}

/// 9: date that does not exist. Gives the date at 35-40; a 04's value date is only looked at.
fn rule_9_dates(kind: Kind, record: &[u8]) -> Result<u32, u32> {
    if kind == Kind::Movement {
        date(zone(record, 43, 48)).ok_or(9u32)?;
    }
    date(zone(record, 35, 40)).ok_or(9)
}

/// 10: key differs from the 01's, or a 05 from its 04.
fn rule_10_same(kind: Kind, record: &[u8], open: &Open) -> Result<(), u32> {
    let same = match (kind, open.movement) {
        (Kind::Complement, Some(movement)) => zone(record, 3, 40) == zone(movement, 3, 40),
        _ => same_key(record, open.head),
    };
    require(same, 10)
}

/// Bank, branch, currency, decimals, account.
fn same_key(a: &[u8], b: &[u8]) -> bool {
    zone(a, 3, 7) == zone(b, 3, 7)
        && zone(a, 12, 16) == zone(b, 12, 16)
        && zone(a, 17, 19) == zone(b, 17, 19)
        && zone(a, 20, 20) == zone(b, 20, 20)
        && zone(a, 22, 32) == zone(b, 22, 32)
}

/// 11: second MMO in a movement.
fn rule_11_one_mmo(kind: Kind, record: &[u8], open: &Open) -> Result<(), u32> {
    let second = kind == Kind::Complement && is_mmo(record) && open.has_mmo;
    require(!second, 11)
}

/// 12: a booking date before the old balance date, seen at the 04; a new balance date before
/// the old one or a booking date, seen at the 07.
fn rule_12_order(kind: Kind, date: u32, open: &Open) -> Result<(), u32> {
    match kind {
        Kind::Movement => require(date >= open.old_date, 12),
        Kind::New => require(date >= open.latest_date, 12),
        Kind::Old | Kind::Complement => Ok(()),
    }
}

/// 13: sum wrong, seen at the 07.
fn rule_13_sum(kind: Kind, amount: i128, open: &Open) -> Result<(), u32> {
    require(kind != Kind::New || open.sum == amount, 13)
}

/// 15: record that would be the statement's 10,000th.
fn rule_15_length(open: &Open) -> Result<(), u32> {
    require(open.records < MOST_RECORDS_IN_STATEMENT, 15)
}

/// The value of a signed amount of 14 bytes, or nothing if it is none. A zero may have either sign.
pub fn amount(zone: &[u8]) -> Option<i128> {
    let (&sign, thirteen) = zone.split_last()?;
    let (last, debit) = match sign {
        b'{' => (0, false),
        b'A'..=b'I' => (sign - b'A' + 1, false),
        b'}' => (0, true),
        b'J'..=b'R' => (sign - b'J' + 1, true),
        _ => return None,
    };
    if !digits(thirteen) {
        return None;
    }
    let value = i128::from(10 * number(thirteen) + u64::from(last));
    Some(if debit { -value } else { value })
}

/// A date of six digits DDMMYY as the number YYYYMMDD, or nothing if the day does not exist.
pub fn date(zone: &[u8]) -> Option<u32> {
    let day = number(&zone[0..2]) as u32;
    let month = number(&zone[2..4]) as u32;
    let year = match number(&zone[4..6]) as u32 {
        yy @ 0..=79 => 2000 + yy,
        yy => 1900 + yy,
    };
    let exists = day >= 1 && day <= days_in_month(month, year);
    exists.then_some(10_000 * year + 100 * month + day)
}

/// 0 for a month that does not exist. From 1980 to 2079 every fourth year is a leap year.
fn days_in_month(month: u32, year: u32) -> u32 {
    match month {
        1 | 3 | 5 | 7 | 8 | 10 | 12 => 31,
        4 | 6 | 9 | 11 => 30,
        2 if year % 4 == 0 => 29,
        2 => 28,
        _ => 0,
    }
}

fn is_mmo(record: &[u8]) -> bool {
    zone(record, 46, 48) == b"MMO"
}

/// The bytes from position `first` to position `last`.
pub fn zone(record: &[u8], first: usize, last: usize) -> &[u8] {
    &record[first - 1..last]
}

fn digits(zone: &[u8]) -> bool {
    zone.iter().all(u8::is_ascii_digit)
}

fn letters(zone: &[u8]) -> bool {
    zone.iter().all(u8::is_ascii_uppercase)
}

fn letters_or_digits(zone: &[u8]) -> bool {
    zone.iter()
        .all(|byte| byte.is_ascii_uppercase() || byte.is_ascii_digit())
}

fn blank(zone: &[u8]) -> bool {
    zone.iter().all(|&byte| byte == b' ')
}

/// The value of decimal digits.
pub fn number(digits: &[u8]) -> u64 {
    digits
        .iter()
        .fold(0, |value, digit| 10 * value + u64::from(digit - b'0'))
}

fn require(right: bool, number: u32) -> Result<(), u32> {
    if right {
        Ok(())
    } else {
        Err(number)
    }
}
