//! Values, the records this test writes from them with its own code, and the values read back.

mod outcomes;
mod zeros;

use oracle::check::{check, Answer};
use oracle::damage::{giants, recipes};
use oracle::listing::{listing, MOST_BYTES};
use oracle::listing_cases::listing_cases;
use oracle::read::{
    complement, head, movement, place, statements, Head, Key, Movement, Place, Refusal, Row,
    Statement,
};
use oracle::rng::Rng;
use oracle::valid::small_file;
use oracle::write::{damaged_case, valid_case};
use outcomes::outcomes;
use zeros::signed;

const MOST: i128 = 99_999_999_999_999;

/// The values made here are read back, whole and one by one.
#[test]
fn values_are_read_back() {
    let mut rng = Rng::new(11);
    for number in 0..2_000 {
        let line_end = number % 3;
        let values = values(&mut rng, line_end);
        let file = write(&values, line_end);
        assert_eq!(statements(line_end, &file).as_ref(), Ok(&values));
        assert_readers(line_end, &file, &values);
    }
}

/// The other generator's files are the same after reading and writing, but that zeros are credits.
#[test]
fn files_are_written_back() {
    let mut rng = Rng::new(12);
    let mut changed = 0;
    for _ in 0..3_000 {
        let case = valid_case(&mut rng);
        let read = statements(case.line_end, &case.bytes).unwrap();
        let written = write(&read, case.line_end);
        assert_eq!(written, signed(case.line_end, &case.bytes, b'{'));
        changed += u64::from(written != case.bytes);
    }
    assert!((1_000..2_000).contains(&changed), "{changed}");
}

/// All fields of a file are the same with either zero.
#[test]
fn either_zero_reads_alike() {
    let mut rng = Rng::new(16);
    for _ in 0..2_000 {
        let draft = small_file(&mut rng);
        let file = draft.bytes();
        let read = statements(draft.line_end, &file).unwrap();
        for sign in [b'{', b'}'] {
            let other = signed(draft.line_end, &file, sign);
            assert_eq!(statements(draft.line_end, &other).unwrap(), read);
        }
    }
}

#[test]
fn readers_agree_on_generated_files() {
    let mut rng = Rng::new(13);
    for _ in 0..300 {
        let draft = small_file(&mut rng);
        let file = draft.bytes();
        let read = statements(draft.line_end, &file).unwrap();
        assert_readers(draft.line_end, &file, &read);
    }
}

/// Each reader, at every number, at 0 and one past the last.
fn assert_readers(line_end: u64, file: &[u8], values: &[Statement]) {
    for k in [0, values.len() as u64 + 1] {
        assert_eq!(outcomes(line_end, file, [k, 1, 1]), [refused(16); 4]);
    }
    for (k, statement) in (1..).zip(values) {
        let movements = statement.movements.len() as u64;
        assert_eq!(place(line_end, file, k), Ok(statement.place));
        assert_eq!(head(line_end, file, k), Ok((statement.head, movements)));
        for m in [0, movements + 1] {
            assert_eq!(movement(line_end, file, k, m), refused(17));
            assert_eq!(complement(line_end, file, k, m, 1), refused(17));
        }
        for (m, value) in (1..).zip(&statement.movements) {
            assert_eq!(movement(line_end, file, k, m), Ok(value.row));
            for c in [0, value.complements.len() as u64 + 1] {
                assert_eq!(complement(line_end, file, k, m, c), refused(17));
            }
            for (c, bytes) in (1..).zip(&value.complements) {
                assert_eq!(complement(line_end, file, k, m, c), Ok(*bytes));
            }
        }
    }
}

/// Every reader gives the file's refusal first, whatever the numbers.
#[test]
fn the_refusal_of_the_file_comes_first() {
    let mut rng = Rng::new(14);
    let (small, large) = (recipes(), giants());
    let mut refusals = 0;
    for number in 0..3_000 {
        let turn = number / 100 % large.len();
        let list = match number % 100 {
            0 => &large[turn..=turn],
            _ => &small[..],
        };
        let case = damaged_case(&mut rng, list);
        if let Answer::Refused { number, record } = check(case.line_end, &case.bytes) {
            refusals += 1;
            let refusal = Refusal { number, record };
            for numbers in [[0, 0, 0], [1, 1, 1], [u64::MAX; 3]] {
                let outcomes = outcomes(case.line_end, &case.bytes, numbers);
                assert_eq!(outcomes, [Err(refusal); 4], "{}", case.name);
            }
        }
    }
    assert!(refusals > 2_000);
}

/// The listing of the cases that are written out, against what their recipes say.
#[test]
fn listing_cases_get_the_output_they_expect() {
    let cases = listing_cases(15, 900);
    assert_eq!(cases.len(), 900);
    for case in cases {
        let output = listing(&case.bytes);
        if case.bytes.len() > MOST_BYTES {
            assert_eq!(output, "TROP LONG\n");
            continue;
        }
        match case.expected.unwrap_or(check(1, &case.bytes)) {
            Answer::Refused { number, record } => {
                assert_eq!(output, format!("REFUS {number} {record}\n"));
            }
            Answer::Accepted {
                statements,
                movements,
                ..
            } => {
                assert!(output.ends_with(&format!("OK {statements}\n")));
                let lines = |start| output.lines().filter(|l| l.starts_with(start)).count() as u64;
                assert_eq!((lines("S "), lines("M ")), (statements, movements));
                assert_eq!(lines(""), statements + movements + 1);
            }
        }
    }
}

fn refused<T>(number: u32) -> Result<T, Refusal> {
    Err(Refusal { number, record: 0 })
}

// Values at random. Their bytes are leaked, so that they need no owner.

/// Up to five statements, with the places they will have in the file.
fn values(rng: &mut Rng, line_end: u64) -> Vec<Statement<'static>> {
    let mut first = 0;
    (0..rng.below(6))
        .map(|_| {
            let statement = statement(rng, first, 120 + line_end as usize);
            first += statement.place.length;
            statement
        })
        .collect()
}

fn statement(rng: &mut Rng, first: usize, line_length: usize) -> Statement<'static> {
    let count = rng.index(5);
    // Of all dates drawn, the first is the old one and the last the new one.
    let mut dates: Vec<u32> = (0..count + 2).map(|_| date(rng)).collect();
    dates.sort_unstable();
    let (old_date, new_date) = (dates[0], dates[count + 1]);
    let movements: Vec<Movement> = (0..count)
        .map(|_| {
            let booked = rng.pick(&dates);
            some_movement(rng, booked)
        })
        .collect();
    let sum: i128 = movements.iter().map(|movement| movement.row.amount).sum();
    let old_balance = old_balance(rng, sum);
    let complements: usize = movements.iter().map(|m| m.complements.len()).sum();
    Statement {
        place: Place {
            first,
            length: (2 + count + complements) * line_length,
        },
        head: Head {
            key: key(rng),
            old_date,
            old_balance,
            new_date,
            new_balance: old_balance + sum,
        },
        movements,
    }
}

/// One from which the new balance still has 14 digits.
fn old_balance(rng: &mut Rng, sum: i128) -> i128 {
    let balance = amount(rng);
    if (balance + sum).abs() <= MOST {
        balance
    } else {
        -sum
    }
}

fn key(rng: &mut Rng) -> Key<'static> {
    Key {
        bank: bytes(rng, DIGITS, 5),
        branch: bytes(rng, DIGITS, 5),
        currency: bytes(rng, LETTERS, 3),
        decimals: rng.byte(b'0', b'9'),
        account: bytes(rng, BOTH, 11),
    }
}

fn some_movement(rng: &mut Rng, booked: u32) -> Movement<'static> {
    let complements = some_complements(rng);
    let row = Row {
        internal: text(rng, 4),
        code: bytes(rng, BOTH, 2),
        booked,
        reject: if rng.one_in(2) {
            b"  "
        } else {
            bytes(rng, DIGITS, 2)
        },
        value: date(rng),
        label: text(rng, 31),
        entry: rng.below(10_000_000),
        exempt: rng.pick(b"01 "),
        unavailable: rng.pick(b"01 "),
        amount: amount(rng),
        reference: text(rng, 16),
        complements: complements.len() as u64,
    };
    Movement { row, complements }
}

/// At most four, an MMO in any place or none.
fn some_complements(rng: &mut Rng) -> Vec<&'static [u8]> {
    let mmo = rng.below(6);
    (0..rng.below(5))
        .map(|number| {
            let bytes = if number == mmo {
                let (currency, digits) = (bytes(rng, LETTERS, 3), bytes(rng, DIGITS, 15));
                [b"MMO", currency, digits, &[b' '; 52]].concat()
            } else {
                [bytes(rng, b"ABCXYZ0129", 3), text(rng, 70)].concat()
            };
            assert_eq!(bytes.len(), 73);
            bytes.leak() as &[u8]
        })
        .collect()
}

/// YYYYMMDD, the ends of months and of the century among them.
fn date(rng: &mut Rng) -> u32 {
    const SPECIAL: [u32; 8] = [
        19800101, 19991231, 20000101, 20000229, 20240229, 20250131, 20791231, 20161031,
    ];
    if rng.one_in(4) {
        return rng.pick(&SPECIAL);
    }
    let (year, month, day) = (1980 + rng.below(100), 1 + rng.below(12), 1 + rng.below(28));
    (10_000 * year + 100 * month + day) as u32
}

/// Of any length up to 13 digits, so that five of them have 14; credit or debit.
fn amount(rng: &mut Rng) -> i128 {
    let length = rng.below(13) as u32;
    let size = i128::from(rng.below(10_u64.pow(length) + 1));
    if rng.one_in(2) {
        -size
    } else {
        size
    }
}

const DIGITS: &[u8] = b"0123456789";
const LETTERS: &[u8] = b"ABCDEFGHIJKLMNOPQRSTUVWXYZ";
const BOTH: &[u8] = b"ABCDEFGHIJKLMNOPQRSTUVWXYZ0123456789";

fn bytes(rng: &mut Rng, of: &[u8], length: usize) -> &'static [u8] {
    (0..length)
        .map(|_| rng.pick(of))
        .collect::<Vec<u8>>()
        .leak()
}

/// Any permitted bytes, or blanks only.
fn text(rng: &mut Rng, length: usize) -> &'static [u8] {
    let permitted: Vec<u8> = (0x20..=0x7E).collect();
    match rng.below(5) {
        0 => bytes(rng, b" ", length),
        1 => bytes(rng, b" A|", length),
        _ => bytes(rng, &permitted, length),
    }
}

// The records of values, zone after zone from position 1 to 120.

fn write(statements: &[Statement], line_end: u64) -> Vec<u8> {
    let end: &[u8] = match line_end {
        0 => b"",
        1 => b"\n",
        _ => b"\r\n",
    };
    let mut file = Vec::new();
    for statement in statements {
        for record in records(statement) {
            assert_eq!(record.len(), 120);
            file.extend(record);
            file.extend(end);
        }
    }
    file
}

fn records(statement: &Statement) -> Vec<Vec<u8>> {
    let head = &statement.head;
    let mut records = vec![balance_record(
        b"01",
        &head.key,
        head.old_date,
        head.old_balance,
    )];
    for movement in &statement.movements {
        records.push(movement_record(&head.key, &movement.row));
        for complement in &movement.complements {
            records.push(complement_record(&head.key, &movement.row, complement));
        }
    }
    records.push(balance_record(
        b"07",
        &head.key,
        head.new_date,
        head.new_balance,
    ));
    records
}

fn balance_record(code: &[u8], key: &Key, date: u32, amount: i128) -> Vec<u8> {
    [
        start(code, key, b"    ", b"  ", date),
        vec![b' '; 50],
        amount_bytes(amount),
        vec![b' '; 16],
    ]
    .concat()
}

fn movement_record(key: &Key, row: &Row) -> Vec<u8> {
    [
        &start(b"04", key, row.internal, row.code, row.booked),
        row.reject,
        &date_bytes(row.value),
        row.label,
        b"  ",
        format!("{:07}", row.entry).as_bytes(),
        &[row.exempt, row.unavailable],
        &amount_bytes(row.amount),
        row.reference,
    ]
    .concat()
}

fn complement_record(key: &Key, row: &Row, complement: &[u8]) -> Vec<u8> {
    [
        &start(b"05", key, row.internal, row.code, row.booked),
        b"     ".as_slice(),
        complement,
        b"  ",
    ]
    .concat()
}

/// Positions 1 to 40.
fn start(code: &[u8], key: &Key, internal: &[u8], operation: &[u8], date: u32) -> Vec<u8> {
    [
        code,
        key.bank,
        internal,
        key.branch,
        key.currency,
        &[key.decimals, b' '],
        key.account,
        operation,
        &date_bytes(date),
    ]
    .concat()
}

/// YYYYMMDD as DDMMYY.
fn date_bytes(date: u32) -> Vec<u8> {
    let text = date.to_string();
    [&text[6..8], &text[4..6], &text[2..4]]
        .concat()
        .into_bytes()
}

fn amount_bytes(amount: i128) -> Vec<u8> {
    let signs = if amount < 0 {
        "}JKLMNOPQR"
    } else {
        "{ABCDEFGHI"
    };
    let size = amount.unsigned_abs();
    let sign = signs.as_bytes()[(size % 10) as usize];
    let mut bytes = format!("{:013}", size / 10).into_bytes();
    bytes.push(sign);
    bytes
}
