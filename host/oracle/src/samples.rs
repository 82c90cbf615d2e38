//! Sample files with readable content: an estate's account over three months, one of them corrected,
//! a loan beside it, an account at nil with either zero, a month that ends on a Sunday, and one file
//! for each of the commonest refusals. They are fixed: no seed.

use std::fs;
use std::io;
use std::path::Path;

use crate::check::check;
use crate::record::{is_nil, line_end, plain, put, write_amount, CREDIT_ZERO, DEBIT_ZERO, RECORD};
use crate::write::answer_text;

const NONE: u64 = 0;
const LF: u64 = 1;
const CRLF: u64 = 2;

/// A sample: its file name, the line-end number to read it with, its bytes.
pub struct Sample {
    pub name: &'static str,
    pub line_end: u64,
    pub bytes: Vec<u8>,
}

/// A movement as the samples write it. The date is the booking date and the value date.
struct Movement {
    code: &'static str,
    date: &'static str,
    label: &'static str,
    entry: u32,
    amount: i64,
    /// Positions 46 to 118 of its 05, where it has one.
    complement: Option<&'static str>,
}

/// A statement of one month. Dates are DDMMYY.
struct Month {
    account: &'static str,
    old_date: &'static str,
    old_balance: i64,
    new_date: &'static str,
    movements: Vec<Movement>,
}

type Records = Vec<Vec<u8>>;

fn movement(code: &'static str, date: &'static str, label: &'static str, amount: i64) -> Movement {
    Movement {
        code,
        date,
        label,
        entry: 0,
        amount,
        complement: None,
    }
}

fn cheque(date: &'static str, label: &'static str, entry: u32, amount: i64) -> Movement {
    Movement {
        entry,
        ..movement("01", date, label, amount)
    }
}

fn receipt(date: &'static str, amount: i64, complement: &'static str) -> Movement {
    Movement {
        complement: Some(complement),
        ..movement("05", date, "VIREMENT COOPERATIVE", amount)
    }
}

fn balance(kind: &str, account: &str, date: &str, value: i64) -> Vec<u8> {
    let mut record = plain(kind, account, date);
    put(&mut record, 91, &write_amount(value));
    record
}

/// The 04 of a movement and, where it has one, its 05.
fn movement_records(account: &str, movement: &Movement) -> Records {
    let mut first = plain("04", account, movement.date);
    put(&mut first, 33, movement.code.as_bytes());
    let mut second = first.clone();
    put(&mut first, 43, movement.date.as_bytes());
    put(&mut first, 49, movement.label.as_bytes());
    put(&mut first, 82, format!("{:07}", movement.entry).as_bytes());
    put(&mut first, 89, b"00");
    put(&mut first, 91, &write_amount(movement.amount));
    match movement.complement {
        None => vec![first],
        Some(text) => {
            put(&mut second, 1, b"05");
            put(&mut second, 46, text.as_bytes());
            vec![first, second]
        }
    }
}

fn statement(month: &Month) -> Records {
    let sum: i64 = month.movements.iter().map(|movement| movement.amount).sum();
    let (account, new_balance) = (month.account, month.old_balance + sum);
    let mut records = vec![balance("01", account, month.old_date, month.old_balance)];
    for movement in &month.movements {
        records.append(&mut movement_records(account, movement));
    }
    records.push(balance("07", account, month.new_date, new_balance));
    records
}

/// The account of the estate, January 2025: records 1 to 7 are 01, 04, 05, 04, 04, 04, 07.
fn january() -> Records {
    statement(&Month {
        account: "00012345678",
        old_date: "311224",
        old_balance: 1_250_000,
        new_date: "310125",
        movements: vec![
            receipt("060125", 842_350, "LIBNOISETTES LIVRAISON DECEMBRE"),
            movement("08", "100125", "PRLV EAU", -18_640),
            cheque("170125", "CHEQUE 0000123", 123, -96_000),
            movement("06", "310125", "VIREMENT SALAIRES", -415_000),
        ],
    })
}

/// The same form of records as January.
fn february() -> Records {
    february_with_electricity(-64_217)
}

/// The bank had booked the digits of one amount in the wrong order.
fn corrected_february() -> Records {
    february_with_electricity(-46_217)
}

fn february_with_electricity(amount: i64) -> Records {
    statement(&Month {
        account: "00012345678",
        old_date: "310125",
        old_balance: 1_562_710,
        new_date: "280225",
        movements: vec![
            receipt("050225", 917_525, "LIBNOISETTES LIVRAISON JANVIER"),
            movement("08", "100225", "PRLV EAU", -18_640),
            movement("08", "140225", "PRLV ELECTRICITE", amount),
            movement("06", "280225", "VIREMENT SALAIRES", -415_000),
        ],
    })
}

/// The receipt came in dollars, as its complement tells.
fn march() -> Records {
    statement(&Month {
        account: "00012345678",
        old_date: "280225",
        old_balance: 1_982_378,
        new_date: "310325",
        movements: vec![
            receipt("050325", 1_250_000, "MMOUSD200000001350000"),
            movement("08", "100325", "PRLV EAU", -19_210),
            cheque("120325", "CHEQUE 0000124", 124, -230_000),
            movement("06", "310325", "VIREMENT SALAIRES", -415_000),
        ],
    })
}

/// A loan of the season: its balance is a debit.
fn loan(old_date: &'static str, old_balance: i64, new_date: &'static str) -> Records {
    statement(&Month {
        account: "00087654321",
        old_date,
        old_balance,
        new_date,
        movements: vec![movement("05", new_date, "REMBOURSEMENT CREDIT", 250_000)],
    })
}

/// An account that is kept empty, January and February 2025: no movement, then two that cancel out.
/// The bank writes its zeros so.
fn at_nil(zero: &[u8]) -> Records {
    let month = |old_date, new_date, movements| {
        statement(&Month {
            account: "00011122233",
            old_date,
            old_balance: 0,
            new_date,
            movements,
        })
    };
    let movements = vec![
        receipt("120225", 318_400, "LIBNOISETTES SOLDE RECOLTE"),
        movement("06", "130225", "VIREMENT COMPTE PRINCIPAL", -318_400),
    ];
    let january = month("311224", "310125", Vec::new());
    let mut records = [january, month("310125", "280225", movements)].concat();
    for record in records.iter_mut().filter(|record| is_nil(record)) {
        put(record, 91, zero);
    }
    records
}

/// The estate's November 2025, whose bank closes it on Friday the 28th.
fn november() -> Records {
    statement(&Month {
        account: "00012345678",
        old_date: "311025",
        old_balance: 2_104_600,
        new_date: "281125",
        movements: vec![
            movement("08", "101125", "PRLV EAU", -19_210),
            receipt("181125", 1_386_000, "LIBNOISETTES RECOLTE 2025"),
            movement("06", "281125", "VIREMENT SALAIRES", -415_000),
        ],
    })
}

/// Its December, which opens with Sunday the 30th.
fn december() -> Records {
    statement(&Month {
        account: "00012345678",
        old_date: "301125",
        old_balance: 3_056_390,
        new_date: "311225",
        movements: vec![
            movement("08", "101225", "PRLV EAU", -19_210),
            movement("06", "311225", "VIREMENT SALAIRES", -415_000),
        ],
    })
}

/// Records with a line end after each.
fn file(number: u64, records: &[Vec<u8>]) -> Vec<u8> {
    let lines = records
        .iter()
        .map(|record| [&record[..], line_end(number)].concat());
    lines.collect::<Vec<_>>().concat()
}

fn sample(name: &'static str, line_end: u64, statements: &[Records]) -> Sample {
    Sample {
        name,
        line_end,
        bytes: file(line_end, &statements.concat()),
    }
}

/// A file with LF of one statement after a change.
fn changed(name: &'static str, mut records: Records, change: fn(&mut Records)) -> Sample {
    change(&mut records);
    sample(name, LF, &[records])
}

fn accepted() -> Vec<Sample> {
    let loan_january = loan("311224", -5_000_000, "310125");
    let loan_february = loan("310125", -4_750_000, "280225");
    let interleaved = [january(), loan_january, february(), loan_february];
    vec![
        sample(
            "estate-three-months.cfonb",
            LF,
            &[january(), february(), march()],
        ),
        sample("estate-2025-01.cfonb", NONE, &[january()]),
        sample("estate-2025-02.cfonb", LF, &[february()]),
        sample("estate-2025-03.cfonb", CRLF, &[march()]),
        sample(
            "estate-2025-02-corrected.cfonb",
            LF,
            &[corrected_february()],
        ),
        sample("two-accounts.cfonb", CRLF, &interleaved),
        sample("estate-at-nil.cfonb", LF, &[at_nil(DEBIT_ZERO)]),
        sample("estate-at-nil-again.cfonb", LF, &[at_nil(CREDIT_ZERO)]),
        sample(
            "estate-sunday-month-end.cfonb",
            LF,
            &[november(), december()],
        ),
    ]
}

/// The file as a whole: cut, or with a wrong byte in the place of a line end.
fn refused_for_its_lines() -> Vec<Sample> {
    let mut cut = sample("refused-02-cut.cfonb", LF, &[january()]);
    cut.bytes.truncate(cut.bytes.len() - 30);
    let mut line_end = sample("refused-04-line-end.cfonb", LF, &[january()]);
    line_end.bytes[4 * (RECORD + 1) - 1] = b' ';
    vec![cut, line_end]
}

/// One record changed, left out or put in.
fn refused_for_a_record() -> Vec<Sample> {
    vec![
        changed("refused-05-byte.cfonb", february(), |records| {
            put(&mut records[4], 49, b"PRLV \xC9LECTRICIT\xC9");
        }),
        changed("refused-07-out-of-place.cfonb", january(), |records| {
            records.remove(1);
        }),
        changed("refused-08-amount.cfonb", january(), |records| {
            put(&mut records[4], 91, b"00000000096000");
        }),
        changed("refused-09-date.cfonb", february(), |records| {
            put(&mut records[3], 43, b"300225");
        }),
        changed("refused-10-other-account.cfonb", january(), |records| {
            put(&mut records[4], 22, b"00087654321");
        }),
        changed("refused-12-booked-before.cfonb", january(), |records| {
            put(&mut records[3], 35, b"301224");
        }),
        changed("refused-13-movement-missing.cfonb", january(), |records| {
            records.remove(4);
        }),
        changed("refused-14-no-end.cfonb", january(), |records| {
            records.pop();
        }),
    ]
}

/// All samples, in the order of their list.
pub fn samples() -> Vec<Sample> {
    let gap = sample("refused-22-month-missing.cfonb", LF, &[january(), march()]);
    let mut all = accepted();
    all.append(&mut refused_for_its_lines());
    all.append(&mut refused_for_a_record());
    all.push(gap);
    all
}

/// Writes the samples to a directory and lists them with the answers of the check.
pub fn write_samples(directory: &Path) -> io::Result<Vec<String>> {
    fs::create_dir_all(directory)?;
    let mut lines = Vec::new();
    for sample in samples() {
        fs::write(directory.join(sample.name), &sample.bytes)?;
        let answer = answer_text(check(sample.line_end, &sample.bytes));
        lines.push(format!("{}\t{}\t{answer}", sample.name, sample.line_end));
    }
    Ok(lines)
}
