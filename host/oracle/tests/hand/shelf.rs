//! Hand-built journals: the worked account's statements of three months, and their entries
//! written out.

use crate::common::{balance, movement, worked, Sheet};
use oracle::delivery::{deliver, Delivered, Expected, NotDelivered};
use oracle::read::Refusal;

/// The entries of the three months, each with its first line at the end of another.
pub const FEBRUARY: &str = "1234500010EUR20001234567A3101252802250000000004";
pub const MARCH: &str = "1234500010EUR20001234567A2802253103250000040003";
pub const APRIL: &str = "1234500010EUR20001234567A3103253004250000070002";
pub const KEY: &[u8] = b"1234500010EUR20001234567A";
pub const KEY_B: &[u8] = b"1234500010EUR20001234567B";

/// Four records, 100000 on 310125 to 120833 on 280225.
pub fn february() -> Sheet {
    worked()
}

/// Three records, to 121833 on 310325.
pub fn march() -> Sheet {
    Sheet(vec![
        balance("01", "280225", "0000000012083C"),
        movement("05", "100325", "100325", "0000000000100{"),
        balance("07", "310325", "0000000012183C"),
    ])
}

/// Two records, to 121833 on 300425.
pub fn april() -> Sheet {
    Sheet(vec![
        balance("01", "310325", "0000000012183C"),
        balance("07", "300425", "0000000012183C"),
    ])
}

/// A statement that ends on the day and with the balance it begins with.
pub fn standstill() -> Sheet {
    Sheet(vec![
        balance("01", "300425", "0000000012183C"),
        balance("07", "300425", "0000000012183C"),
    ])
}

/// Another such statement, with a movement of nothing.
pub fn other_standstill() -> Sheet {
    standstill().with(2, movement("05", "300425", "300425", "0000000000000{"))
}

/// The same statements of another account number.
pub fn of_account(account: &str, mut sheet: Sheet) -> Sheet {
    for record in &mut sheet.0 {
        record[21..32].copy_from_slice(account.as_bytes());
    }
    sheet
}

/// The same statements of account 0001234567B.
pub fn b(sheet: Sheet) -> Sheet {
    of_account("0001234567B", sheet)
}

/// A journal of so many lines with these entries, 47 bytes each, and these bodies.
pub fn journal(lines: usize, entries: &[&str], bodies: &[Sheet]) -> Vec<u8> {
    let mut table = String::new();
    for entry in entries {
        assert_eq!(entry.len(), 47);
        table += &format!("{entry:60}");
    }
    let mut body = Vec::new();
    for sheet in bodies {
        body.append(&mut sheet.bytes(b""));
    }
    assert!(body.len() <= 120 * lines);
    body.resize(120 * lines, b' ');
    [format!("{table:7680}").into_bytes(), body].concat()
}

/// A journal with nothing in it.
pub fn blank(lines: usize) -> Vec<u8> {
    journal(lines, &[], &[])
}

/// The three months in a journal of 12 lines.
pub fn three_months() -> Vec<u8> {
    journal(
        12,
        &[FEBRUARY, MARCH, APRIL],
        &[february(), march(), april()],
    )
}

/// So many accounts with the two records of April each; the number is their account number.
pub fn accounts(count: usize, lines: usize) -> Vec<u8> {
    let entry = |number: usize| {
        format!(
            "1234500010EUR2{number:011}310325300425{:06}0002",
            2 * number
        )
    };
    let entries: Vec<String> = (0..count).map(entry).collect();
    let entries: Vec<&str> = entries.iter().map(String::as_str).collect();
    let bodies: Vec<Sheet> = (0..count).map(numbered_account).collect();
    journal(lines, &entries, &bodies)
}

/// April of the account with that number.
pub fn numbered_account(number: usize) -> Sheet {
    of_account(&format!("{number:011}"), april())
}

/// The same with bytes put at an offset from 0.
pub fn with(mut journal: Vec<u8>, offset: usize, bytes: &[u8]) -> Vec<u8> {
    journal[offset..offset + bytes.len()].copy_from_slice(bytes);
    journal
}

/// A file of these statements, one after another.
pub fn file(sheets: &[Sheet], line_end: u64) -> Vec<u8> {
    let ends: [&[u8]; 3] = [b"", b"\n", b"\r\n"];
    let bytes = sheets
        .iter()
        .map(|sheet| sheet.bytes(ends[line_end as usize]));
    bytes.collect::<Vec<_>>().concat()
}

/// Delivers statements with each line end to a copy of the journal. Gives the one answer and the
/// journal after it; a refusal has left it as it was.
pub fn answered(journal: &[u8], sheets: &[Sheet]) -> (Result<Delivered, NotDelivered>, Vec<u8>) {
    let outcomes = [0, 1, 2].map(|line_end| {
        let mut copy = journal.to_vec();
        let answer = deliver(&mut copy, line_end, &file(sheets, line_end));
        (answer, copy)
    });
    assert_eq!(outcomes[0], outcomes[1]);
    assert_eq!(outcomes[0], outcomes[2]);
    let [(answer, after), ..] = outcomes;
    if answer.is_err() {
        assert!(after == journal);
    }
    (answer, after)
}

/// The same without what was expected. That is nothing where the refusal is not 22.
pub fn delivered(journal: &[u8], sheets: &[Sheet]) -> (Result<Delivered, Refusal>, Vec<u8>) {
    let (answer, after) = answered(journal, sheets);
    let answer = answer.map_err(|NotDelivered { refusal, expected }| {
        let does_not_follow = refusal.number == 22;
        assert_eq!(expected.date != 0, does_not_follow);
        assert!(does_not_follow || expected.balance == 0);
        refusal
    });
    (answer, after)
}

pub fn stored<E>(stored: u64, held: u64) -> Result<Delivered, E> {
    Ok(Delivered { stored, held })
}

/// 22 at that record, with what was expected.
pub fn expecting(record: u64, date: u32, balance: i128) -> Result<Delivered, NotDelivered> {
    Err(NotDelivered {
        refusal: Refusal { number: 22, record },
        expected: Expected { date, balance },
    })
}

/// A refusal of any call; of a delivery one with which nothing was expected.
pub fn refusal<T, E: From<Refusal>>(number: u32, record: u64) -> Result<T, E> {
    Err(Refusal { number, record }.into())
}
