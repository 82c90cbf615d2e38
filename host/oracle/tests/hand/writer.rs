//! The writer and the lent table (readings C and D), expected records and answers derived by hand.

use crate::common::{
    balance, complement, empty_statement, long_statement, movement, with_complements, worked,
    Sheet, MMO,
};
use oracle::read::Refusal;
use oracle::table_cases::{edges, worked as worked_values};
use oracle::values::{Row, Values};
use oracle::writer::{exists, movements, write_statement};

const MOST: i64 = 99_999_999_999_999;

fn refused<T>(number: u32) -> Result<T, Refusal> {
    Err(Refusal { number, record: 0 })
}

/// Writes to exactly so many bytes of dots; they stay where the answer is a refusal.
fn write_to(values: &Values, bytes: usize) -> (Result<u64, Refusal>, Vec<u8>) {
    let mut out = vec![b'.'; bytes];
    let Values {
        head,
        rows,
        complements,
    } = values;
    let answer = write_statement(head, rows, complements, &mut out);
    (answer, out)
}

/// What is written, of values that are right.
fn written(values: &Values) -> Vec<u8> {
    let (answer, mut out) = write_to(values, 2_000_000);
    let length = answer.unwrap() as usize;
    assert!(out.split_off(length).iter().all(|&byte| byte == b'.'));
    out
}

/// Whether these values are refused with 19, whatever the length of the output.
fn impossible(values: &Values) -> bool {
    let none = write_to(values, 0) == (refused(19), Vec::new());
    let enough = write_to(values, 2_000_000);
    assert_eq!(enough.0 == refused(19), none);
    none && enough.1.iter().all(|&byte| byte == b'.')
}

fn changed(change: impl Fn(&mut Values)) -> Values {
    let mut values = worked_values();
    change(&mut values);
    values
}

/// The first movement has these complements, 70 bytes of information each.
fn complemented(list: &[(&str, &str)]) -> Values {
    let bytes = |(qualifier, information): &(&str, &str)| format!("{qualifier}{information:70}");
    changed(|values| {
        values.rows[0].complements = list.len() as u64;
        values.complements = list.iter().map(bytes).collect::<String>().into_bytes();
    })
}

#[test]
fn the_worked_example_is_written() {
    assert_eq!(written(&worked_values()), worked().bytes(b""));
}

#[test]
fn complements_are_written() {
    let list = [("LIB", "VIREMENT RECU"), ("MMO", MMO), ("NPY", "UN CLIENT")];
    let values = complemented(&list);
    assert_eq!(written(&values), with_complements().bytes(b""));
}

#[test]
fn complements_follow_their_movement() {
    let mut values = complemented(&[("LIB", "A"), ("000", "~"), ("MMO", MMO)]);
    (values.rows[0].complements, values.rows[1].complements) = (1, 2);
    let sheet = worked()
        .with(3, complement("05", "050225", "LIB", "A"))
        .with(5, complement("08", "070225", "000", "~"))
        .with(6, complement("08", "070225", "MMO", MMO));
    assert_eq!(written(&values), sheet.bytes(b""));
}

/// Every zone of a 04, and the two that a 05 shares with it.
#[test]
fn every_zone_has_its_place() {
    let mut values = complemented(&[("Z9A", " x ")]);
    let row = &mut values.rows[0];
    row.internal = *b"a| 1";
    row.code = *b"A3";
    row.reject = *b"57";
    row.value = 20791231;
    row.label = *b" VIREMENT  de 'X' {~}  123     ";
    row.entry = 12_345;
    (row.exempt, row.unavailable) = (b' ', b'1');
    row.reference = *b" REF|0001  z ~  ";
    let four = concat!(
        "0412345a| 100010EUR2 0001234567AA3050225",
        "57311279 VIREMENT  de 'X' {~}  123       ",
        "0012345 10000000002505{ REF|0001  z ~  "
    );
    let five = format!(
        "0512345a| 100010EUR2 0001234567AA3050225     Z9A{:70}  ",
        " x "
    );
    let (four, five) = (four.as_bytes().to_vec(), five.into_bytes());
    let sheet = worked().without(2).with(2, four).with(3, five);
    assert_eq!(written(&values), sheet.bytes(b""));
}

#[test]
fn amounts_are_written() {
    for (amount, zone) in [
        (0, "0000000000000{"),
        (1, "0000000000000A"),
        (9, "0000000000000I"),
        (10, "0000000000001{"),
        (100_000, "0000000010000{"),
        (MOST, "9999999999999I"),
        (-1, "0000000000000J"),
        (-9, "0000000000000R"),
        (-10, "0000000000001}"),
        (-4_217, "0000000000421P"),
        (-MOST, "9999999999999R"),
    ] {
        let values = changed(|values| {
            values.rows.truncate(1);
            values.rows[0].amount = amount;
            (values.head.old_balance, values.head.new_balance) = (0, amount);
        });
        let sheet = Sheet(vec![
            balance("01", "310125", "0000000000000{"),
            movement("05", "050225", "060225", zone),
            balance("07", "280225", zone),
        ]);
        assert_eq!(written(&values), sheet.bytes(b""));
    }
}

#[test]
fn amounts_of_15_digits_are_19() {
    for amount in [MOST + 1, -MOST - 1, i64::MAX, i64::MIN] {
        assert!(impossible(&changed(|values| {
            values.rows.clear();
            (values.head.old_balance, values.head.new_balance) = (amount, amount);
        })));
        assert!(impossible(&changed(|values| {
            values.rows.truncate(1);
            values.rows[0].amount = amount;
            (values.head.old_balance, values.head.new_balance) = (0, amount);
        })));
    }
}

#[test]
fn dates_are_written() {
    for (date, zone) in [
        (19800101, "010180"),
        (19991231, "311299"),
        (20000101, "010100"),
        (20240229, "290224"),
        (20791231, "311279"),
    ] {
        let values = changed(|values| values.rows[0].value = date);
        let sheet = worked().set(2, 43, zone.as_bytes());
        assert_eq!(written(&values), sheet.bytes(b""));
    }
}

#[test]
fn dates_that_do_not_exist_are_19() {
    for date in [0, 19791231, 20800101, 20250231, 20250229, 20790229] {
        assert!(impossible(&changed(|v| v.rows[1].value = date)), "{date}");
        assert!(impossible(&changed(|v| v.rows[1].booked = date)), "{date}");
        assert!(impossible(&changed(|v| v.head.old_date = date)), "{date}");
        assert!(impossible(&changed(|v| v.head.new_date = date)), "{date}");
    }
}

/// 100 years of 365 days and 25 leap days.
#[test]
fn all_days_exist() {
    let days = |numbers: std::ops::Range<u32>| numbers.filter(|&date| exists(date)).count();
    assert_eq!(days(19_800_000..20_800_000), 36_525);
    assert_eq!(days(0..19_800_000), 0);
    assert_eq!(days(20_800_000..23_000_000), 0);
    assert_eq!(days(u32::MAX - 3_000_000..u32::MAX), 0);
}

#[test]
fn sums_are_whole_numbers() {
    let amounts = |old: i64, amounts: &[i64], new: i64| {
        changed(|values| {
            let row = values.rows[0];
            let rows = amounts.iter().map(|&amount| Row { amount, ..row });
            values.rows = rows.collect();
            (values.head.old_balance, values.head.new_balance) = (old, new);
        })
    };
    assert_eq!(written(&amounts(MOST, &[MOST, -MOST], MOST)).len(), 480);
    assert_eq!(written(&amounts(-MOST, &[-1, 1], -MOST)).len(), 480);
    assert!(impossible(&amounts(MOST, &[MOST, -MOST], MOST - 1)));
    assert!(impossible(&amounts(0, &[1 << 40], 1 << 41)));
    assert!(impossible(&amounts(0, &[i64::MAX, i64::MAX, 2], 0)));
}

#[test]
fn counts_that_overflow_are_19() {
    for counts in [[1 << 63, 1 << 63], [u64::MAX, 1], [u64::MAX, u64::MAX]] {
        assert!(impossible(&changed(|values| {
            values.rows[0].complements = counts[0];
            values.rows[1].complements = counts[1];
        })));
    }
}

#[test]
fn a_statement_has_9_999_records() {
    let rows = |count: usize| {
        changed(|values| {
            let (amount, value) = (0, 20250205);
            values.rows = vec![
                Row {
                    amount,
                    value,
                    ..values.rows[0]
                };
                count
            ];
            values.head.new_balance = values.head.old_balance;
        })
    };
    let sheet = long_statement(9_999);
    assert!(written(&rows(9_997)) == sheet.bytes(b""));
    assert_eq!(write_to(&rows(9_997), 9_999 * 120 - 1).0, refused(20));
    assert!(impossible(&rows(9_998)));
}

#[test]
fn the_output_may_be_longer_and_not_shorter() {
    let values = worked_values();
    for bytes in [0, 1, 120, 479] {
        assert_eq!(write_to(&values, bytes), (refused(20), vec![b'.'; bytes]));
    }
    for bytes in [480, 481, 600] {
        let mut expected = worked().bytes(b"");
        expected.resize(bytes, b'.');
        assert_eq!(write_to(&values, bytes), (Ok(480), expected));
    }
}

#[test]
fn an_empty_table_is_written() {
    let mut values = changed(|values| values.rows.clear());
    assert!(impossible(&values));
    values.head.new_balance = values.head.old_balance;
    assert_eq!(written(&values), empty_statement().bytes(b""));
}

/// The edges that go to the replay, with the answers derived by hand.
#[test]
fn edges_get_the_answer_they_expect() {
    let edges = edges();
    for edge in &edges {
        let (answer, out) = write_to(&edge.values, edge.bytes);
        let length = answer.unwrap_or(0) as usize;
        let number = answer.err().map_or(0, |refusal| refusal.number);
        assert_eq!(number, edge.number, "{}", edge.name);
        assert!(out[length..].iter().all(|&byte| byte == b'.'));
        assert_eq!(length % 120, 0);
    }
    for number in [0, 19, 20] {
        assert!(edges.iter().any(|edge| edge.number == number));
    }
}

// The lent table.

/// Rows that no statement here has.
fn lent(rows: usize) -> Vec<Row> {
    let row = changed(|values| values.rows[0].label = [b'?'; 31]).rows[0];
    vec![row; rows]
}

#[test]
fn the_worked_example_fills_a_table() {
    for (line_end, end) in [(0, &b""[..]), (1, b"\n"), (2, b"\r\n")] {
        let file = worked().bytes(end);
        for rows in [2, 3, 7] {
            let mut table = lent(rows);
            assert_eq!(movements(line_end, &file, 1, &mut table), Ok(2));
            assert_eq!(table[..2], worked_values().rows);
            assert_eq!(table[2..], lent(rows - 2));
        }
    }
}

#[test]
fn rows_count_their_complements() {
    let file = with_complements().then(worked()).bytes(b"");
    let mut table = lent(3);
    assert_eq!(movements(0, &file, 1, &mut table), Ok(2));
    assert_eq!([table[0].complements, table[1].complements], [3, 0]);
    assert_eq!(movements(0, &file, 2, &mut table), Ok(2));
    assert_eq!([table[0].complements, table[1].complements], [0, 0]);
}

/// The file's refusal, then 16, then 18.
#[test]
fn refusals_of_the_table() {
    let file = worked().then(empty_statement()).bytes(b"\n");
    let bad = worked().then(empty_statement().set(2, 104, b"5"));
    let bad = bad.bytes(b"\n");
    for rows in [0, 1, 2] {
        let ask = |line_end, file: &[u8], k| {
            let mut table = lent(rows);
            let answer = movements(line_end, file, k, &mut table);
            assert!(answer.map_or(false, |rows| rows > 0) || table == lent(rows));
            answer
        };
        for k in [0, 3, 1 << 32, u64::MAX] {
            assert_eq!(ask(1, &file, k), refused(16));
            assert_eq!(ask(3, &file, k), refused(1));
        }
        let too_short = if rows < 2 { refused(18) } else { Ok(2) };
        assert_eq!(ask(1, &file, 1), too_short);
        assert_eq!(ask(1, &file, 2), Ok(0));
        assert_eq!(ask(1, b"", 1), refused(16));
        for k in [0, 1, 2, 3] {
            let (number, record) = (8, 6);
            assert_eq!(ask(1, &bad, k), Err(Refusal { number, record }));
        }
    }
}
