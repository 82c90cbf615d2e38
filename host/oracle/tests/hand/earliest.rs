//! The earliest old balance date of a file, dates derived by hand.

use crate::common::{empty_statement, period, worked, Sheet};
use oracle::answers::Numbers;
use oracle::read::{earliest, Refusal};

const LINE_ENDS: [(u64, &[u8]); 3] = [(0, b""), (1, b"\n"), (2, b"\r\n")];

/// A file of statements of one account, each on one day.
fn days(dates: &[&str]) -> Sheet {
    let periods = dates.iter().map(|date| period(b"0001234567A", date, date));
    periods.fold(Sheet(Vec::new()), Sheet::then)
}

/// The same with every line end.
fn assert_earliest(sheet: &Sheet, expected: u32) {
    for (line_end, end) in LINE_ENDS {
        assert_eq!(earliest(line_end, &sheet.bytes(end)), Ok(expected));
    }
}

fn refused(number: u32, record: u64) -> Result<u32, Refusal> {
    Err(Refusal { number, record })
}

#[test]
fn no_statement_has_no_date() {
    assert_earliest(&days(&[]), 0);
    assert_eq!(earliest(3, b""), refused(1, 0));
}

/// The old balance date, neither the booking dates nor the new balance date.
#[test]
fn one_statement() {
    assert_earliest(&worked(), 20250131);
    assert_earliest(&empty_statement(), 20250131);
    assert_earliest(&days(&["290200"]), 20000229);
}

/// Accounts in any order; the least new balance date belongs to another statement.
#[test]
fn several_accounts() {
    let one = period(b"0001234567A", "310125", "280225");
    let two = period(b"0001234567B", "301224", "300425");
    let three = period(b"ZZZZZZZZZZZ", "311224", "020125");
    let between = one.clone().then(two.clone()).then(three.clone());
    assert_earliest(&between, 20241230);
    assert_earliest(&two.clone().then(one.clone()).then(three.clone()), 20241230);
    assert_earliest(&three.clone().then(one.clone()).then(two), 20241230);
    assert_earliest(&one.then(three), 20241231);
}

/// By year, then month, then day: neither by day nor by YY. 99 is 1999, 80 is 1980.
#[test]
fn years_months_and_days() {
    assert_earliest(&days(&["010100", "311299", "020100"]), 19991231);
    assert_earliest(&days(&["010179", "311280"]), 19801231);
    assert_earliest(&days(&["311279", "010180", "010100"]), 19800101);
    assert_earliest(&days(&["311279", "010100", "311278"]), 20000101);
    assert_earliest(&days(&["280225", "310125", "010325"]), 20250131);
    assert_earliest(&days(&["150625", "140625", "160625"]), 20250614);
    assert_earliest(&days(&["311279", "311279"]), 20791231);
}

/// The check's refusal, whatever stands before it.
#[test]
fn a_refused_file() {
    let two = days(&["310125", "280225"]);
    for (line_end, end) in LINE_ENDS {
        let wrong = two.clone().set(4, 105, b"X").bytes(end);
        assert_eq!(earliest(line_end, &wrong), refused(8, 4));
        let open = two.clone().first(3).bytes(end);
        assert_eq!(earliest(line_end, &open), refused(14, 3));
        let whole = two.bytes(end);
        assert_eq!(earliest(line_end, &whole[1..]), refused(2, 0));
        assert_eq!(earliest(3, &whole), refused(1, 0));
        assert_eq!(earliest(line_end + 256, &whole), refused(1, 0));
    }
}

/// As the replay has it: the whole date is the first value.
#[test]
fn in_numbers() {
    let file = days(&["311279"]).bytes(b"\n");
    assert_eq!(
        Numbers::of_earliest(1, &file),
        Numbers::answered([20791231, 0, 0])
    );
    assert_eq!(Numbers::of_earliest(2, b""), Numbers::answered([0; 3]));
    assert_eq!(Numbers::of_earliest(0, &file), Numbers::refused(2, 0));
}
