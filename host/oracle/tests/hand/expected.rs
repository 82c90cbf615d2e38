//! What is expected of a statement that does not follow: points X1 to X6 and N10, answers derived by
//! hand.

use std::slice::from_ref;

use crate::common::{balance, complement, long_statement, movement, Sheet, MMO};
use crate::series::lines_of;
use crate::shelf::{
    accounts, answered, april, b, blank, expecting, february, file, journal, march,
    numbered_account, refusal, stored, with, FEBRUARY, KEY, MARCH,
};
use oracle::delivery::{deliver, newest, Delivered, NotDelivered};
use oracle::expected::series;
use oracle::read::Refusal;

/// What a delivery answers.
type Answer = Result<Delivered, NotDelivered>;

/// What a delivery of these statements answers, whatever the line ends.
fn answer(journal: &[u8], sheets: &[Sheet]) -> Answer {
    answered(journal, sheets).0
}

/// A statement without a movement.
fn quiet(old_date: &str, new_date: &str, amount: &str) -> Sheet {
    Sheet(vec![
        balance("01", old_date, amount),
        balance("07", new_date, amount),
    ])
}

/// A March from 120833 to 100005, three records.
fn other_march() -> Sheet {
    Sheet(vec![
        balance("01", "280225", "0000000012083C"),
        movement("08", "100325", "100325", "0000000002082Q"),
        balance("07", "310325", "0000000010000E"),
    ])
}

/// It begins on 310325 with 100006, two records.
fn astray() -> Sheet {
    quiet("310325", "300425", "0000000010000F")
}

/// A journal that holds February, which ends on 280225 with 120833.
fn february_held() -> Vec<u8> {
    journal(12, &[FEBRUARY], &[february()])
}

#[test]
fn x1_stored_earlier_from_the_same_file() {
    let before = february_held();
    let last = expecting(4, 20250331, 100_005);
    assert_eq!(answer(&before, &[other_march(), astray()]), last);
    // The journal ends with February, as before.
    let last = expecting(1, 20250228, 120_833);
    assert_eq!(answer(&before, &[astray()]), last);
    let all = [february(), other_march(), astray()];
    assert_eq!(answer(&blank(12), &all), expecting(8, 20250331, 100_005));
    assert_eq!(answer(&before, &all), expecting(8, 20250331, 100_005));
    // What stands behind it does not count.
    let all = [february(), astray(), other_march()];
    assert_eq!(answer(&blank(12), &all), expecting(5, 20250228, 120_833));
}

/// A held statement in the file does not become the last.
#[test]
fn x1_held_ones() {
    let before = journal(12, &[FEBRUARY, MARCH], &[february(), march()]);
    // 121833 on 310325.
    let corrected_march = march().set(2, 49, b"CORRECTED");
    let sheets = [february(), corrected_march];
    assert_eq!(answer(&before, &sheets), expecting(5, 20250331, 121_833));
    let sheets = [april(), february(), march(), astray()];
    assert_eq!(answer(&before, &sheets), expecting(10, 20250430, 121_833));
    let sheets = [april(), april(), astray()];
    assert_eq!(answer(&before, &sheets), expecting(5, 20250430, 121_833));
}

/// Two that end on one day: the second is the last.
#[test]
fn x1_two_of_one_day() {
    let before = journal(12, &[FEBRUARY, MARCH], &[february(), march()]);
    let one_day = Sheet(vec![
        balance("01", "310325", "0000000012183C"),
        movement("08", "310325", "310325", "0000000000000L"),
        balance("07", "310325", "0000000012183{"),
    ]);
    let sheets = [one_day.clone(), april()];
    assert_eq!(answer(&before, &sheets), expecting(4, 20250331, 121_830));
    let (_, after) = answered(&before, from_ref(&one_day));
    assert_eq!(answer(&after, &[april()]), expecting(1, 20250331, 121_830));
}

/// An account is the whole key. The other one's March stands between, and April would follow it.
#[test]
fn x1_of_its_own_account() {
    let zones: [(usize, &[u8]); 5] = [
        (3, b"12346"),
        (12, b"00011"),
        (17, b"USD"),
        (20, b"3"),
        (22, b"0001234567B"),
    ];
    for (position, bytes) in zones {
        let of_other = |sheet: Sheet| {
            let records = 1..=sheet.0.len();
            records.fold(sheet, |sheet, record| sheet.set(record, position, bytes))
        };
        let sheets = [february(), of_other(march()), april()];
        assert_eq!(answer(&blank(12), &sheets), expecting(8, 20250228, 120_833));
        let sheets = [of_other(march()), april()];
        assert_eq!(
            answer(&february_held(), &sheets),
            expecting(4, 20250228, 120_833)
        );
        let sheets = [of_other(march()), of_other(astray())];
        assert_eq!(
            answer(&february_held(), &sheets),
            expecting(4, 20250331, 121_833)
        );
    }
}

/// A first statement is expected to begin with nothing in particular.
#[test]
fn x2_accepted() {
    assert_eq!(answer(&blank(12), &[astray()]), stored(1, 0));
    assert_eq!(answer(&february_held(), &[b(astray())]), stored(1, 0));
    assert_eq!(answer(&february_held(), &[february()]), stored(0, 1));
    assert_eq!(answer(&february_held(), &[]), stored(0, 0));
}

/// What does not follow stands first in each file.
#[test]
fn x2_refusals_of_the_file() {
    let before = february_held();
    let first = astray();
    let mmo = || complement("05", "050225", "MMO", MMO);
    let twice = february().with(3, mmo()).with(4, mmo());
    let faults = [
        (5, 4, february().set(2, 49, b"\x7F")),
        (6, 4, february().set(2, 1, b"09")),
        (7, 3, february().without(1)),
        (8, 4, february().set(2, 104, b"5")),
        (9, 4, february().set(2, 43, b"290225")),
        (10, 5, february().set(3, 22, b"B")),
        (11, 6, twice),
        (12, 4, february().set(2, 35, b"300125")),
        (13, 5, february().without(3)),
        (14, 5, february().first(3)),
        (15, 10_002, long_statement(10_000)),
    ];
    for (number, record, fault) in faults {
        let sheets = [first.clone(), fault];
        assert_eq!(answer(&before, &sheets), refusal(number, record));
    }
    let mut copy = before.clone();
    let bytes = file(from_ref(&first), 1);
    assert_eq!(deliver(&mut copy, 3, &bytes), refusal(1, 0));
    assert_eq!(deliver(&mut copy, 1, &bytes[1..]), refusal(2, 0));
    let many = vec![b' '; 121 * 20_001];
    assert_eq!(deliver(&mut copy, 1, &many), refusal(3, 0));
    let mut wrong_end = bytes;
    wrong_end[120] = b' ';
    assert_eq!(deliver(&mut copy, 1, &wrong_end), refusal(4, 1));
    assert!(copy == before);
}

/// The journal's refusals; of 22, 23 and 24 the one of the first statement that is refused.
#[test]
fn x2_refusals_of_the_journal() {
    let unsound = with(february_held(), 7_679, b".");
    assert_eq!(answer(&unsound, &[astray()]), refusal(21, 0));
    assert_eq!(answer(&vec![b' '; 7_681], &[astray()]), refusal(21, 0));
    // Account 5 has 121833 on 300425.
    let not_next = numbered_account(5).set(1, 104, b"D").set(2, 104, b"D");
    for (full, number) in [(accounts(128, 256), 23), (accounts(127, 254), 24)] {
        let new = numbered_account(128);
        let last = expecting(1, 20250430, 121_833);
        assert_eq!(answer(&full, from_ref(&new)), refusal(number, 1));
        assert_eq!(
            answer(&full, &[new.clone(), not_next.clone()]),
            refusal(number, 1)
        );
        assert_eq!(answer(&full, &[not_next.clone(), new]), last);
    }
}

/// A balance of nothing has its date beside it; a debit is below nothing.
#[test]
fn x2_balances() {
    let amounts: [(&str, i128); 7] = [
        ("0000000000000{", 0),
        ("0000000000000A", 1),
        ("0000000000000J", -1),
        ("0000000000001}", -10),
        ("0000000012083L", -120_833),
        ("9999999999999I", 99_999_999_999_999),
        ("9999999999999R", -99_999_999_999_999),
    ];
    for (amount, value) in amounts {
        let last = quiet("310125", "280225", amount);
        let other = quiet("280225", "310325", "0000000000500{");
        let both = [last.clone(), other.clone()];
        assert_eq!(answer(&blank(4), &both), expecting(3, 20250228, value));
        let (_, held) = answered(&blank(4), &[last]);
        assert_eq!(answer(&held, &[other]), expecting(1, 20250228, value));
    }
}

/// The newest statement is refused with number and record alone.
#[test]
fn x4_newest() {
    let before = february_held();
    for line_end in 0..3 {
        let bytes = file(&[other_march(), astray()], line_end);
        let does_not_follow = Err(Refusal {
            number: 22,
            record: 4,
        });
        assert_eq!(newest(&before, line_end, &bytes, KEY), does_not_follow);
    }
}

/// Asked again after a refusal it is the same; after a delivery the file is held.
#[test]
fn x5_asked_again() {
    let mut before = february_held();
    let bytes = file(&[other_march(), astray()], 1);
    let last = expecting(4, 20250331, 100_005);
    assert_eq!(deliver(&mut before, 1, &bytes), last);
    assert_eq!(deliver(&mut before, 1, &bytes), last);
    let bytes = file(&[other_march()], 1);
    assert_eq!(deliver(&mut before, 1, &bytes), stored(1, 0));
    assert_eq!(deliver(&mut before, 1, &bytes), stored(0, 1));
}

/// The first and the last day of all, and those around the turn of the century.
#[test]
fn x5_dates() {
    let dates = [
        ("010180", 19800101),
        ("311299", 19991231),
        ("010100", 20000101),
        ("290200", 20000229),
        ("311279", 20791231),
    ];
    for (date, number) in dates {
        let (_, held) = answered(&blank(4), &[quiet(date, date, "0000000000010{")]);
        let other = quiet(date, date, "0000000000010A");
        assert_eq!(answer(&held, &[other]), expecting(1, number, 100));
    }
}

/// After the expected date or on it with another balance; before it with that one and with another.
/// The date and the balance are those of the last, whatever is wrong.
#[test]
fn x6_after_on_and_before() {
    let openings = [
        ("010325", "0000000012083D"),
        ("280225", "0000000012083D"),
        ("270225", "0000000012083C"),
        ("270225", "0000000012083D"),
        ("310125", "0000000010000{"),
    ];
    for (date, amount) in openings {
        let next = quiet(date, "310325", amount);
        let last = expecting(1, 20250228, 120_833);
        assert_eq!(answer(&february_held(), &[next]), last, "{date}");
    }
}

/// The last one ends with a debit zero, as it is sent or as it is held.
#[test]
fn n10_debit_zero() {
    let nil = quiet("310125", "280225", "0000000000000}");
    let next = quiet("280225", "310325", "0000000000001}");
    let both = [nil.clone(), next.clone()];
    assert_eq!(answer(&blank(4), &both), expecting(3, 20250228, 0));
    let (_, held) = answered(&blank(4), &[nil]);
    assert_eq!(answer(&held, &[next]), expecting(1, 20250228, 0));
}

// The vectors that go to the replay and to the kept series.

fn lines(name: &str) -> Vec<String> {
    lines_of(&series(), name)
}

/// What is refused behind February and behind March.
const BEHIND_FEBRUARY: &str = "D refused 22 1 expected 20250228 120833";
const BEHIND_MARCH: &str = "D refused 22 1 expected 20250331 100005";
const BEHIND_MARCH_IN_THE_FILE: &str = "D refused 22 4 expected 20250331 100005";

/// February has four records, March three.
#[test]
fn lines_of_stored_earlier() {
    let expected = [
        "J 10080",
        "O opened",
        "D stored 1 held 0",
        BEHIND_MARCH_IN_THE_FILE,
        BEHIND_MARCH_IN_THE_FILE,
        BEHIND_MARCH_IN_THE_FILE,
        BEHIND_FEBRUARY,
        "S sound",
        "E at 7680 480",
        "E refused 25 0",
        "J 10080",
        "O opened",
        "D refused 22 8 expected 20250331 100005",
        "D refused 22 5 expected 20250228 120833",
        "E refused 25 0",
        "D stored 2 held 0",
        BEHIND_MARCH,
        "D stored 1 held 0",
        "S sound",
    ];
    assert_eq!(lines("X1-stored-earlier-from-the-file"), expected);
}

/// January has three records.
#[test]
fn lines_of_held_ones() {
    let expected = [
        "J 10080",
        "O opened",
        "D stored 2 held 0",
        "D refused 22 4 expected 20250228 120833",
        "D refused 22 8 expected 20250228 120833",
        "D refused 22 11 expected 20250331 100005",
        "D refused 22 7 expected 20250331 100005",
        "D refused 22 11 expected 20250331 100005",
        "S sound",
    ];
    assert_eq!(lines("X1-held-ones-in-the-file"), expected);
}

/// On the last day of March 7 more, then 12 less; then 1 and 1 more in the file.
#[test]
fn lines_of_several() {
    let expected = [
        "J 10560",
        "O opened",
        "D stored 3 held 0",
        BEHIND_MARCH,
        "D stored 2 held 0",
        "D refused 22 1 expected 20250331 100000",
        "D refused 22 7 expected 20250331 100002",
        "S sound",
        "E at 9240 360",
        "E refused 25 0",
    ];
    assert_eq!(lines("X1-last-of-several"), expected);
}

/// February has two records here. The other account's March and April are its own.
#[test]
fn lines_of_two_accounts() {
    let each = [
        "J 8640",
        "O opened",
        "D refused 22 6 expected 20250228 120833",
        "D stored 2 held 0",
        "D refused 22 3 expected 20250228 120833",
        BEHIND_MARCH,
    ];
    assert_eq!(lines("X1-of-its-own-account"), each.repeat(5));
}

#[test]
fn lines_of_other_answers() {
    let expected = [
        "J 8400",
        "O opened",
        "D stored 1 held 0",
        "D stored 0 held 1",
        "D stored 0 held 0",
        "D refused 14 4 expected 0 0",
        "D refused 6 2 expected 0 0",
        "D refused 13 2 expected 0 0",
        "D refused 2 0 expected 0 0",
        "D refused 1 0 expected 0 0",
        "D refused 24 1 expected 0 0",
        BEHIND_FEBRUARY,
        "D refused 21 0 expected 0 0",
        BEHIND_FEBRUARY,
        "S sound",
    ];
    assert_eq!(lines("X2-zero-in-other-answers"), expected);
}

/// The 128th day of 2025 is 8 May.
#[test]
fn lines_of_a_full_table() {
    let expected = [
        "J 38640",
        "O opened",
        "D stored 128 held 0",
        "D refused 23 1 expected 0 0",
        "D refused 23 3 expected 0 0",
        "D refused 23 1 expected 0 0",
        "D refused 22 5 expected 20250508 120833",
        "S sound",
    ];
    assert_eq!(lines("X2-table-full"), expected);
}

#[test]
fn lines_of_balances() {
    let mut expected = Vec::new();
    for balance in [
        "0",
        "10",
        "-10",
        "120833",
        "-120833",
        "99999999999999",
        "-99999999999999",
    ] {
        expected.extend(["J 8160", "O opened"].map(str::to_string));
        expected.push(format!("D refused 22 3 expected 20250228 {balance}"));
        expected.push("D stored 1 held 0".to_string());
        expected.push(format!("D refused 22 1 expected 20250228 {balance}"));
    }
    assert_eq!(lines("X2-balances"), expected);
}

#[test]
fn lines_of_the_newest() {
    let expected = [
        "J 10080",
        "O opened",
        "D stored 1 held 0",
        "N refused 22 4",
        BEHIND_MARCH_IN_THE_FILE,
        "N refused 22 1",
        BEHIND_FEBRUARY,
        "N journal 7680 480 0",
    ];
    assert_eq!(lines("X4-newest"), expected);
}

#[test]
fn lines_of_dates() {
    let mut expected = Vec::new();
    for date in [
        "D refused 22 1 expected 19800101 100",
        "D refused 22 1 expected 19991231 100",
        "D refused 22 1 expected 20000101 100",
        "D refused 22 1 expected 20000229 100",
        "D refused 22 1 expected 20791231 100",
    ] {
        expected.extend(["J 8160", "O opened", "D stored 1 held 0", date]);
    }
    assert_eq!(lines("X5-dates"), expected);
}

/// Four openings, January and a corrected February behind February; four openings behind March.
#[test]
fn lines_of_after_on_and_before() {
    let mut expected = vec!["J 10080", "O opened", "D stored 1 held 0"];
    expected.extend([BEHIND_FEBRUARY; 6]);
    expected.extend([BEHIND_MARCH_IN_THE_FILE; 4]);
    expected.extend(["D stored 2 held 0", "S sound"]);
    assert_eq!(lines("X6-after-on-and-before"), expected);
}

/// The first has three records.
#[test]
fn lines_of_a_debit_zero() {
    let expected = [
        "J 9120",
        "O opened",
        "D refused 22 4 expected 20250228 0",
        "D stored 1 held 0",
        "D refused 22 1 expected 20250228 0",
        "D refused 22 4 expected 20250228 0",
        "D stored 1 held 0",
        "D refused 22 1 expected 20250331 0",
        "S sound",
    ];
    assert_eq!(lines("N10-ends-with-a-debit-zero"), expected);
}
