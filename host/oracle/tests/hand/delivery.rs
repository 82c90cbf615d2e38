//! Readings F4 and F6 to F13: what a delivery stores, holds and refuses.

use crate::common::{balance, movement, Sheet};
use crate::shelf::{
    accounts, april, b, blank, delivered, february, file, journal, march, numbered_account,
    other_standstill, refusal, standstill, stored, three_months, with, APRIL, FEBRUARY, MARCH,
};
use oracle::delivery::deliver;

/// February that ends with the same balances but has another label.
fn corrected_february() -> Sheet {
    february().set(2, 49, b"CORRECTED")
}

#[test]
fn delivery_writes_the_layout() {
    let (answer, after) = delivered(&blank(12), &[february(), march(), april()]);
    assert_eq!(answer, stored(3, 0));
    assert!(after == three_months());
    // One by one it is the same.
    let (answer, after) = delivered(&blank(12), &[february()]);
    assert_eq!(answer, stored(1, 0));
    assert!(after == journal(12, &[FEBRUARY], &[february()]));
    let (answer, after) = delivered(&after, &[march()]);
    assert_eq!(answer, stored(1, 0));
    let (answer, after) = (answer, delivered(&after, &[april()]).1);
    assert_eq!(answer, stored(1, 0));
    assert!(after == three_months());
}

/// An account is the whole key: with one zone changed, February is another account's.
#[test]
fn an_account_is_the_whole_key() {
    let zones: [(usize, &[u8]); 5] = [(3, b"2"), (12, b"1"), (17, b"X"), (20, b"3"), (22, b"A")];
    for (position, byte) in zones {
        let mut other = february();
        for record in 1..=4 {
            other = other.set(record, position, byte);
        }
        let before = journal(8, &[FEBRUARY], &[february()]);
        let (answer, after) = delivered(&before, &[other.clone()]);
        assert_eq!(answer, stored(1, 0), "position {position}");
        assert_eq!(delivered(&after, &[other, february()]).0, stored(0, 2));
        assert_eq!(delivered(&after, &[march()]).0, refusal(24, 1));
    }
}

#[test]
fn f4_standstill_twice_is_held() {
    let (answer, after) = delivered(&blank(10), &[standstill()]);
    assert_eq!(answer, stored(1, 0));
    let (answer, again) = delivered(&after, &[standstill()]);
    assert_eq!(answer, stored(0, 1));
    assert!(again == after);
    let (answer, _) = delivered(&blank(10), &[standstill(), standstill()]);
    assert_eq!(answer, stored(1, 1));
}

/// Equal to any held one, also to one stored earlier from the same file.
#[test]
fn f6_held() {
    let full = three_months();
    for sheet in [february(), march(), april()] {
        let (answer, after) = delivered(&full, &[sheet]);
        assert_eq!(answer, stored(0, 1));
        assert!(after == full);
    }
    let all = [april(), february(), march(), february()];
    assert_eq!(delivered(&full, &all).0, stored(0, 4));
    assert_eq!(
        delivered(&blank(9), &[february(), february()]).0,
        stored(1, 1)
    );
}

/// A held statement does not become the last.
#[test]
fn f6_held_is_not_the_last() {
    let sheets = [february(), march(), february(), april()];
    let (answer, after) = delivered(&blank(12), &sheets);
    assert_eq!(answer, stored(3, 1));
    assert!(after == three_months());
    // March of other records would follow February, were that the last.
    let other = march().set(2, 49, b"X");
    let sheets = [february(), march(), february(), other];
    assert_eq!(delivered(&blank(12), &sheets).0, refusal(22, 12));
}

/// Held, then 22, then 23, then 24.
#[test]
fn f6_order_of_tests() {
    // 128 entries used and no line left.
    let full = accounts(128, 256);
    assert_eq!(delivered(&full, &[numbered_account(0)]).0, stored(0, 1));
    assert_eq!(delivered(&full, &[numbered_account(127)]).0, stored(0, 1));
    let does_not_follow = numbered_account(5).with(2, {
        let mut zero = movement("05", "010425", "010425", "0000000000000{");
        zero[21..32].copy_from_slice(b"00000000005");
        zero
    });
    assert_eq!(
        delivered(&full, std::slice::from_ref(&does_not_follow)).0,
        refusal(22, 1)
    );
    assert_eq!(delivered(&full, &[numbered_account(128)]).0, refusal(23, 1));
    // 127 entries and no line left.
    let no_line = accounts(127, 254);
    assert_eq!(delivered(&no_line, &[does_not_follow]).0, refusal(22, 1));
    assert_eq!(
        delivered(&no_line, &[numbered_account(127)]).0,
        refusal(24, 1)
    );
    assert_eq!(
        delivered(&no_line, &[numbered_account(126)]).0,
        stored(0, 1)
    );
}

#[test]
fn f7_the_last_includes_those_of_the_file() {
    let before = journal(12, &[FEBRUARY], &[february()]);
    assert_eq!(delivered(&before, &[march(), april()]).0, stored(2, 0));
    assert_eq!(delivered(&before, &[april(), march()]).0, refusal(22, 1));
    assert_eq!(delivered(&before, &[april()]).0, refusal(22, 1));
    let sheets = [february(), april()];
    assert_eq!(delivered(&blank(12), &sheets).0, refusal(22, 5));
    // The other account's statements between do not count.
    let sheets = [february(), b(april()), march()];
    assert_eq!(delivered(&blank(12), &sheets).0, stored(3, 0));
}

/// Both the balance and the date, which may be later.
#[test]
fn f7_same_balance_and_no_earlier_date() {
    let after_february = |date: &str, amount: &str| {
        let sheet = Sheet(vec![
            balance("01", date, amount),
            balance("07", "310325", amount),
        ]);
        let before = journal(12, &[FEBRUARY], &[february()]);
        delivered(&before, &[sheet]).0
    };
    assert_eq!(after_february("280225", "0000000012083C"), stored(1, 0));
    assert_eq!(after_february("270225", "0000000012083C"), refusal(22, 1));
    assert_eq!(after_february("010325", "0000000012083C"), stored(1, 0));
    assert_eq!(after_february("010325", "0000000012083B"), refusal(22, 1));
    assert_eq!(after_february("280225", "0000000012083B"), refusal(22, 1));
    assert_eq!(after_february("280225", "0000000012083D"), refusal(22, 1));
    assert_eq!(after_february("280224", "0000000012083C"), refusal(22, 1));
    // The date and balance of February's beginning.
    assert_eq!(after_february("310125", "0000000010000{"), refusal(22, 1));
}

/// The same digits for a debit are another balance.
#[test]
fn f8_same_balance() {
    let before = journal(12, &[FEBRUARY], &[february()]);
    let debit = Sheet(vec![
        balance("01", "280225", "0000000012083L"),
        balance("07", "310325", "0000000012083L"),
    ]);
    assert_eq!(delivered(&before, &[debit]).0, refusal(22, 1));
}

/// The first that is refused decides, also if a later one had a lower number.
#[test]
fn f9_first_refused_statement() {
    // Six lines: February and two more.
    let before = journal(6, &[FEBRUARY], &[february()]);
    let astray = march().set(2, 49, b"X").set(1, 104, b"D").set(3, 104, b"D");
    assert_eq!(
        delivered(&before, &[astray.clone(), b(march())]).0,
        refusal(22, 1)
    );
    assert_eq!(delivered(&before, &[b(march()), astray]).0, refusal(24, 1));
}

/// Held statements count in the record's number, whatever the line ends.
#[test]
fn f9_record_of_the_01() {
    let before = journal(10, &[FEBRUARY], &[february()]);
    let sheets = [february(), march(), february(), corrected_february()];
    assert_eq!(delivered(&before, &sheets).0, refusal(22, 12));
    // 4 held, then 3 and 2 stored, then 4 in 1 line left.
    let sheets = [february(), march(), april(), b(february())];
    assert_eq!(delivered(&before, &sheets).0, refusal(24, 10));
    // 127 entries: one is stored, the next is too many.
    let nearly = accounts(127, 300);
    let sheets = [numbered_account(3), numbered_account(127), b(march())];
    assert_eq!(delivered(&nearly, &sheets).0, refusal(23, 5));
    assert_eq!(delivered(&nearly, &sheets[..2]).0, stored(1, 1));
    // 254 held records before: line ends do not count, however many.
    let mut sheets: Vec<Sheet> = (0..128).map(numbered_account).collect();
    sheets.push(b(march()));
    assert_eq!(delivered(&nearly, &sheets).0, refusal(23, 257));
}

#[test]
fn f10_corrected_statement_of_the_same_period() {
    let before = journal(12, &[FEBRUARY], &[february()]);
    let (answer, after) = delivered(&before, &[corrected_february()]);
    assert_eq!(answer, refusal(22, 1));
    assert!(after == before);
    // Where the period is empty it follows.
    let (_, before) = delivered(&blank(12), &[standstill()]);
    let (answer, after) = delivered(&before, &[other_standstill()]);
    assert_eq!(answer, stored(1, 0));
    assert_eq!(
        delivered(&after, &[standstill(), other_standstill()]).0,
        stored(0, 2)
    );
}

#[test]
fn f11_empty_file() {
    for before in [blank(0), blank(3), three_months(), accounts(128, 256)] {
        let (answer, after) = delivered(&before, &[]);
        assert_eq!(answer, stored(0, 0));
        assert!(after == before);
        for line_end in [3, 256, u64::MAX] {
            let mut copy = before.clone();
            assert_eq!(deliver(&mut copy, line_end, b""), refusal(1, 0));
            assert!(copy == before);
        }
    }
    let mut unsound = vec![b'.'; 7_680];
    for line_end in 0..4 {
        assert_eq!(deliver(&mut unsound, line_end, b""), refusal(21, 0));
    }
}

/// 21, then the file's refusals, then the statements.
#[test]
fn f12_journal_then_file_then_statements() {
    let before = three_months();
    let unsound = with(before.clone(), 180, b"X");
    // The second statement does not follow; the file has a fault behind it.
    let sheets = [april(), corrected_february(), february().set(3, 2, b"9")];
    for (line_end, record) in [(0, 9), (1, 9), (2, 9)] {
        let bytes = file(&sheets, line_end);
        let mut copy = before.clone();
        assert_eq!(deliver(&mut copy, line_end, &bytes), refusal(6, record));
        assert_eq!(deliver(&mut copy, 3, &bytes), refusal(1, 0));
        assert_eq!(deliver(&mut copy, line_end, &bytes[1..]), refusal(2, 0));
        assert!(copy == before);
        let mut copy = unsound.clone();
        assert_eq!(deliver(&mut copy, line_end, &bytes), refusal(21, 0));
        assert_eq!(deliver(&mut copy, 3, &bytes), refusal(21, 0));
        assert_eq!(deliver(&mut copy, line_end, &bytes[1..]), refusal(21, 0));
        assert!(copy == unsound);
    }
    assert_eq!(delivered(&before, &sheets[..2]).0, refusal(22, 3));
}

/// A statement needs a line for each of its records.
#[test]
fn f13_lines_left() {
    for (lines, answer) in [(3, refusal(24, 1)), (4, stored(1, 0)), (5, stored(1, 0))] {
        assert_eq!(delivered(&blank(lines), &[february()]).0, answer);
    }
    for (lines, answer) in [(6, refusal(24, 5)), (7, stored(2, 0)), (8, stored(2, 0))] {
        assert_eq!(delivered(&blank(lines), &[february(), march()]).0, answer);
    }
    assert_eq!(delivered(&blank(0), &[april()]).0, refusal(24, 1));
    assert_eq!(delivered(&blank(1), &[april()]).0, refusal(24, 1));
    let (answer, after) = delivered(&blank(9), &[february(), march(), april()]);
    assert_eq!(answer, stored(3, 0));
    let bodies = [february(), march(), april()];
    assert!(after == journal(9, &[FEBRUARY, MARCH, APRIL], &bodies));
    assert_eq!(delivered(&after, &[february()]).0, stored(0, 1));
    assert_eq!(delivered(&after, &[standstill()]).0, refusal(24, 1));
}
