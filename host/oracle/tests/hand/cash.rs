//! The balance in value day by day, point by point, and the two small questions beside it.

use crate::asked::{asked, UNTOUCHED};
use crate::common::{balance as balance_record, movement, Sheet};
use crate::shelf::{
    accounts, april, b, blank, february, journal, march, of_account, three_months, with, KEY, KEY_B,
};
use oracle::cash::{balance, day};
use oracle::delivery::deliver;
use oracle::journal::open;
use oracle::read::Refusal;
use oracle::record::date_number;

/// The largest amount of 14 digits.
const MOST: i64 = 99_999_999_999_999;

/// The amounts of a span of the worked account, in a table of just their number.
fn amounts(journal: &[u8], first: u64, last: u64) -> Vec<i64> {
    let (answer, mut table) = asked(journal, KEY, (first, last), 400);
    let days = answer.unwrap() as usize;
    table.truncate(days);
    let exact = asked(journal, KEY, (first, last), days);
    assert_eq!(exact, (Ok(days as u64), table.clone()));
    table
}

/// The number refused with, always of record 0 and with the table as it was; 0 where answered.
fn refused(journal: &[u8], key: &[u8], span: (u64, u64), length: usize) -> u32 {
    match asked(journal, key, span, length) {
        (Ok(_), _) => 0,
        (Err(Refusal { number, record }), table) => {
            assert_eq!((record, table), (0, vec![UNTOUCHED; length]));
            number
        }
    }
}

/// The number refused with, for a span of the worked account in a table that is long enough.
fn span(first: u64, last: u64) -> u32 {
    refused(&three_months(), KEY, (first, last), 400)
}

/// An amount of up to 14 digits as it stands in a record.
fn zone(amount: i64) -> String {
    let signs = if amount < 0 {
        b"}JKLMNOPQR"
    } else {
        b"{ABCDEFGHI"
    };
    let size = amount.unsigned_abs();
    format!(
        "{:013}{}",
        size / 10,
        char::from(signs[(size % 10) as usize])
    )
}

/// A statement of the worked account. Movements are booked on its old date; each is a value date
/// and an amount.
fn statement(old: (&str, i64), new: (&str, i64), movements: &[(&str, i64)]) -> Sheet {
    let mut records = vec![balance_record("01", old.0, &zone(old.1))];
    for &(value_date, amount) in movements {
        records.push(movement("05", old.0, value_date, &zone(amount)));
    }
    records.push(balance_record("07", new.0, &zone(new.1)));
    Sheet(records)
}

/// The journal after the delivery of these statements, one by one.
fn holding(lines: usize, sheets: &[Sheet]) -> Vec<u8> {
    let mut journal = vec![b'.'; 7_680 + 120 * lines];
    open(&mut journal).unwrap();
    for sheet in sheets {
        deliver(&mut journal, 0, &sheet.bytes(b"")).unwrap();
    }
    journal
}

#[test]
fn worked_statement_day_by_day() {
    let journal = holding(4, &[february()]);
    let expected = [100_000, 125_050, 120_833, 120_833];
    assert_eq!(amounts(&journal, 20250205, 20250208), expected);
}

#[test]
fn movements_before_the_span_count() {
    assert_eq!(amounts(&three_months(), 20250207, 20250207), [120_833]);
    let expected = [120_833, 121_833];
    assert_eq!(amounts(&three_months(), 20250309, 20250310), expected);
    assert_eq!(amounts(&three_months(), 20700101, 20700101), [121_833]);
}

/// November closes on Friday, December opens with Sunday; its first movement is valued on the
/// Saturday between.
#[test]
fn m3_days_between_two_statements() {
    let november = statement(("311025", 100), ("281125", 120), &[("281125", 20)]);
    let movements = [("291125", -30), ("011225", 5)];
    let december = statement(("301125", 120), ("311225", 95), &movements);
    let journal = holding(8, &[november, december]);
    let expected = [100, 120, 90, 90, 95, 95];
    assert_eq!(amounts(&journal, 20251127, 20251202), expected);
    assert_eq!(amounts(&journal, 20251231, 20251231), [95]);
}

#[test]
fn p1_spans_of_400_days_and_of_401() {
    assert_eq!(amounts(&three_months(), 20240101, 20250203).len(), 400);
    assert_eq!(span(20240101, 20250204), 27);
    assert_eq!(amounts(&three_months(), 20250101, 20260204).len(), 400);
    assert_eq!(span(20250101, 20260205), 27);
    assert_eq!(span(19800101, 20791231), 27);
}

#[test]
fn p2_days_that_do_not_exist() {
    let none = [
        0, 1, 20250229, 20000230, 20250431, 20250100, 20250132, 20250001, 20251301, 250101, 10125,
        19791231, 20800101, 19800100, 21000101, 99999999,
    ];
    for day in none {
        assert_eq!(span(day, 20250101), 27, "{day}");
        assert_eq!(span(20250101, day), 27, "{day}");
        assert_eq!(span(day, day), 27, "{day}");
    }
}

#[test]
fn p2_numbers_of_more_than_32_bits() {
    let wide = [1 << 32, 1 << 33, 1 << 40, 1 << 63];
    for day in wide.map(|more: u64| more + 20250205) {
        assert_eq!(span(day, 20250205), 27, "{day}");
        assert_eq!(span(20250205, day), 27, "{day}");
        assert_eq!(span(day, day), 27, "{day}");
    }
    assert_eq!(span(20250205, u64::MAX), 27);
    assert_eq!(span(u64::MAX, u64::MAX), 27);
}

#[test]
fn p2_both_ends_of_the_calendar() {
    assert_eq!(span(19791231, 19800101), 27);
    assert_eq!(span(20791231, 20800101), 27);
    assert_eq!(amounts(&three_months(), 20791231, 20791231), [121_833]);
    assert_eq!(amounts(&three_months(), 20791230, 20791231).len(), 2);
    assert_eq!(amounts(&three_months(), 20781127, 20791231).len(), 400);
    assert_eq!(amounts(&three_months(), 19800101, 19800101), [100_000]);
    assert_eq!(amounts(&three_months(), 19800101, 19810203).len(), 400);
}

#[test]
fn p3_empty_spans() {
    assert_eq!(span(20250206, 20250205), 27);
    assert_eq!(span(20250201, 20250131), 27);
    assert_eq!(span(20791231, 19800101), 27);
    assert_eq!(amounts(&three_months(), 20250206, 20250206), [125_050]);
}

/// Each refusal with all later ones at once.
#[test]
fn p4_order_of_refusals() {
    let right = (20250205, 20250206);
    let empty = (20250206, 20250205);
    let unsound = with(three_months(), 7_679, b"0");
    assert_eq!(refused(&unsound, KEY, empty, 400), 21);
    assert_eq!(refused(&unsound, KEY_B, empty, 0), 21);
    assert_eq!(refused(&unsound, KEY_B, right, 400), 21);
    assert_eq!(refused(&unsound, KEY, right, 0), 21);
    assert_eq!(refused(&unsound, KEY, right, 2), 21);
    assert_eq!(refused(&three_months(), KEY_B, empty, 0), 27);
    assert_eq!(refused(&three_months(), b"", empty, 0), 27);
    assert_eq!(refused(&three_months(), KEY, empty, 0), 27);
    assert_eq!(refused(&three_months(), KEY_B, right, 0), 25);
    assert_eq!(refused(&three_months(), KEY, right, 0), 18);
    assert_eq!(refused(&three_months(), KEY, right, 2), 0);
}

#[test]
fn p4_lengths_that_no_journal_has() {
    let journal = three_months();
    for length in [0, 1, 7_679, 7_681, 9_119] {
        let cut = &journal[..length];
        assert_eq!(refused(cut, KEY, (20250205, 20250205), 1), 21, "{length}");
    }
    let longer = vec![b' '; 12_007_800];
    assert_eq!(refused(&longer, KEY, (20250205, 20250205), 1), 21);
}

#[test]
fn p5_keys_of_other_lengths() {
    let longer = [KEY, b" "].concat();
    let keys = [b"", &KEY[..1], &KEY[..24], &KEY[14..], &KEY[1..], &longer];
    for key in keys {
        assert_eq!(refused(&three_months(), key, (20250205, 20250205), 1), 25);
    }
}

/// An account is its whole key: the same account characters at another bank are another account.
#[test]
fn p5_keys_that_differ_in_one_zone() {
    for place in [0, 4, 5, 9, 10, 12, 13, 14, 24] {
        let mut key = KEY.to_vec();
        key[place] += 1;
        let answer = refused(&three_months(), &key, (20250205, 20250205), 1);
        assert_eq!(answer, 25, "{place}");
    }
}

#[test]
fn p5_keys_that_no_record_holds() {
    for key in [&[b' '; 25], &[0; 25], b"1234500010eur20001234567A"] {
        assert_eq!(refused(&three_months(), key, (20250205, 20250205), 1), 25);
        assert_eq!(refused(&blank(3), key, (20250205, 20250205), 1), 25);
    }
    assert_eq!(refused(&blank(0), KEY, (20250205, 20250205), 1), 25);
}

#[test]
fn other_accounts_are_left_out() {
    let journal = holding(14, &[february(), b(february()), b(march()), march()]);
    assert_eq!(amounts(&journal, 20250228, 20250228), [120_833]);
    assert_eq!(amounts(&journal, 20250331, 20250331), [121_833]);
    let (answer, table) = asked(&journal, KEY_B, (20250206, 20250207), 2);
    assert_eq!((answer, table), (Ok(2), vec![125_050, 120_833]));
}

#[test]
fn p6_tables_of_other_lengths() {
    let journal = three_months();
    let span = (20250205, 20250207);
    for length in [0, 1, 2] {
        assert_eq!(refused(&journal, KEY, span, length), 18);
    }
    let (answer, table) = asked(&journal, KEY, span, 6);
    let expected = [100_000, 125_050, 120_833, UNTOUCHED, UNTOUCHED, UNTOUCHED];
    assert_eq!((answer, &table[..]), (Ok(3), &expected[..]));
    assert_eq!(refused(&journal, KEY, (20240101, 20250203), 399), 18);
}

#[test]
fn p7_account_without_a_movement() {
    let journal = journal(
        2,
        &["1234500010EUR20001234567A3103253004250000000002"],
        &[april()],
    );
    let expected = [121_833; 3];
    assert_eq!(amounts(&journal, 20250330, 20250401), expected);
    assert_eq!(amounts(&journal, 20240101, 20250203), [121_833; 400]);
}

#[test]
fn p8_days_before_the_first_old_date() {
    let movements = [("311299", 10), ("010100", 100), ("010180", 1_000)];
    let sheet = statement(("010100", 5), ("010100", 1_115), &movements);
    let journal = holding(5, &[sheet]);
    let expected = [1_005, 1_015, 1_115, 1_115];
    assert_eq!(amounts(&journal, 19991230, 20000102), expected);
    assert_eq!(amounts(&journal, 19800101, 19800101), [1_005]);
}

#[test]
fn p8_day_before_everything_has_the_first_old_balance() {
    assert_eq!(amounts(&three_months(), 19991231, 20000101), [100_000; 2]);
}

/// Booked on 3 March, valued on 27 February, before its statement's old date.
#[test]
fn p9_booking_dates_play_no_part() {
    let march = Sheet(vec![
        balance_record("01", "280225", "0000000012083C"),
        movement("05", "030325", "270225", "0000000002083L"),
        balance_record("07", "310325", "0000000010000{"),
    ]);
    let journal = holding(7, &[february(), march]);
    let expected = [120_833, 100_000, 100_000];
    assert_eq!(amounts(&journal, 20250226, 20250228), expected);
    assert_eq!(amounts(&journal, 20250303, 20250303), [100_000]);
}

/// 31 in bytes is above 01, and 99 above 00, but the day is before.
#[test]
fn p9_days_are_compared_as_days() {
    let movements = [("311299", 1), ("010100", 2), ("300100", 4), ("010200", 8)];
    let sheet = statement(("010100", 0), ("010200", 15), &movements);
    let journal = holding(6, &[sheet]);
    assert_eq!(amounts(&journal, 19991230, 20000101), [0, 1, 3]);
    assert_eq!(amounts(&journal, 20000129, 20000201), [3, 7, 7, 15]);
}

/// Eleven statements of 100,000 lines: ten of 9,997 movements by which the balance goes from the
/// largest amount to 0 and back, one of 8. Value dates are those of the two signs.
fn extreme(sign: i64, credits: &str, debits: &str) -> Vec<u8> {
    let value_date = |amount: i64| if amount > 0 { credits } else { debits };
    let mut sheets = Vec::new();
    let mut old = sign * MOST;
    for number in 0..11 {
        let count = if number < 10 { 9_997 } else { 8 };
        let mut balance = old;
        let mut movements = Vec::new();
        for _ in 0..count {
            let amount = if balance == 0 { sign * MOST } else { -balance };
            balance += amount;
            movements.push((value_date(amount), amount));
        }
        let dates = [number + 1, number + 2].map(|day| format!("{day:02}0525"));
        sheets.push(statement(
            (&dates[0], old),
            (&dates[1], balance),
            &movements,
        ));
        old = balance;
    }
    assert_eq!(old, sign * MOST);
    holding(100_000, &sheets)
}

/// A, and 49,989 credits of A before any debit.
#[test]
fn p10_largest_amount_is_reached() {
    let journal = extreme(1, "020625", "040625");
    let largest = 4_998_999_999_999_950_010;
    assert_eq!(largest, 49_990 * MOST);
    let expected = [MOST, largest, largest, MOST, MOST];
    assert_eq!(amounts(&journal, 20250601, 20250605), expected);
}

#[test]
fn p10_least_amount_is_reached() {
    let journal = extreme(-1, "040625", "020625");
    let least = -49_990 * MOST;
    let expected = [-MOST, least, least, -MOST];
    assert_eq!(amounts(&journal, 20250601, 20250604), expected);
}

/// The debits first: from A down by 49,989 A.
#[test]
fn p10_debits_first() {
    let journal = extreme(1, "040625", "020625");
    let least = -49_988 * MOST;
    assert_eq!(amounts(&journal, 20250602, 20250604), [least, least, MOST]);
}

#[test]
fn p12_first_in_table_order() {
    let journal = holding(12, &[b(march()), february(), b(april()), march()]);
    assert_eq!(amounts(&journal, 19800101, 19800101), [100_000]);
    let (answer, table) = asked(&journal, KEY_B, (19800101, 19800101), 1);
    assert_eq!((answer, table), (Ok(1), vec![120_833]));
}

#[test]
fn p13_last_amount_is_the_last_new_balance() {
    assert_eq!(amounts(&three_months(), 20250310, 20250310), [121_833]);
    assert_eq!(balance(&three_months(), 3), Some(121_833));
    let journal = holding(7, &[february(), march()]);
    assert_eq!(amounts(&journal, 20250301, 20250331)[30], 121_833);
    assert_eq!(balance(&journal, 2), Some(121_833));
}

/// The value dates of another account do not matter.
#[test]
fn p13_value_dates_of_another_account() {
    let late = of_account("0001234567B", march().set(2, 43, b"311279"));
    let journal = holding(10, &[february(), late, march()]);
    assert_eq!(amounts(&journal, 20250310, 20250310), [121_833]);
}

#[test]
fn leap_days() {
    let movements = [("280200", 1), ("290200", 2), ("010300", 4), ("290224", 8)];
    let sheet = statement(("010100", 0), ("010200", 15), &movements);
    let journal = holding(6, &[sheet]);
    assert_eq!(amounts(&journal, 20000227, 20000301), [0, 1, 3, 7]);
    assert_eq!(amounts(&journal, 20240228, 20240301), [7, 15, 15]);
    assert_eq!(amounts(&journal, 20250228, 20250301), [15, 15]);
    assert_eq!(amounts(&journal, 20000229, 20000229), [3]);
}

#[test]
fn year_ends() {
    for year in 1980..2079 {
        let yy = year % 100;
        let last = format!("3112{yy:02}");
        let first = format!("0101{:02}", (yy + 1) % 100);
        let sheet = statement(("010100", 0), ("010100", 3), &[(&last, 1), (&first, 2)]);
        let journal = holding(4, &[sheet]);
        let span = (10_000 * year + 1230, 10_000 * year + 10_102);
        assert_eq!(amounts(&journal, span.0, span.1), [0, 1, 3, 3]);
    }
}

#[test]
fn balances_of_entries() {
    let journal = three_months();
    let balances = [1, 2, 3].map(|e| balance(&journal, e));
    assert_eq!(balances, [Some(120_833), Some(121_833), Some(121_833)]);
    for e in [0, 4, 128, 129, 1 << 32, (1 << 32) + 1, 1 << 63, u64::MAX] {
        assert_eq!(balance(&journal, e), Some(0), "{e}");
    }
    assert_eq!(balance(&blank(0), 1), Some(0));
    assert_eq!(balance(&accounts(128, 256), 128), Some(121_833));
    let debit = statement(("010125", 0), ("020125", -MOST), &[("010125", -MOST)]);
    assert_eq!(balance(&holding(3, &[debit]), 1), Some(-MOST));
}

#[test]
fn balances_of_no_sound_journal() {
    assert_eq!(balance(&with(three_months(), 7_679, b"0"), 1), None);
    assert_eq!(balance(b"", 1), None);
}

#[test]
fn days_after_a_day() {
    let days = [
        (20250131, 0, 20250131),
        (20250131, 1, 20250201),
        (20240228, 1, 20240229),
        (20250228, 1, 20250301),
        (20000228, 2, 20000301),
        (19991231, 1, 20000101),
        (20240101, 399, 20250203),
        (19800101, 36_524, 20791231),
        (20791231, 0, 20791231),
    ];
    for (from, after, expected) in days {
        assert_eq!(day(from, after), expected, "{from} {after}");
    }
}

#[test]
fn days_that_are_none() {
    let none = [
        (20791231, 1),
        (19800101, 36_525),
        (19791231, 1),
        (20800101, 0),
        (20250229, 1),
        (0, 0),
        (20250101, 1 << 32),
        (20250101, 1 << 63),
        (20250101, u64::MAX),
        ((1 << 32) + 20250101, 0),
        (u64::MAX, u64::MAX),
        (u64::MAX, 1),
    ];
    for (from, after) in none {
        assert_eq!(day(from, after), 0, "{from} {after}");
    }
}

/// All days of the calendar, which the generators count on their own.
#[test]
fn every_day_has_its_next() {
    for number in 0..36_524 {
        assert_eq!(day(date_number(number), 1), date_number(number + 1));
    }
    assert_eq!((date_number(0), date_number(36_524)), (19800101, 20791231));
}
