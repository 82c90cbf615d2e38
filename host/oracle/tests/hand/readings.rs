//! Each reading as small vectors, expected answers derived by hand from the text. The worked
//! statement has 4 records, the one with complements 7 (see `common`).

use crate::common::{
    accepted, balance, complement, empty_statement, long_statement, movement, refused,
    with_complements, worked, Sheet, MMO,
};
use oracle::check::check;

/// A booking before the old date is seen at the 04, one after the new date at the 07.
#[test]
fn a1_order_of_dates_seen_at_04_or_07() {
    assert_eq!(worked().set(2, 35, b"300125").answer(), refused(12, 2));
    assert_eq!(worked().set(2, 35, b"010325").answer(), refused(12, 4));
    assert_eq!(worked().set(4, 35, b"060225").answer(), refused(12, 4));
    // Another fault between the 04 and the 07 comes first.
    let sheet = worked().set(2, 35, b"010325").set(3, 21, b"X");
    assert_eq!(sheet.answer(), refused(8, 3));
    // The ends of the period belong to it.
    let sheet = worked().set(2, 35, b"310125").set(3, 35, b"280225");
    assert_eq!(sheet.answer(), accepted(1, 2, 0));
}

#[test]
fn a2_bookings_in_any_order() {
    let sheet = worked().set(2, 35, b"200225").set(3, 35, b"010225");
    assert_eq!(sheet.answer(), accepted(1, 2, 0));
    // The latest counts at the 07, not the last.
    let sheet = sheet.set(4, 35, b"100225");
    assert_eq!(sheet.answer(), refused(12, 4));
}

#[test]
fn a3_zones_before_dates() {
    let no_date = worked().set(2, 35, b"310225");
    assert_eq!(no_date.answer(), refused(9, 2));
    assert_eq!(no_date.clone().set(2, 81, b"X").answer(), refused(8, 2));
    assert_eq!(no_date.clone().set(2, 21, b"X").answer(), refused(8, 2));
    assert_eq!(no_date.clone().set(2, 104, b"5").answer(), refused(8, 2));
    // A debit zero is an amount.
    let sheet = no_date.set(2, 91, b"0000000000000}");
    assert_eq!(sheet.answer(), refused(9, 2));
    assert_eq!(worked().set(2, 35, b"3A0225").answer(), refused(8, 2));
    assert_eq!(worked().set(2, 43, b" 10225").answer(), refused(8, 2));
}

#[test]
fn a4_positions_3_to_40_of_a_05() {
    let set = |position, bytes: &[u8]| with_complements().set(3, position, bytes).answer();
    assert_eq!(set(35, b"310225"), refused(9, 3));
    assert_eq!(set(35, b"05022A"), refused(8, 3));
    assert_eq!(set(35, b"060225"), refused(10, 3));
    // Before the old date, but 12 is not seen at a 05.
    assert_eq!(set(35, b"010125"), refused(10, 3));
    assert_eq!(set(3, b"3000A"), refused(8, 3));
    assert_eq!(set(3, b"30001"), refused(10, 3));
    assert_eq!(set(21, b"X"), refused(8, 3));
    assert_eq!(set(8, b"X"), refused(10, 3));
    assert_eq!(set(12, b"1"), refused(10, 3));
    assert_eq!(set(17, b"X"), refused(10, 3));
    assert_eq!(set(20, b"3"), refused(10, 3));
    assert_eq!(set(32, b"B"), refused(10, 3));
    assert_eq!(set(33, b"0A"), refused(10, 3));
}

/// Each single byte of 3-40 counts. The other bytes fit their zones, the other dates exist.
#[test]
fn a4_each_byte_of_3_to_40() {
    let movement = b"0412345    00010EUR2 0001234567A05050225";
    let other_05 = b"  67890a~XY19998USD3 9990000000Z16161334";
    for position in (3..=40).filter(|&position| position != 21) {
        let byte = other_05[position - 1];
        assert_ne!(byte, movement[position - 1]);
        let sheet = with_complements().set(3, position, &[byte]);
        assert_eq!(sheet.answer(), refused(10, 3), "position {position}");
    }
}

/// 15 only for a record otherwise right.
#[test]
fn a5_lowest_number_at_the_10000th_record() {
    assert_eq!(long_statement(9_999).answer(), accepted(1, 9_997, 0));
    let long = long_statement(10_000);
    assert_eq!(long.answer(), refused(15, 10_000));
    let set = |position, bytes: &[u8]| long.clone().set(10_000, position, bytes).answer();
    assert_eq!(set(91, b"0000000010000A"), refused(13, 10_000));
    assert_eq!(set(35, b"040225"), refused(12, 10_000));
    assert_eq!(set(3, b"9"), refused(10, 10_000));
    assert_eq!(set(35, b"300225"), refused(9, 10_000));
    assert_eq!(set(41, b"X"), refused(8, 10_000));
    assert_eq!(set(1, b"03"), refused(6, 10_000));
    assert_eq!(set(120, b"\n"), refused(5, 10_000));
    // The place counts from the statement's 01.
    let second = empty_statement().then(long_statement(10_000));
    assert_eq!(second.answer(), refused(15, 10_002));
    let second = empty_statement().then(long_statement(9_999));
    assert_eq!(second.answer(), accepted(2, 9_997, 0));
}

#[test]
fn a5_second_mmo_at_the_10000th_record() {
    let mmo = || complement("05", "050225", "MMO", MMO);
    let sheet = long_statement(10_001).first(9_998);
    let sheet = sheet.with(9_999, mmo()).with(10_000, mmo());
    assert_eq!(sheet.answer(), refused(11, 10_000));
}

#[test]
fn a6_10000th_record_is_an_01() {
    let sheet = long_statement(10_001).first(9_999).then(worked());
    assert_eq!(sheet.answer(), refused(7, 10_000));
}

#[test]
fn a7_9999_records_and_the_end() {
    let sheet = long_statement(10_001);
    assert_eq!(sheet.clone().first(9_999).answer(), refused(14, 9_999));
    assert_eq!(sheet.first(10_000).answer(), refused(15, 10_000));
    let sheet = worked().then(long_statement(10_001)).first(10_003);
    assert_eq!(sheet.answer(), refused(14, 10_003));
}

#[test]
fn a8_out_of_place() {
    let lib = || complement("05", "050225", "LIB", "");
    // Outside a statement everything but 01.
    assert_eq!(worked().without(1).answer(), refused(7, 1));
    assert_eq!(Sheet(vec![lib()]).answer(), refused(7, 1));
    assert_eq!(
        worked().first(4).with(1, worked().0[3].clone()).answer(),
        refused(7, 1)
    );
    assert_eq!(worked().with(5, lib()).answer(), refused(7, 5));
    assert_eq!(
        worked().with(5, worked().0[1].clone()).answer(),
        refused(7, 5)
    );
    assert_eq!(
        worked().with(5, worked().0[3].clone()).answer(),
        refused(7, 5)
    );
    // Inside, an 01: it is the fault, not the 07 that is missing.
    assert_eq!(worked().without(4).then(worked()).answer(), refused(7, 4));
    assert_eq!(
        worked().with(2, worked().0[0].clone()).answer(),
        refused(7, 2)
    );
    // A 05 right after an 01, also where a movement stood in the statement before.
    assert_eq!(worked().with(2, lib()).answer(), refused(7, 2));
    assert_eq!(
        worked().then(worked().with(2, lib())).answer(),
        refused(7, 6)
    );
    // An unknown code is 6, wherever it stands.
    assert_eq!(worked().set(1, 1, b"02").answer(), refused(6, 1));
    assert_eq!(
        worked().then(worked().set(1, 1, b"06")).answer(),
        refused(6, 5)
    );
}

#[test]
fn a9_out_of_place_before_8_to_15() {
    let bad = vec![b'z'; 118];
    let sheet = worked().with(2, worked().0[0].clone()).set(2, 3, &bad);
    assert_eq!(sheet.answer(), refused(7, 2));
    let sheet = worked()
        .with(2, worked().0[0].clone())
        .set(2, 35, b"310225");
    assert_eq!(sheet.answer(), refused(7, 2));
    // 4, 5, 6 are lower.
    let sheet = worked().with(2, worked().0[0].clone());
    assert_eq!(sheet.clone().set(2, 60, b"\x7F").answer(), refused(5, 2));
    assert_eq!(sheet.clone().set(2, 1, b"00").answer(), refused(6, 2));
    let mut bytes = sheet.bytes(b"\n");
    bytes[2 * 121 - 1] = b'\r';
    assert_eq!(check(1, &bytes), refused(4, 2));
}

#[test]
fn a10_unknown_code() {
    assert_eq!(worked().set(2, 1, b"03").answer(), refused(6, 2));
    assert_eq!(worked().set(2, 1, b"03x").answer(), refused(6, 2));
    assert_eq!(worked().set(2, 1, b"0\x84").answer(), refused(5, 2));
}

#[test]
fn a11_line_ends_record_by_record() {
    let mut bytes = worked().set(2, 21, b"X").bytes(b"\n");
    bytes[3 * 121 - 1] = b' ';
    assert_eq!(check(1, &bytes), refused(8, 2));
    bytes[2 * 121 - 1] = b' ';
    assert_eq!(check(1, &bytes), refused(4, 2));
    bytes[121 + 60] = 0x7F;
    assert_eq!(check(1, &bytes), refused(4, 2));
}

#[test]
fn a12_line_end_of_which_record() {
    let mut bytes = worked().bytes(b"\r\n");
    bytes[4 * 122 - 2] = b'\n';
    assert_eq!(check(2, &bytes), refused(4, 4));
    // The last one missing, or the wrong line-end number: the length.
    let bytes = worked().bytes(b"\n");
    assert_eq!(check(1, &bytes[..4 * 121 - 1]), refused(2, 0));
    assert_eq!(check(1, &worked().bytes(b"\r\n")), refused(2, 0));
    assert_eq!(check(2, &worked().bytes(b"\n")), refused(2, 0));
    // Save where the length fits both.
    assert_eq!(check(1, &long_statement(121).bytes(b"\r\n")), refused(4, 1));
    assert_eq!(check(2, &long_statement(122).bytes(b"\n")), refused(4, 1));
    assert_eq!(check(1, &long_statement(121).bytes(b"")), refused(4, 1));
    assert_eq!(check(0, &long_statement(120).bytes(b"\n")), refused(5, 2));
    assert_eq!(check(0, &long_statement(60).bytes(b"\r\n")), refused(5, 2));
}

#[test]
fn a13_any_byte_in_a_line_end_is_4() {
    for byte in (0..=255).filter(|&byte| byte != b'\n') {
        let mut bytes = worked().bytes(b"\n");
        bytes[121 - 1] = byte;
        assert_eq!(check(1, &bytes), refused(4, 1));
    }
}

#[test]
fn a14_the_01_sets_the_key() {
    for (position, byte) in [(3, b"9"), (12, b"9"), (17, b"Z"), (20, b"9"), (22, b"Z")] {
        assert_eq!(worked().set(1, position, byte).answer(), refused(10, 2));
        assert_eq!(worked().set(2, position, byte).answer(), refused(10, 2));
        assert_eq!(worked().set(3, position, byte).answer(), refused(10, 3));
        assert_eq!(worked().set(4, position, byte).answer(), refused(10, 4));
        assert_eq!(
            empty_statement().set(1, position, byte).answer(),
            refused(10, 2)
        );
    }
    // The next statement sets its own.
    let other = (1..=4).fold(worked(), |sheet, record| sheet.set(record, 22, b"Z"));
    assert_eq!(worked().then(other).answer(), accepted(2, 4, 0));
}

/// Each single byte of the key counts, at the 01, 04 and 07.
#[test]
fn a14_each_byte_of_the_key() {
    let other = b"  67890    19998USD3 9990000000Z";
    let key = [3..=7, 12..=16, 17..=19, 20..=20, 22..=32];
    for position in key.into_iter().flatten() {
        let byte = [other[position - 1]];
        assert_eq!(worked().set(1, position, &byte).answer(), refused(10, 2));
        assert_eq!(worked().set(2, position, &byte).answer(), refused(10, 2));
        assert_eq!(worked().set(4, position, &byte).answer(), refused(10, 4));
    }
    // Internal operation and interbank operation are no part of it.
    assert_eq!(worked().set(2, 8, b"ABCD").answer(), accepted(1, 2, 0));
    assert_eq!(worked().set(2, 33, b"ZZ").answer(), accepted(1, 2, 0));
}

#[test]
fn a15_10_then_12_then_13_at_a_07() {
    let sheet = worked().set(4, 91, b"0000000012083D");
    assert_eq!(sheet.answer(), refused(13, 4));
    let sheet = sheet.set(4, 35, b"300125");
    assert_eq!(sheet.answer(), refused(12, 4));
    let sheet = sheet.set(4, 32, b"B");
    assert_eq!(sheet.answer(), refused(10, 4));
}

#[test]
fn a16_second_mmo() {
    let mmo = || complement("05", "050225", "MMO", MMO);
    let sheet = with_complements();
    assert_eq!(sheet.answer(), accepted(1, 2, 3));
    // Neighbouring, and with another complement between.
    assert_eq!(sheet.clone().with(5, mmo()).answer(), refused(11, 5));
    let second = sheet.clone().with(6, mmo());
    assert_eq!(second.answer(), refused(11, 6));
    // Something lower at the second one.
    assert_eq!(second.clone().set(6, 52, b"X").answer(), refused(8, 6));
    assert_eq!(second.clone().set(6, 35, b"310225").answer(), refused(9, 6));
    assert_eq!(
        second.clone().set(6, 35, b"060225").answer(),
        refused(10, 6)
    );
    // Each movement starts afresh.
    let other = complement("08", "070225", "MMO", MMO);
    assert_eq!(sheet.clone().with(7, other).answer(), accepted(1, 2, 4));
    // The qualifier is exactly MMO.
    let named = |name| {
        sheet
            .clone()
            .with(5, complement("05", "050225", name, "ABC"))
            .answer()
    };
    assert_eq!(named("MM0"), accepted(1, 2, 4));
    assert_eq!(named("OMM"), accepted(1, 2, 4));
    assert_eq!(named("mmo"), refused(8, 5));
}

#[test]
fn a17_statement_without_movements() {
    assert_eq!(empty_statement().answer(), accepted(1, 0, 0));
    let set = |position, bytes: &[u8]| empty_statement().set(2, position, bytes).answer();
    assert_eq!(set(35, b"310125"), accepted(1, 0, 0));
    assert_eq!(set(35, b"300125"), refused(12, 2));
    assert_eq!(set(91, b"0000000010000A"), refused(13, 2));
    assert_eq!(set(91, b"0000000010000}"), refused(13, 2));
}

#[test]
fn a18_14_comes_last() {
    assert_eq!(worked().first(3).answer(), refused(14, 3));
    assert_eq!(worked().first(1).answer(), refused(14, 1));
    assert_eq!(worked().first(3).set(3, 21, b"X").answer(), refused(8, 3));
    assert_eq!(
        worked().first(3).set(1, 35, b"310225").answer(),
        refused(9, 1)
    );
    assert_eq!(worked().then(worked()).first(6).answer(), refused(14, 6));
}

#[test]
fn a19_2_before_3() {
    let mut nonsense = vec![b'?'; 120 * 20_001];
    assert_eq!(check(0, &nonsense), refused(3, 0));
    nonsense.push(b'?');
    assert_eq!(check(0, &nonsense), refused(2, 0));
    assert_eq!(check(9, &nonsense), refused(1, 0));
    nonsense.truncate(120 * 20_000);
    assert_eq!(check(0, &nonsense), refused(6, 1));
    // 20,000 records are right.
    let sheet = long_statement(9_999).then(long_statement(9_999));
    assert_eq!(
        sheet.clone().then(empty_statement()).answer(),
        accepted(3, 19_994, 0)
    );
    assert_eq!(sheet.then(long_statement(3)).answer(), refused(3, 0));
}

#[test]
fn a20_no_bytes() {
    for line_end in 0..=2 {
        assert_eq!(check(line_end, b""), accepted(0, 0, 0));
    }
    assert_eq!(check(3, b""), refused(1, 0));
}

#[test]
fn a21_line_end_number_is_not_cut() {
    for line_end in [3, 256, 257, 258, 1 << 32, (1 << 32) + 1, u64::MAX] {
        assert_eq!(check(line_end, &worked().bytes(b"")), refused(1, 0));
        assert_eq!(check(line_end, b"x"), refused(1, 0));
    }
}

/// An accepted answer has no refusal and no record: the type says so.
#[test]
fn a22_accepted_answer() {
    assert_eq!(worked().answer(), accepted(1, 2, 0));
}

#[test]
fn b1_the_table_decides() {
    // The label is blank in the worked statement; any permitted byte may stand in it.
    assert_eq!(
        worked().set(2, 49, b" ~!a{}\\\"").answer(),
        accepted(1, 2, 0)
    );
    assert_eq!(worked().set(2, 8, b"a~ !").answer(), accepted(1, 2, 0));
    assert_eq!(
        worked().set(2, 105, b"  reference ~   ").answer(),
        accepted(1, 2, 0)
    );
    for flags in [b"00", b"01", b"10", b"11", b"  ", b" 1", b"0 "] {
        assert_eq!(worked().set(2, 89, flags).answer(), accepted(1, 2, 0));
    }
    for flags in [b"20", b"0A", b"-1", b"09"] {
        assert_eq!(worked().set(2, 89, flags).answer(), refused(8, 2));
    }
    // Capital letters only.
    assert_eq!(worked().set(2, 32, b"a").answer(), refused(8, 2));
    assert_eq!(worked().set(2, 17, b"e").answer(), refused(8, 2));
    assert_eq!(worked().set(2, 33, b"b1").answer(), refused(8, 2));
    assert_eq!(
        with_complements().set(3, 46, b"lib").answer(),
        refused(8, 3)
    );
}

#[test]
fn b2_and_b3_reject_reason() {
    for reason in [b"  ", b"00", b"42", b"99"] {
        assert_eq!(worked().set(2, 41, reason).answer(), accepted(1, 2, 0));
    }
    for reason in [b"4 ", b" 4", b"4A", b"AB", b"-4"] {
        assert_eq!(worked().set(2, 41, reason).answer(), refused(8, 2));
    }
}

#[test]
fn b4_debit_zero() {
    // Read as 0, so that the sum is wrong.
    for record in [1, 2, 3, 4] {
        let sheet = worked().set(record, 91, b"0000000000000}");
        assert_eq!(sheet.answer(), refused(13, 4));
    }
    // -10 is right: 100000 + 25050 - 10 = 125040.
    let sheet = worked().set(3, 91, b"0000000000001}");
    assert_eq!(
        sheet.set(4, 91, b"0000000012504{").answer(),
        accepted(1, 2, 0)
    );
    // A zero is right everywhere, with either sign.
    let zeros = [b"0000000000000{", b"0000000000000}"];
    for old in zeros {
        for new in zeros {
            let sheet = empty_statement().set(1, 91, old).set(2, 91, new);
            assert_eq!(sheet.answer(), accepted(1, 0, 0));
        }
    }
}

#[test]
fn b5_amount_of_an_mmo() {
    let set = |position, bytes: &[u8]| with_complements().set(4, position, bytes).answer();
    assert_eq!(set(53, b"00000000000000"), accepted(1, 2, 3));
    assert_eq!(set(53, b"99999999999999"), accepted(1, 2, 3));
    assert_eq!(set(52, b"9"), accepted(1, 2, 3));
    assert_eq!(set(53, b"0000000000270{"), refused(8, 4));
    assert_eq!(set(53, b"0000000000000}"), refused(8, 4));
    assert_eq!(set(53, b" 0000000002700"), refused(8, 4));
    assert_eq!(set(49, b"US1"), refused(8, 4));
    assert_eq!(set(52, b" "), refused(8, 4));
    assert_eq!(set(67, b"X"), refused(8, 4));
    assert_eq!(set(118, b"X"), refused(8, 4));
    assert_eq!(set(119, b"X"), refused(8, 4));
}

#[test]
fn b6_decimals_scale_nothing() {
    let sheet = (1..=4).fold(worked(), |sheet, record| sheet.set(record, 20, b"0"));
    assert_eq!(sheet.answer(), accepted(1, 2, 0));
}

#[test]
fn b7_value_dates_are_free() {
    for date in [b"010180", b"311279", b"300125", b"010325", b"290200"] {
        assert_eq!(worked().set(2, 43, date).answer(), accepted(1, 2, 0));
    }
    for date in [b"310225", b"000000", b"001225", b"011325", b"010025"] {
        assert_eq!(worked().set(2, 43, date).answer(), refused(9, 2));
    }
}

#[test]
fn b8_leap_years() {
    for year in 0..100 {
        let date = format!("2902{year:02}");
        let answer = worked().set(2, 43, date.as_bytes()).answer();
        let expected = match year % 4 {
            0 => accepted(1, 2, 0),
            _ => refused(9, 2),
        };
        assert_eq!(answer, expected);
    }
}

#[test]
fn b9_codes_need_not_be_listed() {
    for code in [b"16", b"19", b"ZZ", b"00", b"A3"] {
        assert_eq!(worked().set(2, 33, code).answer(), accepted(1, 2, 0));
    }
    for code in [b"  ", b"0 ", b"a3", b"-1"] {
        assert_eq!(worked().set(2, 33, code).answer(), refused(8, 2));
    }
}

#[test]
fn b10_qualifier() {
    for qualifier in [b"000", b"ZZZ", b"A1B"] {
        let sheet = with_complements().set(3, 46, qualifier);
        assert_eq!(sheet.answer(), accepted(1, 2, 3));
    }
    for qualifier in [b"   ", b"AB ", b" AB", b"A-B"] {
        let sheet = with_complements().set(3, 46, qualifier);
        assert_eq!(sheet.answer(), refused(8, 3));
    }
}

#[test]
fn b11_information_takes_blanks_and_any_permitted_byte() {
    let information = format!("  a~{:64} !", "");
    let sheet = with_complements().set(3, 49, information.as_bytes());
    assert_eq!(sheet.answer(), accepted(1, 2, 3));
    assert_eq!(with_complements().set(3, 119, b"X").answer(), refused(8, 3));
}

/// Off by 2^16 and 2^32, which a cut of the sum would not see: 120833 + 65536 = 186369 and
/// 120833 + 4294967296 = 4295088129.
#[test]
fn sum_is_not_cut() {
    let set = |amount| worked().set(4, 91, amount).answer();
    assert_eq!(set(b"0000000018636I"), refused(13, 4));
    assert_eq!(set(b"0000429508812I"), refused(13, 4));
}

/// The sum may leave the 14 digits and come back (H7).
#[test]
fn h7_sum_beyond_14_digits_on_the_way() {
    let most = |sign| movement("05", "050225", "050225", &format!("9999999999999{sign}"));
    let mut lines = vec![balance("01", "310125", "9999999999999I")];
    lines.extend(vec![most('I'); 4_000]);
    lines.extend(vec![most('R'); 4_001]);
    lines.push(balance("07", "280225", "0000000000000{"));
    assert_eq!(Sheet(lines).answer(), accepted(1, 8_001, 0));
}
