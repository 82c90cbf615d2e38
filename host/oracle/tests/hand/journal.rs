//! Readings F1 to F5, F13, F14, F21, F22: lengths, opening, the sound test, entries.

use crate::common::{balance, movement, Sheet};
use crate::shelf::{
    accounts, april, b, blank, february, journal, march, of_account, other_standstill, refusal,
    standstill, three_months, with, APRIL, FEBRUARY, KEY, MARCH,
};
use oracle::delivery::{deliver, newest};
use oracle::journal::{body, entry, is_sound, open};
use oracle::read::Place;

/// Lengths that no journal has; the longest journal has 12,007,680 bytes.
const WRONG_LENGTHS: [usize; 11] = [
    0, 1, 120, 7_560, 7_679, 7_681, 7_740, 7_799, 12_007_679, 12_007_681, 12_007_800,
];

#[test]
fn f1_lengths_that_none_has() {
    for length in WRONG_LENGTHS {
        // Blanks would be sound, were it not for the length.
        for byte in [b' ', b'.'] {
            let before = vec![byte; length];
            let mut buffer = before.clone();
            assert_eq!(open(&mut buffer), refusal(21, 0));
            assert!(buffer == before);
            assert!(!is_sound(&buffer));
            assert_eq!(entry(&buffer, 1), refusal(21, 0));
            assert_eq!(body(&buffer, 1), refusal(21, 0));
            assert_eq!(deliver(&mut buffer, 0, b""), refusal(21, 0));
            assert!(buffer == before);
            assert_eq!(newest(&buffer, 0, b"", KEY), refusal(21, 0));
        }
    }
}

#[test]
fn f1_lengths_of_journals() {
    for length in [7_680, 7_800, 7_920, 12_007_560, 12_007_680] {
        let mut buffer = vec![b'.'; length];
        assert!(!is_sound(&buffer));
        assert_eq!(open(&mut buffer), Ok(()));
        assert!(buffer.iter().all(|&byte| byte == b' '));
        assert!(is_sound(&buffer));
    }
}

#[test]
fn f2_opening_blanks_any_buffer() {
    let mut filled = three_months();
    assert_eq!(open(&mut filled), Ok(()));
    assert!(filled == blank(12));
    let mut buffer: Vec<u8> = (0..7_800).map(|offset| offset as u8).collect();
    assert_eq!(open(&mut buffer), Ok(()));
    assert!(buffer == blank(1));
}

#[test]
fn f3_the_layout_is_sound() {
    assert!(is_sound(&three_months()));
    assert!(is_sound(&journal(4, &[FEBRUARY], &[february()])));
    assert!(is_sound(&blank(0)));
    assert!(is_sound(&accounts(128, 256)));
}

/// Each single byte of a used entry is what it must be.
#[test]
fn f3_each_byte_of_an_entry() {
    let sound = three_months();
    for offset in 0..180 {
        for byte in [b'~', b' ', b'5', b'Z', 0x00, 0xFF] {
            if byte != sound[offset] {
                let changed = with(sound.clone(), offset, &[byte]);
                assert!(!is_sound(&changed), "offset {offset}, byte {byte:02x}");
            }
        }
    }
}

/// Unused entries and lines are blank in every byte.
#[test]
fn f3_each_byte_of_unused_parts() {
    let sound = three_months();
    let unused = (180..7_680).chain(7_680 + 9 * 120..sound.len());
    for offset in unused {
        let byte = [b'0', b'~', 0x00, 0xFF][offset % 4];
        assert!(!is_sound(&with(sound.clone(), offset, &[byte])));
    }
}

/// Leading zeros, and no other form of a number.
#[test]
fn f3_numbers_of_an_entry() {
    let sound = three_months();
    // The second entry says line 4 and 3 records.
    for line in [
        "     4", "4     ", "+00004", "000003", "000005", "000000", "00000D",
    ] {
        assert!(!is_sound(&with(sound.clone(), 60 + 37, line.as_bytes())));
    }
    for records in [
        "   3", "3   ", "+003", "0002", "0004", "0000", "0005", "9999",
    ] {
        assert!(!is_sound(&with(sound.clone(), 60 + 43, records.as_bytes())));
    }
}

#[test]
fn f3_entries_fill_from_the_first() {
    let bodies = [february(), march()];
    let in_order = journal(8, &[FEBRUARY, MARCH], &bodies);
    assert!(is_sound(&in_order));
    assert!(!is_sound(&journal(8, &[MARCH, FEBRUARY], &bodies)));
    // An entry beyond a gap, an entry missing, an entry twice.
    let gap = with(in_order.clone(), 60, &in_order[120..180]);
    let gap = with(gap, 120, &in_order[60..120]);
    assert!(!is_sound(&gap));
    assert!(!is_sound(&with(in_order.clone(), 0, &[b' '; 60])));
    assert!(!is_sound(&with(in_order.clone(), 60, &[b' '; 60])));
    assert!(!is_sound(&journal(8, &[FEBRUARY, MARCH, MARCH], &bodies)));
    // A body missing, and both gone.
    assert!(!is_sound(&journal(8, &[FEBRUARY, MARCH], &bodies[..1])));
    assert!(is_sound(&journal(8, &[FEBRUARY], &bodies[..1])));
}

/// Bodies stand one after another from line 0, with no line between.
#[test]
fn f3_bodies_from_line_0() {
    let line = Sheet(vec![vec![b' '; 120]]);
    let february_late = "1234500010EUR20001234567A3101252802250000010004";
    let late = journal(8, &[february_late], &[line.clone(), february()]);
    assert!(!is_sound(&late));
    let march_late = "1234500010EUR20001234567A2802253103250000050003";
    let between = journal(8, &[FEBRUARY, march_late], &[february(), line, march()]);
    assert!(!is_sound(&between));
}

/// The body must be accepted alone, and its key and dates are those of the entry.
#[test]
fn f3_bodies() {
    let changed = |record, position, bytes: &[u8]| {
        is_sound(&journal(
            4,
            &[FEBRUARY],
            &[february().set(record, position, bytes)],
        ))
    };
    assert!(!changed(1, 2, b"9"));
    assert!(!changed(1, 21, b"X"));
    assert!(!changed(2, 22, b"1"));
    assert!(!changed(4, 104, b"D"));
    assert!(!changed(1, 35, b"300125"));
    assert!(!changed(4, 35, b"010325"));
    assert!(!changed(3, 120, b"\n"));
    // Free zones: another statement, but a sound journal.
    assert!(changed(2, 49, b"LABEL"));
    assert!(changed(2, 105, b"REFERENCE"));
    assert!(changed(3, 43, b"010180"));
    // The whole key changed in the body, but not in the entry.
    assert!(!is_sound(&journal(4, &[FEBRUARY], &[b(february())])));
    // No statement at all.
    let nothing = "1234500010EUR20001234567A3101252802250000000000";
    assert!(!is_sound(&journal(4, &[nothing], &[])));
}

/// Two chained statements are an accepted file, but not one entry.
#[test]
fn f3_two_statements_as_one_entry() {
    let both = "1234500010EUR20001234567A3101253103250000000007";
    let bodies = [february(), march()];
    assert!(!is_sound(&journal(8, &[both], &bodies)));
    assert!(!is_sound(&journal(7, &[both, MARCH], &bodies)));
}

#[test]
fn f4_no_two_with_identical_records() {
    let entry = "1234500010EUR20001234567A3004253004250000000002";
    let again = "1234500010EUR20001234567A3004253004250000020002";
    let other = "1234500010EUR20001234567A3004253004250000020003";
    let twice = journal(6, &[entry, again], &[standstill(), standstill()]);
    assert!(!is_sound(&twice));
    // Another one of the same day follows.
    let different = journal(6, &[entry, other], &[standstill(), other_standstill()]);
    assert!(is_sound(&different));
}

#[test]
fn f5_accounts_may_be_interleaved_and_begin_anywhere() {
    let march_b = "1234500010EUR20001234567B2802253103250000040003";
    let march_a = "1234500010EUR20001234567A2802253103250000070003";
    let april_b = "1234500010EUR20001234567B3103253004250000100002";
    let entries = [FEBRUARY, march_b, march_a, april_b];
    let bodies = [february(), b(march()), march(), b(april())];
    assert!(is_sound(&journal(12, &entries, &bodies)));
}

/// The chain is the account's, not the bank's.
#[test]
fn f5_chain_broken_for_one_account() {
    let march_b = "1234500010EUR20001234567B2802253103250000040003";
    let bodies = [february(), b(march()), april()];
    assert!(!is_sound(&journal(9, &[FEBRUARY, march_b, APRIL], &bodies)));
    // The first of another account may begin there.
    let april_c = "1234500010EUR20001234567C3103253004250000070002";
    let bodies = [february(), b(march()), of_account("0001234567C", april())];
    assert!(is_sound(&journal(
        9,
        &[FEBRUARY, march_b, april_c],
        &bodies
    )));
}

/// The same date with another balance, the same balance on an earlier day and on a later one.
#[test]
fn f5_chain_by_balance_and_date() {
    let chained = |date: &str, old: &str, new: &str| {
        let sheet = Sheet(vec![
            balance("01", date, old),
            movement("05", "100325", "100325", "0000000000100{"),
            balance("07", "310325", new),
        ]);
        let entry = format!("1234500010EUR20001234567A{date}3103250000040003");
        is_sound(&journal(8, &[FEBRUARY, &entry], &[february(), sheet]))
    };
    assert!(chained("280225", "0000000012083C", "0000000012183C"));
    assert!(!chained("280225", "0000000012083D", "0000000012183D"));
    assert!(!chained("280225", "0000000012083L", "0000000011983L"));
    assert!(!chained("270225", "0000000012083C", "0000000012183C"));
    assert!(chained("010325", "0000000012083C", "0000000012183C"));
    assert!(!chained("010325", "0000000012083D", "0000000012183D"));
}

/// 25 for 0 and for all above the entries used; 21 first.
#[test]
fn f14_entries_by_number() {
    let sound = three_months();
    let place = |first, length| Ok(Place { first, length });
    assert_eq!(entry(&sound, 1), place(7_680, 480));
    assert_eq!(entry(&sound, 2), place(8_160, 360));
    assert_eq!(entry(&sound, 3), place(8_520, 240));
    assert_eq!(body(&sound, 2), Ok(&march().bytes(b"")[..]));
    for e in [0, 4, 128, 129, 256, 1 << 32, (1 << 32) + 1, u64::MAX] {
        assert_eq!(entry(&sound, e), refusal(25, 0));
        assert_eq!(body(&sound, e), refusal(25, 0));
    }
    let unsound = with(sound, 7_679, b"0");
    for e in [0, 1, 4, u64::MAX] {
        assert_eq!(entry(&unsound, e), refusal(21, 0));
        assert_eq!(body(&unsound, e), refusal(21, 0));
    }
    assert_eq!(entry(&blank(0), 1), refusal(25, 0));
    let full = accounts(128, 256);
    assert_eq!(entry(&full, 128), place(7_680 + 254 * 120, 240));
    assert_eq!(entry(&full, 129), refusal(25, 0));
}

/// The sound test has an answer for any bytes.
#[test]
fn f21_the_sound_test_is_total() {
    for byte in 0..=255 {
        for length in [0, 60, 7_680, 7_681, 7_800, 8_160] {
            let right = length == 7_680 || length == 7_800 || length == 8_160;
            let sound = byte == b' ' && right;
            assert_eq!(is_sound(&vec![byte; length]), sound);
        }
    }
}

/// Body lines count from 0, entries from 1.
#[test]
fn f22_numbering() {
    let mut fresh = blank(4);
    let february = february().bytes(b"\n");
    assert!(deliver(&mut fresh, 1, &february).is_ok());
    assert_eq!(&fresh[37..43], b"000000");
    assert_eq!(&fresh[43..47], b"0004");
    assert_eq!(
        entry(&fresh, 1),
        Ok(Place {
            first: 7_680,
            length: 480
        })
    );
}
