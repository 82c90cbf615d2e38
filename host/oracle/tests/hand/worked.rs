//! The worked examples of the paper, as far as the check sees them.

use crate::common::{accepted, complement, empty_statement, refused, with_complements, worked};
use oracle::check::{amount, check, date};

#[test]
fn amounts() {
    assert_eq!(amount(b"0000000010000{"), Some(100_000));
    assert_eq!(amount(b"0000000000421P"), Some(-4_217));
    assert_eq!(amount(b"0000000000000{"), Some(0));
    assert_eq!(amount(b"0000000000000}"), Some(0));
    assert_eq!(amount(b"9999999999999R"), Some(-99_999_999_999_999));
    assert_eq!(amount(b"00000000000005"), None);
}

#[test]
fn all_sign_characters() {
    for (digit, sign) in b"{ABCDEFGHI".iter().enumerate() {
        let zone = [b"0000000000001".as_slice(), &[*sign]].concat();
        assert_eq!(amount(&zone), Some(10 + digit as i128));
    }
    for (digit, sign) in b"}JKLMNOPQR".iter().enumerate() {
        let zone = [b"0000000000001".as_slice(), &[*sign]].concat();
        assert_eq!(amount(&zone), Some(-10 - digit as i128));
    }
    let signs = b"{ABCDEFGHI}JKLMNOPQR";
    for sign in (0..=255).filter(|byte| !signs.contains(byte)) {
        let zone = [b"0000000000001".as_slice(), &[sign]].concat();
        assert_eq!(amount(&zone), None);
    }
}

#[test]
fn bad_amounts_are_refusal_8() {
    assert_eq!(worked().set(2, 104, b"5").answer(), refused(8, 2));
    assert_eq!(worked().set(2, 104, b"~").answer(), refused(8, 2));
    assert_eq!(worked().set(2, 91, b"}").answer(), refused(8, 2));
}

#[test]
fn dates() {
    assert_eq!(date(b"290224"), Some(20240229));
    assert_eq!(date(b"290225"), None);
    assert_eq!(date(b"290200"), Some(20000229));
    assert_eq!(date(b"010180"), Some(19800101));
    assert_eq!(date(b"311279"), Some(20791231));
    assert_eq!(date(b"311299"), Some(19991231));
    assert_eq!(worked().set(2, 43, b"290225").answer(), refused(9, 2));
}

#[test]
fn last_days_of_the_months() {
    let lengths = [31, 28, 31, 30, 31, 30, 31, 31, 30, 31, 30, 31];
    for (month, length) in (1..).zip(lengths) {
        for day in 0..100 {
            let exists = date(format!("{day:02}{month:02}25").as_bytes()).is_some();
            assert_eq!(exists, day >= 1 && day <= length, "{day} {month}");
        }
    }
    for month in (0..100).filter(|month| !(1..=12).contains(month)) {
        assert_eq!(date(format!("01{month:02}25").as_bytes()), None);
    }
}

#[test]
fn the_worked_statement_with_each_line_end() {
    assert_eq!(check(0, &worked().bytes(b"")), accepted(1, 2, 0));
    assert_eq!(check(1, &worked().bytes(b"\n")), accepted(1, 2, 0));
    assert_eq!(check(2, &worked().bytes(b"\r\n")), accepted(1, 2, 0));
}

#[test]
fn counts_over_several_statements() {
    let sheet = with_complements().then(empty_statement()).then(worked());
    assert_eq!(sheet.answer(), accepted(3, 4, 3));
}

/// Taking J for 10 would read the last digit of a debit wrongly.
#[test]
fn j_is_one() {
    let sheet = worked()
        .set(3, 91, b"0000000000421J")
        .set(4, 91, b"0000000012083I");
    assert_eq!(sheet.answer(), accepted(1, 2, 0));
}

/// Every zone of every record, each position, hit by every byte: the answer is 5, 6, 8 or what
/// the table below leaves open. `.` any permitted byte, `9` digit, `A` letter, `X` either,
/// `_` blank, `r` reject reason, `f` flag, `s` amount, `c` code, `d` date.
#[test]
fn every_byte_at_every_position() {
    let common = |operation: &str, free: &str| {
        format!("cc99999{free}99999AAA9_XXXXXXXXXXX{operation}dddddd")
    };
    let balance = format!(
        "{}{}{}{}",
        common("__", "____"),
        "_".repeat(50),
        "s".repeat(14),
        "_".repeat(16)
    );
    let movement = format!(
        "{}rrdddddd{}__9999999ff{}{}",
        common("XX", "...."),
        ".".repeat(31),
        "s".repeat(14),
        ".".repeat(16)
    );
    let complement = format!("{}_____XXX{}__", common("XX", "...."), ".".repeat(70));
    let mmo = format!(
        "{}_____XXXAAA9{}{}__",
        common("XX", "...."),
        "9".repeat(14),
        "_".repeat(52)
    );
    let patterns = [
        (1, &balance),
        (2, &movement),
        (3, &complement),
        (4, &mmo),
        (7, &balance),
    ];
    for (record, pattern) in patterns {
        assert_eq!(pattern.len(), 120);
        for (index, class) in pattern.bytes().enumerate() {
            for byte in 0..=255 {
                try_byte(record, index + 1, class, byte);
            }
        }
    }
}

fn try_byte(record: usize, position: usize, class: u8, byte: u8) {
    let permitted = (0x20..=0x7E).contains(&byte);
    let fits = match class {
        b'9' | b'd' => byte.is_ascii_digit(),
        b'A' => byte.is_ascii_uppercase(),
        b'X' => byte.is_ascii_uppercase() || byte.is_ascii_digit(),
        b'_' => byte == b' ',
        b'f' => b"01 ".contains(&byte),
        // Both bytes are blank, so a lone digit is wrong.
        b'r' => byte == b' ',
        b's' if position == 104 => b"{ABCDEFGHI}JKLMNOPQR".contains(&byte),
        b's' => byte.is_ascii_digit(),
        _ => permitted,
    };
    let answer = with_complements().set(record, position, &[byte]).answer();
    let what = format!("record {record} position {position} byte {byte:02x}: {answer:?}");
    let record = record as u64;
    if !permitted {
        assert_eq!(answer, refused(5, record), "{what}");
    } else if class == b'c' {
        // 0 and 1, 4, 5, 7 may make another known code.
        let other_code = position == 2 && b"1457".contains(&byte) || position == 1 && byte == b'0';
        assert!(other_code || answer == refused(6, record), "{what}");
    } else {
        assert_eq!(answer == refused(8, record), !fits, "{what}");
    }
}

#[test]
fn a_complement_in_another_movement() {
    let sheet = with_complements().with(7, complement("08", "070225", "LIB", "CHEQUE"));
    assert_eq!(sheet.answer(), accepted(1, 2, 4));
}
