//! The worked listing and the readings of the listing (G), outputs derived by hand.

use crate::common::{balance, long_statement, movement, with_complements, worked, Sheet};
use oracle::listing::listing;

/// The output of the worked statement up to its last line.
const WORKED: &str = "\
S 12345 00010 0001234567A EUR 2 2025-01-31 100000 2 2025-02-28 120833
M 2025-02-05 2025-02-06 05 25050
M 2025-02-07 2025-02-07 08 -4217
";

fn listed(sheet: &Sheet) -> String {
    listing(&sheet.bytes(b"\n"))
}

#[test]
fn the_worked_example() {
    assert_eq!(listed(&worked()), format!("{WORKED}OK 1\n"));
    let twice = worked().then(worked());
    assert_eq!(listed(&twice), format!("{WORKED}{WORKED}OK 2\n"));
}

/// 540 records are 65,340 bytes.
#[test]
fn g1_over_65340_bytes() {
    let mut bytes = long_statement(540).bytes(b"\n");
    assert_eq!(bytes.len(), 65_340);
    let head = "S 12345 00010 0001234567A EUR 2 2025-01-31 100000 538 2025-02-28 100000\n";
    let movements = "M 2025-02-05 2025-02-05 05 0\n".repeat(538);
    assert_eq!(listing(&bytes), format!("{head}{movements}OK 1\n"));
    bytes.push(b'\n');
    assert_eq!(listing(&bytes), "TROP LONG\n");
    assert_eq!(listed(&long_statement(541)), "TROP LONG\n");
    // Also for a file that would be refused; a fault within the limit is told.
    let spoilt = long_statement(540).set(540, 1, b"09");
    assert_eq!(listed(&spoilt), "REFUS 6 540\n");
    assert_eq!(listing(&vec![b'x'; 65_340]), "REFUS 4 1\n");
    assert_eq!(listing(&vec![b'x'; 65_341]), "TROP LONG\n");
    assert_eq!(listing(&vec![0; 65_339]), "REFUS 2 0\n");
    // 3 and 15 cannot occur.
    assert_eq!(listed(&long_statement(10_000)), "TROP LONG\n");
    assert_eq!(listing(&vec![b'x'; 20_001 * 121]), "TROP LONG\n");
}

#[test]
fn g2_record_0_is_printed() {
    let mut bytes = worked().bytes(b"\n");
    bytes.pop();
    assert_eq!(listing(&bytes), "REFUS 2 0\n");
    assert_eq!(listing(b"\n"), "REFUS 2 0\n");
    assert_eq!(listing(&worked().bytes(b"")), "REFUS 2 0\n");
    assert_eq!(listing(&worked().bytes(b"\r\n")), "REFUS 2 0\n");
    assert_eq!(listing(&worked().bytes(b"\r")), "REFUS 4 1\n");
}

#[test]
fn g3_empty_input() {
    assert_eq!(listing(b""), "OK 0\n");
}

#[test]
fn g4_lf_after_each_line() {
    let outputs = [
        (listing(b""), 1),
        (listing(b"x"), 1),
        (listing(&vec![b' '; 70_000]), 1),
        (listed(&worked()), 4),
    ];
    for (output, lines) in outputs {
        assert!(output.ends_with('\n') && !output.contains('\r'));
        assert_eq!(output.matches('\n').count(), lines);
    }
}

/// Bank, branch, account, currency, decimals. (G5 is tried with the command.)
#[test]
fn g6_order_of_the_s_line() {
    let mut sheet = worked();
    for record in 1..=4 {
        sheet = sheet.set(record, 3, b"00001").set(record, 12, b"00000");
        sheet = sheet
            .set(record, 17, b"XAF0")
            .set(record, 22, b"ZZZZZZZZZZZ");
    }
    let head = "S 00001 00000 ZZZZZZZZZZZ XAF 0 2025-01-31 100000 2 2025-02-28 120833\n";
    assert!(listed(&sheet).starts_with(head));
}

#[test]
fn g7_a_refusal_in_statement_2() {
    let sheet = worked().then(worked());
    assert_eq!(listed(&sheet.clone().set(7, 81, b"X")), "REFUS 8 7\n");
    assert_eq!(listed(&sheet.clone().without(8)), "REFUS 14 7\n");
    assert_eq!(listed(&sheet.set(8, 104, b"D")), "REFUS 13 8\n");
}

#[test]
fn g8_nothing_else_is_listed() {
    let expected = format!("{WORKED}OK 1\n");
    assert_eq!(listed(&with_complements()), expected);
    let sheet = worked().set(2, 8, b"ABCD").set(2, 41, b"12");
    let sheet = sheet.set(2, 49, b"VIREMENT").set(2, 82, b"1234567");
    let sheet = sheet.set(2, 89, b"1 ").set(2, 105, b"REFERENCE");
    assert_eq!(listed(&sheet), expected);
    // A withdrawn code, an absent one: no mark.
    let sheet = worked().set(2, 33, b"16").set(3, 33, b"ZZ");
    let expected = expected.replace(" 05 25050", " 16 25050");
    assert_eq!(listed(&sheet), expected.replace(" 08 -4217", " ZZ -4217"));
}

/// No leading zeros, a minus before a debit, zero without a sign, centuries.
#[test]
fn amounts_and_dates() {
    let sheet = Sheet(vec![
        balance("01", "010180", "9999999999999R"),
        movement("01", "311299", "290200", "9999999999999I"),
        movement("A1", "010100", "311279", "0000000000000{"),
        movement("99", "090905", "010180", "0000000000000J"),
        movement("0Z", "311279", "311279", "0000000000001}"),
        balance("07", "311279", "0000000000001J"),
    ]);
    let expected = "\
S 12345 00010 0001234567A EUR 2 1980-01-01 -99999999999999 4 2079-12-31 -11
M 1999-12-31 2000-02-29 01 99999999999999
M 2000-01-01 2079-12-31 A1 0
M 2005-09-09 1980-01-01 99 -1
M 2079-12-31 2079-12-31 0Z -10
OK 1
";
    assert_eq!(listed(&sheet), expected);
}
