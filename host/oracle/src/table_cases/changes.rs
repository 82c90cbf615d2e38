//! Changes of the worked example with complements, each with the answer of the writer to it.

use super::worked::add_complement;
use crate::values::Values;

/// A name, the refusal expected or 0, the change.
pub type Change = (&'static str, u32, fn(&mut Values));

/// Zones of the key and of a 04.
pub const ZONES: [Change; 38] = [
    ("bank-letter", 19, |v| v.head.key.bank[4] = b'A'),
    ("bank-blank", 19, |v| v.head.key.bank[0] = b' '),
    ("branch-letter", 19, |v| v.head.key.branch[0] = b'O'),
    ("currency-digit", 19, |v| v.head.key.currency[2] = b'1'),
    ("currency-lower-case", 19, |v| v.head.key.currency = *b"eur"),
    ("decimals-9", 0, |v| v.head.key.decimals = b'9'),
    ("decimals-as-a-number", 19, |v| v.head.key.decimals = 2),
    ("decimals-blank", 19, |v| v.head.key.decimals = b' '),
    ("account-lower-case", 19, |v| v.head.key.account[10] = b'a'),
    ("account-blank", 19, |v| v.head.key.account[0] = b' '),
    ("internal-7e", 0, |v| v.rows[0].internal = [0x7E; 4]),
    ("internal-7f", 19, |v| v.rows[0].internal[3] = 0x7F),
    ("internal-of-the-last-nul", 19, |v| {
        v.rows[1].internal[0] = 0
    }),
    ("code-letters", 0, |v| v.rows[0].code = *b"Z9"),
    ("code-lower-case", 19, |v| v.rows[0].code = *b"a3"),
    ("code-blank", 19, |v| v.rows[0].code = *b"  "),
    ("reject-digit-blank", 19, |v| v.rows[0].reject = *b"0 "),
    ("reject-blank-digit", 19, |v| v.rows[0].reject = *b" 0"),
    ("reject-digits", 0, |v| v.rows[0].reject = *b"09"),
    ("reject-letters", 19, |v| v.rows[0].reject = *b"AB"),
    ("label-20", 0, |v| v.rows[0].label = [0x20; 31]),
    ("label-7e", 0, |v| v.rows[0].label = [0x7E; 31]),
    ("label-1f", 19, |v| v.rows[0].label[0] = 0x1F),
    ("label-7f", 19, |v| v.rows[0].label[30] = 0x7F),
    ("label-ff", 19, |v| v.rows[1].label[15] = 0xFF),
    ("entry-9999999", 0, |v| v.rows[0].entry = 9_999_999),
    ("entry-10000000", 19, |v| v.rows[0].entry = 10_000_000),
    ("entry-most", 19, |v| v.rows[1].entry = u32::MAX),
    ("exempt-1", 0, |v| v.rows[0].exempt = b'1'),
    ("exempt-blank", 0, |v| v.rows[0].exempt = b' '),
    ("exempt-2", 19, |v| v.rows[0].exempt = b'2'),
    ("exempt-as-a-number", 19, |v| v.rows[0].exempt = 0),
    ("unavailable-1", 0, |v| v.rows[1].unavailable = b'1'),
    ("unavailable-blank", 0, |v| v.rows[1].unavailable = b' '),
    ("unavailable-2", 19, |v| v.rows[1].unavailable = b'2'),
    ("reference-7e", 0, |v| v.rows[1].reference = [0x7E; 16]),
    ("reference-1f", 19, |v| v.rows[1].reference[15] = 0x1F),
    ("reference-80", 19, |v| v.rows[1].reference[0] = 0x80),
];

/// Zones of the 05. The three are LIB and MMO of the first movement and NPY of the second.
pub const COMPLEMENTS: [Change; 30] = [
    ("mmo-twice", 19, |v| copy_complement(v, 1, 0)),
    ("mmo-of-each-movement", 0, |v| copy_complement(v, 1, 2)),
    ("mmo-twice-one-malformed", 19, |v| {
        copy_complement(v, 1, 0);
        set(v, 0, 4, b'*');
    }),
    ("mmo-three-of-two-movements", 19, |v| {
        copy_complement(v, 1, 0);
        copy_complement(v, 1, 2);
    }),
    ("mmo-twice-one-between", 19, |v| {
        mmo_at_both_ends(v);
        set_counts(v, 3, 0);
    }),
    ("mmo-at-both-ends-of-two", 0, mmo_at_both_ends),
    ("mmo-amount-letter", 19, |v| set(v, 1, 20, b'A')),
    ("mmo-amount-first-blank", 19, |v| set(v, 1, 7, b' ')),
    ("mmo-amount-sign", 19, |v| set(v, 1, 20, b'{')),
    ("mmo-amount-nines", 0, |v| {
        (7..=20).for_each(|place| set(v, 1, place, b'9'))
    }),
    ("mmo-amount-zero", 0, |v| {
        (7..=20).for_each(|place| set(v, 1, place, b'0'))
    }),
    ("mmo-decimals-letter", 19, |v| set(v, 1, 6, b'O')),
    ("mmo-decimals-9", 0, |v| set(v, 1, 6, b'9')),
    ("mmo-currency-digit", 19, |v| set(v, 1, 3, b'1')),
    ("mmo-currency-lower-case", 19, |v| set(v, 1, 5, b'd')),
    ("mmo-first-blank-filled", 19, |v| set(v, 1, 21, b'0')),
    ("mmo-last-blank-filled", 19, |v| set(v, 1, 72, b'.')),
    ("mmo-as-text-lib", 0, |v| {
        (0..3).for_each(|i| set(v, 1, i, b"LIB"[i]))
    }),
    ("text-as-mmo", 19, |v| {
        (0..3).for_each(|i| set(v, 2, i, b"MMO"[i]))
    }),
    ("mm0-is-another", 0, |v| set(v, 1, 2, b'0')),
    ("mmo-lower-case", 19, |v| {
        (0..3).for_each(|i| set(v, 1, i, b"mmo"[i]))
    }),
    ("qualifier-lower-case", 19, |v| set(v, 0, 2, b'b')),
    ("qualifier-blank", 19, |v| set(v, 2, 2, b' ')),
    ("qualifier-all-blank", 19, |v| {
        (0..3).for_each(|i| set(v, 0, i, b' '))
    }),
    ("qualifier-digits", 0, |v| {
        (0..3).for_each(|i| set(v, 0, i, b'0'))
    }),
    ("information-20-and-7e", 0, |v| {
        (3..73).for_each(|i| set(v, 0, i, if i % 2 == 0 { 0x20 } else { 0x7E }))
    }),
    ("information-7f", 19, |v| set(v, 0, 3, 0x7F)),
    ("information-1f", 19, |v| set(v, 2, 72, 0x1F)),
    ("information-line-end", 19, |v| set(v, 2, 40, b'\n')),
    ("information-of-the-mmo-nul", 19, |v| set(v, 1, 72, 0)),
];

/// Sets one byte of a complement; both count from 0.
fn set(values: &mut Values, complement: usize, place: usize, byte: u8) {
    values.complements[73 * complement + place] = byte;
}

/// Puts a complement in the place of another.
fn copy_complement(values: &mut Values, from: usize, to: usize) {
    values
        .complements
        .copy_within(73 * from..73 * (from + 1), 73 * to);
}

/// MMO, LIB, MMO.
fn mmo_at_both_ends(values: &mut Values) {
    copy_complement(values, 1, 2);
    copy_complement(values, 0, 1);
    copy_complement(values, 2, 0);
}

/// Counts and the length of the complements. Three stand there; the counts are 2 and 1.
pub const COUNTS: [Change; 25] = [
    ("counts-3-0", 0, |v| set_counts(v, 3, 0)),
    ("counts-0-3", 0, |v| set_counts(v, 0, 3)),
    ("counts-1-2", 0, |v| set_counts(v, 1, 2)),
    ("counts-one-less", 19, |v| set_counts(v, 1, 1)),
    ("counts-one-more", 19, |v| set_counts(v, 2, 2)),
    ("counts-none", 19, |v| set_counts(v, 0, 0)),
    ("counts-9997", 19, |v| set_counts(v, 2, 9_993)),
    ("counts-9999", 19, |v| set_counts(v, 2, 9_999)),
    ("counts-2-to-63-twice", 19, |v| {
        set_counts(v, 1 << 63, 1 << 63)
    }),
    ("counts-2-to-63-twice-and-3", 19, |v| {
        set_counts(v, (1 << 63) + 2, (1 << 63) + 1)
    }),
    ("counts-most-and-4", 19, |v| set_counts(v, u64::MAX, 4)),
    ("counts-4-and-most", 19, |v| set_counts(v, 4, u64::MAX)),
    ("counts-most", 19, |v| set_counts(v, u64::MAX, 0)),
    ("counts-most-twice", 19, |v| {
        set_counts(v, u64::MAX, u64::MAX)
    }),
    ("counts-2-to-32-more", 19, |v| {
        set_counts(v, (1 << 32) + 2, 1)
    }),
    ("counts-2-to-16-more", 19, |v| {
        set_counts(v, (1 << 16) + 2, 1)
    }),
    ("complements-one-byte-short", 19, |v| {
        v.complements.truncate(218)
    }),
    ("complements-one-byte-long", 19, |v| {
        v.complements.push(b' ')
    }),
    ("complements-one-short", 19, |v| v.complements.truncate(146)),
    ("complements-one-long", 19, |v| add_complement(v, "LIB", "")),
    ("complements-missing", 19, |v| v.complements.clear()),
    ("complements-of-no-count", 19, |v| {
        set_counts(v, 0, 0);
        v.complements.truncate(73);
    }),
    ("complements-less-than-one", 19, |v| {
        set_counts(v, 0, 0);
        v.complements.truncate(72);
    }),
    ("complements-one-byte", 19, |v| {
        set_counts(v, 0, 0);
        v.complements.truncate(1);
    }),
    ("complements-without-movements", 19, |v| {
        v.rows.clear();
        v.head.new_balance = v.head.old_balance;
    }),
];

fn set_counts(values: &mut Values, first: u64, second: u64) {
    values.rows[0].complements = first;
    values.rows[1].complements = second;
}
