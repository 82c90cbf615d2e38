//! The worked example of the paper as values, and the same with complements.

use crate::values::{Head, Key, Row, Values};

/// The worked example of the paper.
pub fn worked() -> Values {
    Values {
        head: Head {
            key: Key {
                bank: *b"12345",
                branch: *b"00010",
                currency: *b"EUR",
                decimals: b'2',
                account: *b"0001234567A",
            },
            old_date: 20250131,
            old_balance: 100_000,
            new_date: 20250228,
            new_balance: 120_833,
        },
        rows: vec![
            row(b"05", 20250205, 20250206, 25_050),
            row(b"08", 20250207, 20250207, -4_217),
        ],
        complements: Vec::new(),
    }
}

/// A movement of the worked example: entry number 0, positions 89-90 `00`, free zones blank.
pub fn row(code: &[u8; 2], booked: u32, value: u32, amount: i64) -> Row {
    Row {
        internal: [b' '; 4],
        code: *code,
        booked,
        reject: [b' '; 2],
        value,
        label: [b' '; 31],
        entry: 0,
        exempt: b'0',
        unavailable: b'0',
        amount,
        reference: [b' '; 16],
        complements: 0,
    }
}

/// The worked example with complements: LIB and MMO, then NPY.
pub fn with_complements() -> Values {
    let mut values = worked();
    values.rows[0].complements = 2;
    values.rows[1].complements = 1;
    add_complement(&mut values, "LIB", "VIREMENT RECU");
    add_complement(&mut values, "MMO", "USD200000000002700");
    add_complement(&mut values, "NPY", "UN CLIENT");
    values
}

/// Adds 73 bytes and no count.
pub fn add_complement(values: &mut Values, qualifier: &str, information: &str) {
    let complement = format!("{qualifier}{information:70}");
    values.complements.extend(complement.bytes());
}
