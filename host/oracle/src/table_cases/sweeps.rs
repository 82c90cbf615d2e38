//! Every zone of bytes with bytes around the borders of all alphabets, at its first and its last
//! place. What is right among them is left to the writer.

use std::slice::from_mut;

use super::worked::with_complements;
use crate::values::Values;

/// Bytes on both sides of the borders of digits, capitals and permitted bytes, and some others.
pub const BORDERS: [u8; 22] = [
    0x00, 0x0A, 0x1F, 0x20, 0x21, b'/', b'0', b'1', b'2', b'9', b':', b'@', b'A', b'Z', b'[', b'`',
    b'a', b'z', 0x7E, 0x7F, 0x80, 0xFF,
];

/// The zones of bytes by name: the key's, those of each movement, and each complement's two.
pub fn zones(values: &mut Values) -> Vec<(&'static str, &mut [u8])> {
    let key = &mut values.head.key;
    let mut zones: Vec<(&'static str, &mut [u8])> = vec![
        ("bank", &mut key.bank),
        ("branch", &mut key.branch),
        ("currency", &mut key.currency),
        ("decimals", from_mut(&mut key.decimals)),
        ("account", &mut key.account),
    ];
    for row in &mut values.rows {
        zones.push(("internal", &mut row.internal));
        zones.push(("code", &mut row.code));
        zones.push(("reject", &mut row.reject));
        zones.push(("label", &mut row.label));
        zones.push(("exempt", from_mut(&mut row.exempt)));
        zones.push(("unavailable", from_mut(&mut row.unavailable)));
        zones.push(("reference", &mut row.reference));
    }
    for complement in values.complements.chunks_exact_mut(73) {
        let (qualifier, information) = complement.split_at_mut(3);
        zones.push(("qualifier", qualifier));
        zones.push(("information", information));
    }
    zones
}

/// Each value with its name.
pub fn sweeps() -> Vec<(String, Values)> {
    let mut base = with_complements();
    base.rows[1].reject = *b"42";
    let mut list = Vec::new();
    for index in 0..zones(&mut base).len() {
        let last = zones(&mut base)[index].1.len() - 1;
        let places = if last == 0 { vec![0] } else { vec![0, last] };
        for place in places {
            for byte in BORDERS {
                let mut values = base.clone();
                let (zone, bytes) = &mut zones(&mut values)[index];
                bytes[place] = byte;
                list.push((format!("{zone}-byte-{place}-{byte:02x}"), values));
            }
        }
    }
    list
}
