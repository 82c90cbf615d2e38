//! Bytes that a damage puts in the place of others.

use crate::rng::Rng;

/// Another byte of the same class: digit, capital, or any permitted byte.
pub fn other_byte(rng: &mut Rng, byte: u8) -> u8 {
    loop {
        let other = match byte {
            b'0'..=b'9' => rng.byte(b'0', b'9'),
            b'A'..=b'Z' => rng.byte(b'A', b'Z'),
            _ => rng.byte(0x20, 0x7E),
        };
        if other != byte {
            return other;
        }
    }
}

/// A byte that no record may hold.
pub fn unpermitted(rng: &mut Rng) -> u8 {
    rng.pick(&[
        0x00, 0x09, 0x0A, 0x0D, 0x1A, 0x1F, 0x7F, 0x80, 0xA0, 0xC9, 0xFE, 0xFF,
    ])
}
