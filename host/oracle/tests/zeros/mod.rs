//! Files with all their zeros written one way, for the tests that compare what they say.

/// The file with this sign in each amount of nothing. Only an 01, 04 or 07 has an amount.
pub fn signed(line_end: u64, file: &[u8], sign: u8) -> Vec<u8> {
    let mut bytes = file.to_vec();
    for line in bytes.chunks_mut(120 + line_end as usize) {
        let has_amount = matches!(line.get(..2), Some(b"01" | b"04" | b"07"));
        let nil = line.get(90..103) == Some(b"0000000000000");
        if has_amount && nil && matches!(line.get(103), Some(b'{' | b'}')) {
            line[103] = sign;
        }
    }
    bytes
}
