//! The four readers side by side, for both tests of them.

use oracle::read::{complement, head, movement, place, Refusal};

/// What each of the four readers answers, without its values.
pub fn outcomes(line_end: u64, file: &[u8], numbers: [u64; 3]) -> [Result<(), Refusal>; 4] {
    let [k, m, c] = numbers;
    [
        place(line_end, file, k).map(|_| ()),
        head(line_end, file, k).map(|_| ()),
        movement(line_end, file, k, m).map(|_| ()),
        complement(line_end, file, k, m, c).map(|_| ()),
    ]
}
