//! Names of files. Capitals, small letters, digits and signs are mixed, so that the order of bytes
//! is not that of words.

use std::collections::BTreeSet;

use crate::night::is_taken;
use crate::rng::Rng;

/// Ends of names that are taken. Some look like those that are not.
const ENDS: [&str; 8] = ["", ".cfonb", ".CFONB", ".txt", "_1", ".120", "-b", ".x.y"];
const ALMOST: [&str; 8] = [
    ".PART",
    ".part.cfonb",
    ".tmp1",
    "part",
    "tmp",
    ".filepart-2",
    "~.cfonb",
    ".parts",
];

/// A name that nothing else in the night has, and that is taken.
pub fn new_name(rng: &mut Rng, used: &BTreeSet<String>) -> String {
    loop {
        let name = stem(rng) + rng.pick(&ENDS);
        if is_taken(&name) && !used.contains(&name) {
            return name;
        }
    }
}

/// A name that is taken although it looks as if it were not.
pub fn almost_ignored(rng: &mut Rng, used: &BTreeSet<String>) -> String {
    loop {
        let name = stem(rng) + rng.pick(&ALMOST);
        if is_taken(&name) && !used.contains(&name) {
            return name;
        }
    }
}

/// A name that is not taken.
pub fn ignored_name(rng: &mut Rng, used: &BTreeSet<String>) -> String {
    loop {
        let stem = stem(rng);
        let name = match rng.below(7) {
            0 => format!(".{stem}"),
            1 => format!(".{stem}.cfonb"),
            2 => format!("{stem}.part"),
            3 => format!("{stem}.tmp"),
            4 => format!("{stem}.filepart"),
            5 => format!("{stem}.cfonb~"),
            _ => format!("{stem}~"),
        };
        if !used.contains(&name) {
            return name;
        }
    }
}

/// One to ten letters and digits, now and then with a sign between.
fn stem(rng: &mut Rng) -> String {
    const PLAIN: &[u8] = b"ABCDEFGHIJKLMNOPQRSTUVWXYZabcdefghijklmnopqrstuvwxyz0123456789";
    const SIGNS: &[u8] = b"-_.";
    let mut name = String::new();
    for place in 0..1 + rng.index(10) {
        let signs = place > 0 && rng.one_in(8);
        let byte = rng.pick(if signs { SIGNS } else { PLAIN });
        name.push(char::from(byte));
    }
    name
}
