//! The newest statement of an account.

use super::accounts::{apart, Account, ZONES};
use super::script::Script;
use crate::rng::Rng;
use crate::valid::Statement;

/// From the journal or from the file, with each line end, asked and then delivered.
pub fn newest(rng: &mut Rng, script: &mut Script) {
    script.fresh(100);
    let (mut one, mut two) = (Account::new(rng), Account::new(rng));
    let mut three = Account::new(rng);
    let held = [one.next(rng), two.next(rng), one.next(rng)];
    let new = [one.next(rng), one.next(rng), two.next(rng), three.next(rng)];
    script.deliver(0, &held.iter().collect::<Vec<_>>());
    let files: [&[&Statement]; 10] = [
        &[],
        // All held: the journal's, whatever the file's order.
        &[&held[2], &held[0]],
        &[&held[0], &held[1], &held[2]],
        // A new one, and after it a held one.
        &[&new[0], &held[0]],
        &[&held[0], &new[0], &held[2]],
        // The same new one twice: the first of the two.
        &[&new[0], &new[0]],
        &[&new[0], &held[1], &new[0], &held[2]],
        // Two new ones: the last.
        &[&new[0], &new[1]],
        &[&new[2], &new[0], &new[1], &new[3], &new[0]],
        &[&new[3]],
    ];
    for file in files {
        for account in [&one, &two, &three] {
            script.newest(rng.below(3), &account.key, file);
        }
    }
    // Asking changes nothing: the same answers, then delivery, then the journal's.
    for line_end in 0..3 {
        script.newest(line_end, &one.key, &[&new[0], &new[1]]);
    }
    script.sound();
    script.deliver(1, &[&new[0], &new[1], &new[3]]);
    for line_end in 0..3 {
        script.newest(line_end, &one.key, &[&new[0], &new[1]]);
        script.newest(line_end, &three.key, &[]);
    }
}

/// Delivery's refusals, also for other accounts; then 25, also for what is no key.
pub fn newest_refused(rng: &mut Rng, script: &mut Script) {
    let (mut one, mut two) = (Account::new(rng), Account::new(rng));
    let stranger = Account::new(rng);
    let held = [one.next(rng), two.next(rng)];
    let astray = [two.astray(rng, 0, 1), two.astray(rng, -1, 0)];
    let next = one.next_of(rng, 4);
    let lines = held[0].records.len() + held[1].records.len() + 3;
    script.fresh(lines);
    script.newest(1, &one.key, &[]);
    script.deliver(2, &[&held[0], &held[1]]);
    for key in [&one.key, &two.key, &stranger.key] {
        script.newest(0, key, &[&astray[0]]);
        script.newest(1, key, &[&held[0], &astray[1]]);
        script.newest(2, key, &[&held[0], &held[1], &next]);
        script.newest(3, key, &[&held[0]]);
        script.newest_bytes(1, &key.bytes(), b"no record");
        script.newest(0, key, &[]);
    }
    for zone in ZONES {
        let near = apart(rng, &one.key, zone);
        script.newest(1, &near, &[&held[0]]);
    }
    no_keys(script, &one.key.bytes());
    script.poke(0, b'X');
    script.newest(3, &one.key, &[&held[0]]);
    no_keys(script, &one.key.bytes());
}

/// Keys cut short, of bytes that no record holds, and none. A short key leaves no file.
fn no_keys(script: &mut Script, key: &[u8]) {
    for length in [0, 1, 5, 24] {
        script.newest_bytes(1, &key[..length], b"");
    }
    for byte in [0, b' ', 0xFF, b'a'] {
        let mut wrong = key.to_vec();
        wrong[24] = byte;
        script.newest_bytes(1, &wrong, b"");
        script.newest_bytes(1, &[byte; 25], b"");
    }
}
