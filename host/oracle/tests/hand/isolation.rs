//! One account beside a neighbour: the premises of point I6, answers derived by hand.

use crate::series::lines_of;
use crate::shelf::{
    answered, april, b, blank, expecting, february, journal, refusal, stored, FEBRUARY,
};
use oracle::isolation::series;

/// Entries of two records from line 0 on and of four, and of two from line 4 on.
const HERS: &str = "1234500010EUR20001234567A3103253004250000000002";
const THEIRS: &str = "1234500010EUR20001234567B3103253004250000000002";
const THEIR_FEBRUARY: &str = "1234500010EUR20001234567B3101252802250000000004";
const HERS_BEHIND: &str = "1234500010EUR20001234567A3103253004250000040002";

/// Two lines are room for one of the two, whoever comes first.
#[test]
fn i6_no_room_left() {
    let theirs = journal(2, &[THEIRS], &[b(april())]);
    assert_eq!(
        answered(&blank(2), &[b(april())]),
        (stored(1, 0), theirs.clone())
    );
    assert_eq!(answered(&theirs, &[april()]).0, refusal(24, 1));
    let hers = journal(2, &[HERS], &[april()]);
    assert_eq!(
        answered(&blank(2), &[april()]),
        (stored(1, 0), hers.clone())
    );
    assert_eq!(answered(&hers, &[b(april())]).0, refusal(24, 1));
}

/// Their February ends on 280225 with 120833, and their April begins with 121833. Hers, of two
/// records, stands before it in the file.
#[test]
fn i6_two_accounts_in_a_file() {
    let both = [april(), b(april())];
    assert_eq!(answered(&blank(8), &both).0, stored(2, 0));
    let theirs = journal(8, &[THEIR_FEBRUARY], &[b(february())]);
    assert_eq!(answered(&theirs, &both).0, expecting(3, 20250228, 120_833));
    let with_hers = journal(8, &[THEIR_FEBRUARY, HERS_BEHIND], &[b(february()), april()]);
    assert_eq!(answered(&theirs, &[april()]), (stored(1, 0), with_hers));
    // What is held of her is not theirs.
    let hers = journal(8, &[FEBRUARY], &[february()]);
    assert_eq!(answered(&hers, &[b(april())]).0, stored(1, 0));
    assert_eq!(answered(&hers, &both).0, expecting(1, 20250228, 120_833));
}

// The vectors that go to the replay.

#[test]
fn lines_of_no_room_left() {
    let each = [
        "J 7920",
        "O opened",
        "D stored 1 held 0",
        "D refused 24 1 expected 0 0",
        "D stored 0 held 1",
        "S sound",
        "E at 7680 240",
        "E refused 25 0",
    ];
    assert_eq!(lines_of(&series(), "I6-no-room-left"), each.repeat(2));
}

/// Their February has four records and ends with 120833; their April begins with 100005.
#[test]
fn lines_of_two_accounts_in_a_file() {
    let expected = [
        "J 8640",
        "O opened",
        "D stored 2 held 0",
        "E at 7680 240",
        "E at 7920 240",
        "J 8640",
        "O opened",
        "D stored 1 held 0",
        "D refused 22 3 expected 20250228 120833",
        "S sound",
        "E at 7680 480",
        "E refused 25 0",
        "D stored 1 held 0",
        "S sound",
        "E at 7680 480",
        "E at 8160 240",
        "E refused 25 0",
    ];
    assert_eq!(lines_of(&series(), "I6-two-accounts-in-a-file"), expected);
}
