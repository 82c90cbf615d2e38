//! Month ends on a Sunday: points M1 to M7, answers derived by hand.

use std::slice::from_ref;

use crate::asked::asked;
use crate::common::{accepted, balance, movement, refused, Sheet};
use crate::series::lines_of;
use crate::shelf::{
    accounts, b, blank, delivered, file, journal, numbered_account, refusal, stored, three_months,
    with, KEY,
};
use oracle::cash::balance as new_balance;
use oracle::delivery::{newest, Newest, Source};
use oracle::journal::{body, entry, is_sound, used, Used};
use oracle::month_ends::series;
use oracle::read::Place;
use oracle::series::run;

/// 100, 101, 5 and -5.
const HUNDRED: &str = "0000000000010{";
const HUNDRED_AND_ONE: &str = "0000000000010A";
const FIVE: &str = "0000000000000E";
const MINUS_FIVE: &str = "0000000000000N";

/// The entries of Friday and of Sunday behind it.
const FRIDAY: &str = "1234500010EUR20001234567A3110252811250000000002";
const SUNDAY: &str = "1234500010EUR20001234567A3011253112250000020002";

/// A statement without a movement.
fn quiet(old_date: &str, new_date: &str, amount: &str) -> Sheet {
    Sheet(vec![
        balance("01", old_date, amount),
        balance("07", new_date, amount),
    ])
}

/// The same with 5 and -5 booked on its old date: it sums to nothing.
fn there_and_back(old_date: &str, new_date: &str) -> Sheet {
    quiet(old_date, new_date, HUNDRED)
        .with(2, movement("05", old_date, old_date, FIVE))
        .with(3, movement("08", old_date, old_date, MINUS_FIVE))
}

/// November closes on Friday the 28th, December opens with Sunday the 30th.
fn friday() -> Sheet {
    quiet("311025", "281125", HUNDRED)
}

fn sunday() -> Sheet {
    quiet("301125", "311225", HUNDRED)
}

/// A journal that holds Friday.
fn friday_held() -> Vec<u8> {
    journal(12, &[FRIDAY], &[friday()])
}

/// A journal that holds Friday and Sunday.
fn both_held() -> Vec<u8> {
    journal(12, &[FRIDAY, SUNDAY], &[friday(), sunday()])
}

/// Old dates, balances, and whether a statement with them follows Friday.
const AFTER_FRIDAY: [(&str, &str, bool); 16] = [
    ("301125", HUNDRED, true),
    ("281125", HUNDRED, true),
    ("271125", HUNDRED, false),
    // 29 is more than 28, and 01 is less, in bytes.
    ("291025", HUNDRED, false),
    ("011225", HUNDRED, true),
    // 1980.
    ("010180", HUNDRED, false),
    ("301125", HUNDRED_AND_ONE, false),
    // The year before, the year after, the last day of all.
    ("301124", HUNDRED, false),
    ("010126", HUNDRED, true),
    ("311279", HUNDRED, true),
    ("311299", HUNDRED, false),
    ("291125", HUNDRED, true),
    // The same digits for a debit; nothing; the balance of another day.
    ("301125", "0000000000010}", false),
    ("301125", "0000000000000{", false),
    ("281125", HUNDRED_AND_ONE, false),
    ("271125", HUNDRED_AND_ONE, false),
];

#[test]
fn m1_at_or_after() {
    for (date, amount, follows) in AFTER_FRIDAY {
        let next = quiet(date, "311279", amount);
        let answer = if follows {
            stored(1, 0)
        } else {
            refusal(22, 1)
        };
        assert_eq!(delivered(&friday_held(), &[next]).0, answer, "{date}");
    }
}

#[test]
fn m1_in_one_file() {
    for (date, amount, follows) in AFTER_FRIDAY {
        let both = [friday(), quiet(date, "311279", amount)];
        let [fresh, again] = if follows {
            [stored(2, 0), stored(1, 1)]
        } else {
            [refusal(22, 3), refusal(22, 3)]
        };
        assert_eq!(delivered(&blank(12), &both).0, fresh, "{date}");
        assert_eq!(delivered(&friday_held(), &both).0, again, "{date}");
    }
}

/// 00 comes after 99.
#[test]
fn m1_at_the_turn_of_the_century() {
    let (_, before) = delivered(&blank(4), &[quiet("301199", "311299", HUNDRED)]);
    for date in ["311299", "010100", "030100"] {
        let next = quiet(date, "310100", HUNDRED);
        assert_eq!(delivered(&before, &[next]).0, stored(1, 0), "{date}");
    }
    for date in ["301299", "311298", "010199", "010180"] {
        let next = quiet(date, "310100", HUNDRED);
        assert_eq!(delivered(&before, &[next]).0, refusal(22, 1), "{date}");
    }
}

/// 22 still comes before 23 and 24, and a statement that follows meets these.
#[test]
fn m1_before_full_tables_and_lines() {
    // Account 5 has 121833 on 300425.
    let next = |date: &[u8]| {
        let sheet = numbered_account(5).set(1, 35, date);
        sheet.set(2, 35, b"310525")
    };
    for (full, number) in [(accounts(128, 256), 23), (accounts(127, 254), 24)] {
        assert_eq!(delivered(&full, &[next(b"290425")]).0, refusal(22, 1));
        for date in [b"300425", b"010525", b"310525"] {
            assert_eq!(delivered(&full, &[next(date)]).0, refusal(number, 1));
        }
    }
}

#[test]
fn m2_held_is_asked_first() {
    let sheets = [sunday(), friday(), sunday()];
    let (answer, after) = delivered(&friday_held(), &sheets);
    assert_eq!(answer, stored(1, 2));
    assert!(after == both_held());
    assert_eq!(delivered(&after, &sheets).0, stored(0, 3));
    // Sunday begins the account, and Friday does not follow it.
    assert_eq!(delivered(&blank(12), &sheets).0, refusal(22, 3));
}

#[test]
fn m3_friday_and_sunday_are_sound() {
    let (answer, after) = delivered(&blank(12), &[friday(), sunday()]);
    assert_eq!(answer, stored(2, 0));
    assert!(after == both_held() && is_sound(&after));
    // Sound before, sound now.
    assert!(is_sound(&three_months()));
}

/// The old date of the second, in its entry and in its body.
#[test]
fn m3_other_old_dates() {
    let (in_entry, in_body) = (60 + 25, 7_680 + 240 + 34);
    let dates: [(&[u8], bool); 8] = [
        (b"281125", true),
        (b"291125", true),
        (b"011225", true),
        (b"311225", true),
        (b"271125", false),
        (b"291025", false),
        (b"311024", false),
        (b"010180", false),
    ];
    for (date, sound) in dates {
        let entry_changed = with(both_held(), in_entry, date);
        assert!(!is_sound(&entry_changed));
        assert!(!is_sound(&with(both_held(), in_body, date)));
        assert_eq!(is_sound(&with(entry_changed, in_body, date)), sound);
    }
}

/// A later date with another balance, and an account between.
#[test]
fn m3_the_balance_and_the_account() {
    let second = quiet("301125", "311225", HUNDRED_AND_ONE);
    assert!(!is_sound(&journal(
        4,
        &[FRIDAY, SUNDAY],
        &[friday(), second]
    )));
    let other = "1234500010EUR20001234567B3110252811250000020002";
    let sunday_late = "1234500010EUR20001234567A3011253112250000040002";
    let sheets = [friday(), b(friday()), sunday()];
    assert!(is_sound(&journal(
        6,
        &[FRIDAY, other, sunday_late],
        &sheets
    )));
}

#[test]
fn m3_every_call() {
    let journal = both_held();
    let place = |first, length| Place { first, length };
    assert_eq!(entry(&journal, 2), Ok(place(7_920, 240)));
    assert_eq!(body(&journal, 2), Ok(&sunday().bytes(b"")[..]));
    let taken = Used {
        statements: 2,
        lines_taken: 4,
        lines: 12,
    };
    assert_eq!(used(&journal), Ok(taken));
    assert_eq!(new_balance(&journal, 2), Some(100));
    let last = Newest {
        source: Source::Journal,
        place: place(7_920, 240),
        line_end: 0,
    };
    assert_eq!(newest(&journal, 1, b"", KEY), Ok(last));
    let (answer, table) = asked(&journal, KEY, (20251127, 20251201), 5);
    assert_eq!((answer, table), (Ok(5), vec![100; 5]));
}

/// Asked before the delivery, the newest is the file's where it follows.
#[test]
fn m3_newest_of_the_file() {
    let sheets = [friday(), sunday()];
    for (line_end, line) in [(0, 120), (1, 121), (2, 122)] {
        let found = Newest {
            source: Source::File,
            place: Place {
                first: 2 * line,
                length: 2 * line,
            },
            line_end,
        };
        let bytes = file(&sheets, line_end);
        assert_eq!(newest(&blank(4), line_end, &bytes, KEY), Ok(found));
        assert_eq!(newest(&friday_held(), line_end, &bytes, KEY), Ok(found));
        let early = file(&[quiet("271125", "311225", HUNDRED)], line_end);
        let answer = newest(&friday_held(), line_end, &early, KEY);
        assert_eq!(answer, refusal(22, 1));
    }
}

/// The last new date is the latest: what begins before it, if only by a day, is too early.
#[test]
fn m4_along_a_chain() {
    let chain = [
        friday(),
        sunday(),
        quiet("311225", "300126", HUNDRED),
        quiet("010226", "270226", HUNDRED),
    ];
    let (answer, after) = delivered(&blank(12), &chain);
    assert_eq!(answer, stored(4, 0));
    assert!(is_sound(&after));
    for date in ["311025", "281125", "301125", "010226", "260226"] {
        let next = quiet(date, "310326", HUNDRED);
        assert_eq!(delivered(&after, &[next]).0, refusal(22, 1), "{date}");
    }
    for date in ["270226", "280226", "010326"] {
        let next = quiet(date, "310326", HUNDRED);
        assert_eq!(delivered(&after, &[next]).0, stored(1, 0), "{date}");
    }
    let backwards: Vec<Sheet> = chain.into_iter().rev().collect();
    assert_eq!(delivered(&blank(12), &backwards).0, refusal(22, 3));
    assert_eq!(delivered(&after, &backwards).0, stored(0, 4));
}

/// A corrected statement follows only where its period is one day and sums to nothing.
#[test]
fn m5_corrected_statements() {
    let corrected = there_and_back("311025", "281125");
    assert_eq!(delivered(&friday_held(), &[corrected]).0, refusal(22, 1));
    // One day, on the last new date or later: each of these follows the one before.
    for day in ["281125", "301125"] {
        let one_day = [quiet(day, day, HUNDRED), there_and_back(day, day)];
        assert_eq!(delivered(&friday_held(), &one_day).0, stored(2, 0));
        // With a sum, none of that day with the first balance follows.
        let with_sum = Sheet(vec![
            balance("01", day, HUNDRED),
            movement("05", day, day, FIVE),
            balance("07", day, "0000000000010E"),
        ]);
        let sheets = [with_sum, there_and_back(day, day)];
        assert_eq!(delivered(&friday_held(), &sheets).0, refusal(22, 4));
    }
}

/// What the rule gives up: a missing statement that sums to nothing. Once passed it is too early.
#[test]
fn m6_passed_over() {
    let (_, before) = delivered(&blank(20), &[quiet("311224", "010125", HUNDRED)]);
    let missing = there_and_back("010125", "020125");
    let sent = quiet("020125", "310125", HUNDRED);
    let in_order = [missing.clone(), sent.clone()];
    assert_eq!(delivered(&before, &in_order).0, stored(2, 0));
    let (answer, after) = delivered(&before, from_ref(&sent));
    assert_eq!(answer, stored(1, 0));
    assert_eq!(delivered(&after, from_ref(&missing)).0, refusal(22, 1));
    assert_eq!(delivered(&after, &in_order).0, refusal(22, 1));
    let (answer, later) = delivered(&after, &[quiet("310125", "280225", HUNDRED)]);
    assert_eq!(answer, stored(1, 0));
    assert_eq!(delivered(&later, from_ref(&missing)).0, refusal(22, 1));
    // In one file too, where nothing is stored then.
    assert_eq!(delivered(&before, &[sent, missing]).0, refusal(22, 3));
}

/// Within a statement nothing changes: Saturday is before Sunday.
#[test]
fn m7_within_a_statement() {
    let booked = |date: &str| sunday().with(2, movement("05", date, date, "0000000000000{"));
    assert_eq!(booked("291125").answer(), refused(12, 2));
    assert_eq!(booked("281125").answer(), refused(12, 2));
    assert_eq!(booked("301125").answer(), accepted(1, 1, 0));
    assert_eq!(sunday().set(2, 35, b"291125").answer(), refused(12, 2));
    let both = [friday(), booked("291125")];
    assert_eq!(delivered(&friday_held(), &both).0, refusal(12, 4));
    let both = [friday(), booked("301125")];
    assert_eq!(delivered(&friday_held(), &both).0, stored(1, 1));
}

// The vectors that go to the replay and to the kept series.

fn lines(name: &str) -> Vec<String> {
    lines_of(&series(), name)
}

/// Sunday, Friday, Thursday, 29 October, 1 December, 1980; then other balances.
const FOLLOWS: [bool; 9] = [true, true, false, false, true, false, false, false, false];

#[test]
fn lines_of_at_or_after() {
    let mut expected = Vec::new();
    for follows in FOLLOWS {
        expected.extend(["J 8160", "O opened", "D stored 1 held 0"]);
        expected.extend(if follows {
            ["N file 0 242 1", "D stored 1 held 0"]
        } else {
            ["N refused 22 1", "D refused 22 1 expected 20251128 100"]
        });
        expected.push("S sound");
    }
    assert_eq!(lines("M1-at-or-after"), expected);
}

#[test]
fn lines_of_in_one_file() {
    let mut expected = Vec::new();
    for follows in FOLLOWS {
        expected.extend(["J 8160", "O opened"]);
        expected.extend(if follows {
            [
                "N file 244 244 2",
                "D stored 2 held 0",
                "D stored 0 held 1",
                "D stored 0 held 2",
                "E at 7680 240",
                "E at 7920 240",
            ]
        } else {
            [
                "N refused 22 3",
                "D refused 22 3 expected 20251128 100",
                "D stored 1 held 0",
                "D refused 22 3 expected 20251128 100",
                "E at 7680 240",
                "E refused 25 0",
            ]
        });
    }
    assert_eq!(lines("M1-in-one-file"), expected);
}

#[test]
fn lines_of_the_turn_of_the_century() {
    let mut expected = Vec::new();
    // 301299, 311299, 010100, 030100, 310180, 291279 after 311299.
    for follows in [false, true, true, true, false, true] {
        expected.extend(["J 8160", "O opened", "D stored 1 held 0"]);
        expected.push(if follows {
            "D stored 1 held 0"
        } else {
            "D refused 22 1 expected 19991231 100"
        });
        expected.push("S sound");
    }
    expected.extend([
        "J 8640",
        "O opened",
        "D stored 1 held 0",
        "D stored 1 held 0",
        "D refused 22 1 expected 20791231 100",
        "D refused 22 1 expected 20791231 100",
        "D stored 1 held 0",
        "S sound",
        "E at 7680 240",
        "E at 7920 240",
        "E at 8160 480",
        "E refused 25 0",
    ]);
    assert_eq!(lines("M1-turn-of-the-century"), expected);
}

#[test]
fn lines_of_held_first() {
    let expected = [
        "J 8160",
        "O opened",
        "D stored 1 held 0",
        "N file 0 242 1",
        "D stored 1 held 2",
        "N journal 7920 240 0",
        "D stored 0 held 3",
        "D stored 0 held 1",
        "S sound",
        "E at 7680 240",
        "E at 7920 240",
        "E refused 25 0",
        "J 8160",
        "O opened",
        "D refused 22 3 expected 20251231 100",
        "D stored 1 held 0",
        "D refused 22 3 expected 20251231 100",
        "S sound",
    ];
    assert_eq!(lines("M2-held-is-asked-first"), expected);
}

/// The questions on the journal of Friday and Sunday, and their answers where it is not sound.
const ASKED: [&str; 8] = [
    "S sound",
    "E at 7680 240",
    "E at 7920 240",
    "E refused 25 0",
    "D stored 0 held 0",
    "N journal 7920 240 0",
    "D stored 0 held 2",
    "N journal 7920 240 0",
];
const ASKED_UNSOUND: [&str; 8] = [
    "S unsound",
    "E refused 21 0",
    "E refused 21 0",
    "E refused 21 0",
    "D refused 21 0 expected 0 0",
    "N refused 21 0",
    "D refused 21 0 expected 0 0",
    "N refused 21 0",
];

#[test]
fn lines_of_delivered() {
    let in_one_file = ["J 8280", "O opened", "D stored 2 held 0"];
    let in_two_files = [
        "J 8280",
        "O opened",
        "D stored 1 held 0",
        "D stored 1 held 0",
    ];
    let expected = [&in_one_file[..], &ASKED, &in_two_files, &ASKED].concat();
    assert_eq!(lines("M3-delivered"), expected);
}

/// With another date in the entry or in the body alone it is not sound. With it in both, the
/// Sunday that is sent is another statement, and too early.
#[test]
fn lines_of_laid_out() {
    let mut asked_of_another = ASKED;
    asked_of_another[6] = "D refused 22 1 expected 20251231 100";
    let mut expected = vec!["J 8280", "O opened"];
    expected.extend(ASKED);
    // 281125, 291125, 271125, 011225, 291025, 311225, 010180.
    for sound in [true, true, false, true, false, true, false] {
        expected.extend(ASKED_UNSOUND);
        expected.extend(ASKED_UNSOUND);
        expected.extend(if sound {
            asked_of_another
        } else {
            ASKED_UNSOUND
        });
    }
    expected.push("S sound");
    assert_eq!(lines("M3-laid-out"), expected);
}

/// The journal that is laid out and the ones that are delivered have the same bytes.
#[test]
fn one_journal_however_it_is_made() {
    let answers_of_empty_files = |name: &str| -> Vec<String> {
        let series = series();
        let case = series.iter().find(|case| case.name == name).unwrap();
        let mut lines = run(&case.bytes).unwrap();
        lines.retain(|line| line.starts_with("D stored 0 held 0 "));
        lines
    };
    let delivered = answers_of_empty_files("M3-delivered");
    let laid_out = answers_of_empty_files("M3-laid-out");
    assert_eq!(delivered, [&laid_out[0][..], &laid_out[0]]);
}

/// Statements of 3, 4, 2, 3 and 3 records.
#[test]
fn lines_of_a_chain() {
    let mut expected = vec![
        "J 10080",
        "O opened",
        "D stored 5 held 0",
        "S sound",
        "N journal 9120 360 0",
        "J 10080",
        "O opened",
    ];
    for part in [
        "N file 0 366 2",
        "N file 0 488 2",
        "N file 0 244 2",
        "N file 0 366 2",
        "N file 0 366 2",
    ] {
        expected.extend([part, "D stored 1 held 0"]);
    }
    expected.extend(["D stored 0 held 1"; 5]);
    expected.extend(["N refused 22 1"; 5]);
    expected.extend([
        "N file 0 242 1",
        "S sound",
        "E at 7680 360",
        "E at 8040 480",
        "E at 8520 240",
        "E at 8760 360",
        "E at 9120 360",
        "E refused 25 0",
    ]);
    assert_eq!(lines("M4-along-a-chain"), expected);
}

#[test]
fn lines_of_corrected() {
    let expected = [
        "J 9120",
        "O opened",
        "D stored 1 held 0",
        "D refused 22 1 expected 20251128 100",
        "D refused 22 3 expected 20251128 100",
        "D stored 1 held 0",
        "D stored 0 held 1",
        "D stored 1 held 0",
        "D stored 0 held 1",
        "D stored 1 held 0",
        "D stored 0 held 1",
        "D refused 22 1 expected 20251130 105",
        "S sound",
        "E at 7680 240",
        "E at 7920 240",
        "E at 8160 480",
        "E at 8640 360",
        "E refused 25 0",
    ];
    assert_eq!(lines("M5-corrected"), expected);
}

#[test]
fn lines_of_passed_over() {
    let passed = [
        "D refused 22 1 expected 20250131 100",
        "D refused 22 3 expected 20250131 100",
        "N refused 22 1",
    ];
    let passed_again = [
        "D refused 22 1 expected 20250228 101",
        "D refused 22 3 expected 20250228 101",
        "N refused 22 1",
    ];
    let before = [
        "J 9120",
        "O opened",
        "D stored 1 held 0",
        "N file 0 242 1",
        "D stored 1 held 0",
    ];
    let after = [
        "S sound",
        "E at 7680 240",
        "E at 7920 240",
        "E at 8160 360",
        "E refused 25 0",
    ];
    let in_order = [
        "J 9120",
        "O opened",
        "D stored 4 held 0",
        "D stored 0 held 4",
        "S sound",
    ];
    let in_wrong_order = [
        "J 9120",
        "O opened",
        "D refused 22 5 expected 20250131 100",
        "S sound",
    ];
    let expected = [
        &before[..],
        &passed,
        &["D stored 1 held 0"],
        &passed_again,
        &["D stored 0 held 1"],
        &after,
        &in_order,
        &in_wrong_order,
    ];
    assert_eq!(lines("M6-passed-over"), expected.concat());
}

#[test]
fn lines_of_within_a_statement() {
    let expected = [
        "J 8640",
        "O opened",
        "D stored 1 held 0",
        "D refused 12 2 expected 0 0",
        "D refused 12 4 expected 0 0",
        "D refused 12 2 expected 0 0",
        "N refused 12 2",
        "D stored 1 held 0",
        "S sound",
    ];
    assert_eq!(lines("M7-within-a-statement"), expected);
}
