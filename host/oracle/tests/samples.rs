//! The kept samples are what the command makes, and have the answers written here by hand.

use std::collections::BTreeSet;
use std::path::PathBuf;

use oracle::check::check;
use oracle::delivery::{deliver, Delivered, Expected, NotDelivered};
use oracle::journal::open;
use oracle::read::Refusal;
use oracle::samples::samples;
use oracle::write::answer_text;

fn kept() -> PathBuf {
    PathBuf::from(env!("CARGO_MANIFEST_DIR")).join("../../samples")
}

#[test]
fn kept_bytes_are_made_again() {
    for sample in samples() {
        let bytes = std::fs::read(kept().join(sample.name)).unwrap();
        assert!(bytes == sample.bytes, "{} differs", sample.name);
    }
}

/// No sample is kept that nothing makes.
#[test]
fn kept_names_are_those_of_the_list() {
    let made: BTreeSet<String> = samples().iter().map(|s| s.name.to_string()).collect();
    let files = std::fs::read_dir(kept()).unwrap();
    let names = files.map(|file| file.unwrap().file_name().into_string().unwrap());
    let found: BTreeSet<String> = names.filter(|name| name.ends_with(".cfonb")).collect();
    assert_eq!(made, found);
}

#[test]
fn answers_of_the_check() {
    let expected = [
        ("estate-three-months.cfonb", "accepted 3 12 3"),
        ("estate-2025-01.cfonb", "accepted 1 4 1"),
        ("estate-2025-02.cfonb", "accepted 1 4 1"),
        ("estate-2025-03.cfonb", "accepted 1 4 1"),
        ("estate-2025-02-corrected.cfonb", "accepted 1 4 1"),
        ("two-accounts.cfonb", "accepted 4 10 2"),
        ("estate-at-nil.cfonb", "accepted 2 2 1"),
        ("estate-at-nil-again.cfonb", "accepted 2 2 1"),
        ("estate-sunday-month-end.cfonb", "accepted 2 5 1"),
        ("refused-02-cut.cfonb", "refused 2 0"),
        ("refused-04-line-end.cfonb", "refused 4 4"),
        ("refused-05-byte.cfonb", "refused 5 5"),
        ("refused-07-out-of-place.cfonb", "refused 7 2"),
        ("refused-08-amount.cfonb", "refused 8 5"),
        ("refused-09-date.cfonb", "refused 9 4"),
        ("refused-10-other-account.cfonb", "refused 10 5"),
        ("refused-12-booked-before.cfonb", "refused 12 4"),
        ("refused-13-movement-missing.cfonb", "refused 13 6"),
        ("refused-14-no-end.cfonb", "refused 14 6"),
        ("refused-22-month-missing.cfonb", "accepted 2 8 2"),
    ];
    let samples = samples();
    assert_eq!(samples.len(), expected.len());
    for (sample, (name, answer)) in samples.iter().zip(expected) {
        assert_eq!(sample.name, name);
        assert_eq!(
            answer_text(check(sample.line_end, &sample.bytes)),
            answer,
            "{name}"
        );
    }
}

/// What a delivery answers.
type Answer = Result<Delivered, NotDelivered>;

/// The months one by one are held after all three at once, and the statements at nil after those
/// with the other zero. Neither the corrected February nor November follows March, which ends with
/// 1,982,378 + 1,250,000 - 19,210 - 230,000 - 415,000.
#[test]
fn answers_of_delivery() {
    let mut journal = empty_journal();
    let mut answers = Vec::new();
    for sample in samples() {
        if sample.name.starts_with("estate") {
            answers.push(deliver(&mut journal, sample.line_end, &sample.bytes));
        }
    }
    let once = delivered(0, 1);
    let behind_march = [does_not_follow(1, 20250331, 2_568_168)];
    let months = [delivered(3, 0), once, once, once];
    let at_nil = [delivered(2, 0), delivered(0, 2)];
    let expected = [&months[..], &behind_march, &at_nil, &behind_march];
    assert_eq!(answers, expected.concat());
}

fn delivered(stored: u64, held: u64) -> Answer {
    Ok(Delivered { stored, held })
}

fn empty_journal() -> Vec<u8> {
    let mut journal = vec![0; 7_680 + 120 * 100];
    open(&mut journal).unwrap();
    journal
}

/// 22 at that record, with this date and balance expected.
fn does_not_follow(record: u64, date: u32, balance: i128) -> Answer {
    Err(NotDelivered {
        refusal: Refusal { number: 22, record },
        expected: Expected { date, balance },
    })
}

/// What the last of these samples is answered with, delivered after the others.
fn last_answer(names: &[&str]) -> Answer {
    let samples = samples();
    let mut journal = empty_journal();
    let answers = names.iter().map(|name| {
        let sample = samples.iter().find(|sample| sample.name == *name).unwrap();
        deliver(&mut journal, sample.line_end, &sample.bytes)
    });
    answers.last().unwrap()
}

/// January has seven records and ends with 1,250,000 + 842,350 - 18,640 - 96,000 - 415,000.
#[test]
fn answers_of_an_empty_journal() {
    let cases = [
        ("estate-2025-02-corrected.cfonb", delivered(1, 0)),
        ("estate-sunday-month-end.cfonb", delivered(2, 0)),
        (
            "refused-22-month-missing.cfonb",
            does_not_follow(8, 20250131, 1_562_710),
        ),
    ];
    for (name, answer) in cases {
        assert_eq!(last_answer(&[name]), answer, "{name}");
    }
}

/// Behind the three months, and with February missing.
#[test]
fn what_was_expected_of_a_sample() {
    let months = "estate-three-months.cfonb";
    for name in [
        "estate-2025-02-corrected.cfonb",
        "estate-sunday-month-end.cfonb",
    ] {
        let answer = does_not_follow(1, 20250331, 2_568_168);
        assert_eq!(last_answer(&[months, name]), answer, "{name}");
    }
    let january_and_march = ["estate-2025-01.cfonb", "estate-2025-03.cfonb"];
    let answer = does_not_follow(1, 20250131, 1_562_710);
    assert_eq!(last_answer(&january_and_march), answer);
}

/// The corrected February differs from the other one in an amount and in the new balance.
#[test]
fn the_corrected_month() {
    let [february, corrected] = ["estate-2025-02.cfonb", "estate-2025-02-corrected.cfonb"]
        .map(|name| std::fs::read(kept().join(name)).unwrap());
    assert_eq!(february.len(), corrected.len());
    let pairs = february.chunks(121).zip(corrected.chunks(121));
    let different: Vec<usize> = (1..)
        .zip(pairs)
        .filter(|(_, (one, other))| one != other)
        .map(|(record, _)| record)
        .collect();
    assert_eq!(different, [5, 7]);
    let amount = |bytes: &[u8], record: usize| bytes[121 * (record - 1) + 90..][..14].to_vec();
    assert_eq!(amount(&february, 5), b"0000000006421P");
    assert_eq!(amount(&corrected, 5), b"0000000004621P");
    assert_eq!(amount(&february, 7), b"0000000198237H");
    assert_eq!(amount(&corrected, 7), b"0000000200037H");
}

/// November closes on a Friday, December opens with the Sunday, and has that balance.
#[test]
fn the_month_that_ends_on_a_sunday() {
    let bytes = std::fs::read(kept().join("estate-sunday-month-end.cfonb")).unwrap();
    let lines: Vec<&[u8]> = bytes.split(|&byte| byte == b'\n').collect();
    let balance = |record: usize| (&lines[record - 1][34..40], &lines[record - 1][90..104]);
    assert_eq!(balance(1), (&b"311025"[..], &b"0000000210460{"[..]));
    assert_eq!(balance(6), (&b"281125"[..], &b"0000000305639{"[..]));
    assert_eq!(balance(7), (&b"301125"[..], &b"0000000305639{"[..]));
    assert_eq!(balance(10), (&b"311225"[..], &b"0000000262218{"[..]));
}

/// The two samples at nil differ in the sign of each zero, and in nothing else.
#[test]
fn zeros_of_the_samples_at_nil() {
    let [debits, credits] = ["estate-at-nil.cfonb", "estate-at-nil-again.cfonb"]
        .map(|name| std::fs::read(kept().join(name)).unwrap());
    let pairs = debits.iter().zip(&credits).enumerate();
    let different: Vec<usize> = pairs
        .filter(|(_, (a, b))| a != b)
        .map(|(at, _)| at)
        .collect();
    // The four balances: records 1, 2, 3 and 7.
    assert_eq!(different, [0, 1, 2, 6].map(|record| 121 * record + 103));
    assert!(different
        .iter()
        .all(|&at| (debits[at], credits[at]) == (b'}', b'{')));
}
