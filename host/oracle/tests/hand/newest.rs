//! Readings F15 to F20: the newest statement of an account.

use crate::common::Sheet;
use crate::shelf::{
    accounts, april, b, blank, february, file, journal, march, numbered_account, other_standstill,
    refusal, standstill, three_months, with, FEBRUARY, KEY, KEY_B,
};
use oracle::delivery::{newest, Newest, Source};
use oracle::read::{Place, Refusal};

/// Asks with each line end. Gives the source and the records before the statement and in it,
/// counted from the file's first or from the first body line.
fn asked(journal: &[u8], sheets: &[Sheet], key: &[u8]) -> Result<(Source, usize, usize), Refusal> {
    let answers = [0, 1, 2].map(|line_end| {
        let bytes = file(sheets, line_end);
        let newest = newest(journal, line_end, &bytes, key)?;
        let (first, line) = match newest.source {
            Source::Journal => (7_680, 120),
            Source::File => (0, 120 + line_end as usize),
        };
        // F15: a body has no line ends, a part of the file has the file's.
        assert_eq!(newest.line_end, line as u64 - 120);
        assert_eq!((newest.place.first - first) % line, 0);
        assert_eq!(newest.place.length % line, 0);
        let before = (newest.place.first - first) / line;
        Ok((newest.source, before, newest.place.length / line))
    });
    assert_eq!(answers[0], answers[1]);
    assert_eq!(answers[0], answers[2]);
    answers[0]
}

fn february_only(lines: usize) -> Vec<u8> {
    journal(lines, &[FEBRUARY], &[february()])
}

#[test]
fn f15_line_end_number() {
    let before = february_only(10);
    let crlf = file(&[february(), march()], 2);
    let found = |source, first, length, line_end| {
        Ok(Newest {
            source,
            place: Place { first, length },
            line_end,
        })
    };
    let from_file = found(Source::File, 4 * 122, 3 * 122, 2);
    assert_eq!(newest(&before, 2, &crlf, KEY), from_file);
    let from_journal = found(Source::Journal, 7_680, 480, 0);
    assert_eq!(newest(&before, 2, &crlf[..4 * 122], KEY), from_journal);
    assert_eq!(newest(&before, 1, b"", KEY), from_journal);
}

#[test]
fn f16_all_of_them_held() {
    let held = three_months();
    let last = Ok((Source::Journal, 7, 2));
    assert_eq!(asked(&held, &[april()], KEY), last);
    assert_eq!(asked(&held, &[march(), february()], KEY), last);
    assert_eq!(asked(&held, &[], KEY), last);
}

#[test]
fn f16_new_ones() {
    let before = february_only(12);
    // A new one and after it a held one.
    assert_eq!(
        asked(&before, &[march(), february()], KEY),
        Ok((Source::File, 0, 3))
    );
    // The same new one twice: the first of the two.
    assert_eq!(
        asked(&before, &[march(), march()], KEY),
        Ok((Source::File, 0, 3))
    );
    let sheets = [february(), march(), february(), march()];
    assert_eq!(asked(&before, &sheets, KEY), Ok((Source::File, 4, 3)));
    // Two new ones: the last.
    let sheets = [march(), april(), february()];
    assert_eq!(asked(&before, &sheets, KEY), Ok((Source::File, 3, 2)));
    assert_eq!(
        asked(&blank(4), &[february()], KEY),
        Ok((Source::File, 0, 4))
    );
    // One that stands still is new once only.
    let sheets = [standstill(), other_standstill(), standstill()];
    assert_eq!(asked(&blank(5), &sheets, KEY), Ok((Source::File, 2, 3)));
}

/// Only statements of the account asked for.
#[test]
fn f16_of_that_account() {
    let before = february_only(20);
    let sheets = [b(february()), march(), b(march())];
    assert_eq!(asked(&before, &sheets, KEY), Ok((Source::File, 4, 3)));
    assert_eq!(asked(&before, &sheets, KEY_B), Ok((Source::File, 7, 3)));
    assert_eq!(
        asked(&before, &sheets[2..], KEY),
        Ok((Source::Journal, 0, 4))
    );
    assert_eq!(asked(&before, &[march()], KEY_B), refusal(25, 0));
}

#[test]
fn f17_refusals_of_other_accounts() {
    let before = february_only(6);
    let keys: [&[u8]; 3] = [KEY, KEY_B, b"9999900010EUR20001234567A"];
    for key in keys {
        // 22, for the first account.
        assert_eq!(asked(&before, &[february(), april()], key), refusal(22, 5));
        assert_eq!(asked(&before, &[b(april()), april()], key), refusal(22, 3));
        // 24, for the second.
        assert_eq!(
            asked(&before, &[february(), b(march())], key),
            refusal(24, 5)
        );
        let full = accounts(128, 300);
        assert_eq!(
            asked(&full, &[numbered_account(3), b(april())], key),
            refusal(23, 3)
        );
        let bad = [march().set(2, 21, b"X")];
        assert_eq!(asked(&before, &bad, key), refusal(8, 2));
        assert_eq!(newest(&before, 3, b"", key), refusal(1, 0));
        let unsound = with(before.clone(), 60, b"1");
        assert_eq!(asked(&unsound, &bad, key), refusal(21, 0));
        assert_eq!(newest(&unsound, 3, b"", key), refusal(21, 0));
    }
    assert_eq!(asked(&before, &[february()], KEY_B), refusal(25, 0));
}

#[test]
fn f18_form_of_the_key() {
    let held = three_months();
    assert!(asked(&held, &[], KEY).is_ok());
    let longer = [KEY, b" "].concat();
    let keys: [&[u8]; 8] = [
        b"",
        &KEY[..24],
        &KEY[1..],
        &longer,
        b"                         ",
        b"\xFF\xFF\xFF\xFF\xFF\xFF\xFF\xFF\xFF\xFF\xFF\xFF\xFF\xFF\xFF\xFF\xFF\xFF\xFF\xFF\xFF\xFF\xFF\xFF\xFF",
        // As the zones stand in a record, and another order.
        b"12345    00010EUR2 0001234567A",
        b"12345000100001234567AEUR2",
    ];
    for key in keys {
        assert_eq!(asked(&held, &[], key), refusal(25, 0));
    }
    // Each byte counts.
    for place in 0..25 {
        let mut near = KEY.to_vec();
        near[place] ^= 1;
        assert_eq!(asked(&held, &[april()], &near), refusal(25, 0));
    }
}

/// Asking stores nothing: the journal is only lent to be read, and the same answer comes again.
#[test]
fn f20_asking_changes_nothing() {
    let before = february_only(12);
    for _ in 0..2 {
        assert_eq!(asked(&before, &[march()], KEY), Ok((Source::File, 0, 3)));
        assert_eq!(asked(&before, &[], KEY), Ok((Source::Journal, 0, 4)));
    }
}
