//! Nights made by hand, what becomes of each file derived from the rule.

use crate::common::{movement, period, worked, Sheet};
use oracle::delivery::{deliver, Delivered};
use oracle::night::{found_line_end, is_taken, night, Fate, Incoming, Night};
use oracle::nights::expected;
use oracle::read::Refusal;

const A: &[u8; 11] = b"0000000000A";
const B: &[u8; 11] = b"0000000000B";
/// The last days of November 2024 to May 2025.
const ENDS: [&str; 7] = [
    "301124", "311224", "310125", "280225", "310325", "300425", "310525",
];
const DECEMBER: usize = 0;
const JANUARY: usize = 1;
const FEBRUARY: usize = 2;
const MARCH: usize = 3;
const APRIL: usize = 4;

/// A statement of an account for a month, two records. The account is dormant: each of its months
/// follows each earlier one.
fn month(account: &[u8; 11], month: usize) -> Sheet {
    period(account, ENDS[month], ENDS[month + 1])
}

/// A statement of an account for a month by which its balance grows, three records. Without it the
/// next one does not follow.
fn busy_month(account: &[u8; 11], month: usize) -> Sheet {
    let (old, new) = (ENDS[month], ENDS[month + 1]);
    let amount = |more: usize| format!("000000001000{}{{", month + more);
    let ten = movement("05", new, new, "0000000000001{");
    let sheet = period(account, old, new).with(2, ten);
    sheet
        .set(1, 91, amount(0).as_bytes())
        .set(2, 22, account)
        .set(3, 91, amount(1).as_bytes())
}

/// A journal with so many lines that holds what these files have.
fn journal(lines: usize, files: &[Sheet]) -> Vec<u8> {
    let mut journal = vec![b' '; 7_680 + 120 * lines];
    for file in files {
        deliver(&mut journal, 0, &file.bytes(b"")).unwrap();
    }
    journal
}

fn run(journal: &[u8], files: &[(&str, Sheet)]) -> Night {
    let files = files.iter().map(|(name, sheet)| Incoming {
        name: name.to_string(),
        bytes: sheet.bytes(b"\n"),
    });
    night(journal, &files.collect::<Vec<_>>())
}

fn done(stored: u64, held: u64) -> Fate {
    Fate::Done(Delivered { stored, held })
}

fn left(number: u32, record: u64) -> Fate {
    Fate::Left(Refusal { number, record })
}

fn refused(number: u32, record: u64) -> Fate {
    Fate::Refused(Refusal { number, record })
}

/// The journal after the night is one of the same length to which these came in turn.
fn assert_holds(night: &Night, files: &[Sheet]) {
    let lines = (night.journal.len() - 7_680) / 120;
    assert!(night.journal == journal(lines, files));
}

fn text(night: &Night, name: &str) -> String {
    let mut all = expected(night).into_iter();
    all.find(|(other, _)| *other == name).unwrap().1
}

#[test]
fn line_ends_are_found() {
    for (line_end, end) in [(0, &b""[..]), (1, b"\n"), (2, b"\r\n")] {
        assert_eq!(found_line_end(&worked().bytes(end)), line_end);
    }
    // The byte after the first record decides, whatever the length.
    let with = |byte: u8, length: usize| {
        let mut file = vec![b'x'; length];
        file[120] = byte;
        found_line_end(&file)
    };
    assert_eq!(with(b'\n', 121), 1);
    assert_eq!(with(b'\r', 121), 2);
    assert_eq!(with(b'\n', 240), 1);
    assert_eq!(with(b'\r', 242), 2);
    assert_eq!(with(b'\n', 500), 1);
    // Else the first width that divides the length.
    let lengths = [
        (0, 0),
        (1, 0),
        (120, 0),
        (121, 1),
        (122, 2),
        (123, 0),
        (240, 0),
        (242, 1),
        (244, 2),
        (120 * 121, 0),
        (121 * 122, 1),
        (120 * 122, 0),
    ];
    for (length, line_end) in lengths {
        assert_eq!(found_line_end(&vec![b'x'; length]), line_end, "{length}");
    }
}

#[test]
fn names_that_are_taken() {
    for name in [
        ".x",
        ".",
        ".part",
        "a.part",
        "b.tmp",
        "c.filepart",
        "d~",
        "~",
    ] {
        assert!(!is_taken(name), "{name}");
    }
    for name in [
        "x", "part", "apart", "a.parts", "a.part.x", "a.PART", "tmp", "a.tmp1", "~a", "a.",
    ] {
        assert!(is_taken(name), "{name}");
    }
}

/// The name of March comes first, that of January last; dates decide.
#[test]
fn a_new_account() {
    let [january, february, march] = [JANUARY, FEBRUARY, MARCH].map(|one| month(A, one));
    let files = [
        ("a", march.clone()),
        ("b", february.clone()),
        ("c", january.clone()),
    ];
    let night = run(&journal(9, &[]), &files);
    assert_eq!(night.rounds, [3]);
    assert!(night.fates.values().all(|fate| *fate == done(1, 0)));
    assert_holds(&night, &[january, february, march]);
    assert_eq!(text(&night, "done"), "a\nb\nc\n");
    assert_eq!(
        text(&night, "begun"),
        "12345-00010-EUR-2-0000000000A 2024-12-31\n"
    );
    let totals = "done 3, refused 0, left 0, stored 3, held 0\n";
    assert_eq!(text(&night, "totals"), totals);
    assert_eq!(text(&night, "status"), "0\n");
}

/// 99 comes before 00.
#[test]
fn a_turn_of_the_century() {
    let before = period(A, "301199", "311299");
    let after = period(A, "311299", "310100");
    let last = period(A, "310100", "290200");
    let files = [
        ("a", last.clone()),
        ("b", after.clone()),
        ("c", before.clone()),
    ];
    let night = run(&journal(6, &[]), &files);
    assert_eq!(night.rounds, [3]);
    assert_holds(&night, &[before, after, last]);
    assert_eq!(
        text(&night, "begun"),
        "12345-00010-EUR-2-0000000000A 1999-11-30\n"
    );
}

/// A file waits for a month of its second account that comes later in the order.
#[test]
fn a_second_round() {
    let held = [month(A, JANUARY), month(B, JANUARY), month(B, FEBRUARY)];
    let before = journal(20, &held);
    let two = month(A, FEBRUARY).then(month(B, APRIL));
    let files = [("x", two.clone()), ("y", month(B, MARCH))];
    let night = run(&before, &files);
    assert_eq!(night.rounds, [1, 1]);
    assert_eq!(night.fates["x"], done(2, 0));
    assert_eq!(night.fates["y"], done(1, 0));
    let [one, other, third] = held;
    assert_holds(&night, &[one, other, third, month(B, MARCH), two]);
    assert_eq!(text(&night, "begun"), "");
}

/// What waits for a month that does not come is left; a round that gets no file done is the last.
#[test]
fn a_month_is_missing() {
    let held = [busy_month(A, DECEMBER)];
    let files = [
        ("new", month(B, MARCH)),
        ("late", busy_month(A, FEBRUARY).then(busy_month(A, MARCH))),
        (
            "again",
            busy_month(A, DECEMBER).then(busy_month(A, FEBRUARY)),
        ),
        ("held", busy_month(A, DECEMBER)),
    ];
    let night = run(&journal(9, &held), &files);
    assert_eq!(night.rounds, [2, 0]);
    assert_eq!(night.fates["late"], left(22, 1));
    assert_eq!(night.fates["again"], left(22, 4));
    assert_eq!(night.fates["held"], done(0, 1));
    assert_holds(&night, &[busy_month(A, DECEMBER), month(B, MARCH)]);
    assert_eq!(text(&night, "left"), "again\nlate\n");
    assert_eq!(text(&night, "status"), "4\n");
    let totals = "done 2, refused 0, left 2, stored 1, held 1\n";
    assert_eq!(text(&night, "totals"), totals);
}

/// A file that is not taken stays; one that is refused is out of the way at once.
#[test]
fn ignored_and_refused() {
    let files = [
        ("Z", month(A, JANUARY)),
        ("a", month(A, FEBRUARY).first(1)),
        ("b.part", month(A, FEBRUARY)),
        (".c", month(A, FEBRUARY)),
        ("d", Sheet(Vec::new())),
        ("e", month(A, MARCH).set(2, 1, b"09")),
    ];
    let night = run(&journal(9, &[]), &files);
    assert_eq!(night.rounds, [2]);
    assert_eq!(night.fates["a"], refused(14, 1));
    assert_eq!(night.fates["e"], refused(6, 2));
    assert_eq!(night.fates["d"], done(0, 0));
    assert_holds(&night, &[month(A, JANUARY)]);
    // Capitals come before small letters, as their bytes do.
    assert_eq!(text(&night, "done"), "Z\nd\n");
    assert_eq!(text(&night, "refused"), "a\ne\n");
    assert_eq!(text(&night, "ignored"), ".c\nb.part\n");
    assert_eq!(text(&night, "status"), "1\n");
    let totals = "done 2, refused 2, left 0, stored 1, held 0\n";
    assert_eq!(text(&night, "totals"), totals);
}

#[test]
fn nothing_waits() {
    let before = journal(3, &[month(A, JANUARY)]);
    let night = run(&before, &[]);
    assert!(night.rounds.is_empty());
    assert!(night.journal == before);
    let totals = "done 0, refused 0, left 0, stored 0, held 0\n";
    assert_eq!(text(&night, "totals"), totals);
    assert_eq!(text(&night, "status"), "0\n");
}

/// Room for one statement more; a file of held ones comes after the one that has none.
#[test]
fn lines_are_full() {
    let held = period(B, "311230", "310131");
    let files = [
        ("1", month(A, JANUARY)),
        ("2", month(A, FEBRUARY)),
        ("3", held.clone()),
    ];
    let before = journal(5, std::slice::from_ref(&held));
    let night = run(&before, &files);
    assert_eq!(night.rounds, [2, 0]);
    assert_eq!(night.fates["2"], left(24, 1));
    assert_eq!(night.fates["3"], done(0, 1));
    assert_holds(&night, &[held, month(A, JANUARY)]);
}

/// The same with 127 entries, of as many accounts.
#[test]
fn entries_are_full() {
    let account = |number: u8| {
        let mut account = *b"00000000000";
        account[8..].copy_from_slice(format!("{number:03}").as_bytes());
        account
    };
    let mut held: Vec<Sheet> = (0..127).map(|one| month(&account(one), APRIL)).collect();
    let files = [
        ("1", month(A, JANUARY)),
        ("2", month(B, JANUARY)),
        ("3", held[126].clone().then(held[3].clone())),
    ];
    let night = run(&journal(300, &held), &files);
    assert_eq!(night.rounds, [2, 0]);
    assert_eq!(night.fates["2"], left(23, 1));
    assert_eq!(night.fates["3"], done(0, 2));
    held.push(month(A, JANUARY));
    assert_holds(&night, &held);
}

/// A late month of an account of which nothing is held stands in a file with an early one of another
/// account. It waits for the first, which is done later in the same round; so it comes in a second.
#[test]
fn a_late_month_waits_for_the_first() {
    let held = month(A, JANUARY);
    let two = month(A, FEBRUARY).then(month(B, APRIL));
    let files = [("x", two.clone()), ("y", month(B, MARCH))];
    let night = run(&journal(20, std::slice::from_ref(&held)), &files);
    assert_eq!(night.rounds, [1, 1]);
    assert_eq!(night.fates["x"], done(2, 0));
    assert_eq!(night.fates["y"], done(1, 0));
    assert_holds(&night, &[held, month(B, MARCH), two]);
    assert_eq!(
        text(&night, "begun"),
        "12345-00010-EUR-2-0000000000B 2025-02-28\n"
    );
    assert_eq!(text(&night, "status"), "0\n");
}

/// The same file after file: each round releases one.
#[test]
fn a_third_round() {
    const C: &[u8; 11] = b"0000000000C";
    let first = month(A, JANUARY).then(month(B, MARCH));
    let second = month(C, APRIL).then(month(B, FEBRUARY));
    let files = [
        ("x", first.clone()),
        ("y", second.clone()),
        ("z", month(C, MARCH)),
    ];
    let night = run(&journal(20, &[]), &files);
    assert_eq!(night.rounds, [1, 1, 1]);
    assert_holds(&night, &[month(C, MARCH), second, first]);
}

/// The first month stands in a file that waits for another account. Once that has come on, both
/// files are done.
#[test]
fn a_first_month_that_waits() {
    let held = month(A, JANUARY);
    let two = month(B, JANUARY).then(month(A, MARCH));
    let files = [
        ("w", month(A, FEBRUARY)),
        ("x", two.clone()),
        ("y", month(B, FEBRUARY)),
    ];
    let night = run(&journal(20, std::slice::from_ref(&held)), &files);
    assert_eq!(night.rounds, [1, 2]);
    assert!(night
        .fates
        .values()
        .all(|fate| matches!(fate, Fate::Done(_))));
    let after = [held, month(A, FEBRUARY), two, month(B, FEBRUARY)];
    assert_holds(&night, &after);
    assert_eq!(
        text(&night, "begun"),
        "12345-00010-EUR-2-0000000000B 2024-12-31\n"
    );
}

/// Where the other account does not come on, the first does not begin, and all its files are left.
#[test]
fn an_account_does_not_begin_without_its_first() {
    let held = busy_month(A, JANUARY);
    let two = month(B, JANUARY).then(busy_month(A, MARCH));
    let files = [
        ("x", two),
        ("y", month(B, FEBRUARY)),
        ("z", month(B, MARCH)),
    ];
    let night = run(&journal(20, std::slice::from_ref(&held)), &files);
    assert_eq!(night.rounds, [0]);
    assert_eq!(night.fates["x"], left(22, 3));
    assert_eq!(night.fates["y"], Fate::HeldBack);
    assert_eq!(night.fates["z"], Fate::HeldBack);
    assert_holds(&night, &[held]);
    assert_eq!(text(&night, "begun"), "");
    assert_eq!(text(&night, "left"), "x\ny\nz\n");
    let totals = "done 0, refused 0, left 3, stored 0, held 0\n";
    assert_eq!(text(&night, "totals"), totals);
    assert_eq!(text(&night, "status"), "4\n");
}

/// Each has the first month of one account and a later one of the other.
#[test]
fn two_files_hold_each_other_back() {
    let one = month(A, JANUARY).then(month(B, MARCH));
    let other = month(B, FEBRUARY).then(month(A, FEBRUARY));
    let before = journal(20, &[]);
    let night = run(&before, &[("x", one), ("y", other)]);
    assert_eq!(night.rounds, [0]);
    assert_eq!(night.fates["x"], Fate::HeldBack);
    assert_eq!(night.fates["y"], Fate::HeldBack);
    assert!(night.journal == before);
    assert_eq!(text(&night, "left"), "x\ny\n");
    assert_eq!(text(&night, "begun"), "");
    assert_eq!(text(&night, "status"), "4\n");
}

/// A file with the months before and after another's: each waits for the other, whether the account
/// is new or known, dormant or not.
#[test]
fn a_gap_inside_a_file() {
    for month in [month, busy_month] {
        for held in [&[][..], &[month(A, JANUARY)]] {
            let before = journal(20, held);
            let two = month(A, FEBRUARY).then(month(A, APRIL));
            let night = run(&before, &[("x", two), ("y", month(A, MARCH))]);
            assert_eq!(night.rounds, [0]);
            assert_eq!(night.fates["x"], Fate::HeldBack);
            assert_eq!(night.fates["y"], Fate::HeldBack);
            assert!(night.journal == before);
            assert_eq!(text(&night, "left"), "x\ny\n");
            assert_eq!(text(&night, "status"), "4\n");
        }
    }
}

/// The first month of a new account stands in a file with a month that does not follow it.
#[test]
fn a_file_that_is_refused_holds_others_back() {
    let gap = busy_month(B, JANUARY).then(busy_month(B, APRIL));
    let files = [("x", gap), ("y", busy_month(B, APRIL))];
    let before = journal(20, &[]);
    let night = run(&before, &files);
    assert_eq!(night.rounds, [0]);
    assert_eq!(night.fates["x"], left(22, 4));
    assert_eq!(night.fates["y"], Fate::HeldBack);
    assert!(night.journal == before);
}

/// The earliest date of an account counts, wherever in the file its statement stands.
#[test]
fn the_earliest_may_stand_last() {
    let backwards = month(A, MARCH).then(month(A, JANUARY));
    let before = journal(20, &[]);
    let night = run(&before, &[("x", backwards.clone()), ("y", month(A, MARCH))]);
    assert_eq!(night.fates["x"], left(22, 3));
    assert_eq!(night.fates["y"], Fate::HeldBack);
    assert!(night.journal == before);
    let night = run(&before, &[("x", backwards), ("y", month(A, FEBRUARY))]);
    assert_eq!(night.fates["x"], Fate::HeldBack);
    assert_eq!(night.fates["y"], Fate::HeldBack);
    assert!(night.journal == before);
}

/// The same date holds nothing back.
#[test]
fn two_copies() {
    let january = month(A, JANUARY);
    let both = january.clone().then(month(A, FEBRUARY));
    let files = [
        ("a", january.clone()),
        ("b", january.clone()),
        ("c", both.clone()),
    ];
    let night = run(&journal(9, &[]), &files);
    assert_eq!(night.rounds, [3]);
    assert_eq!(night.fates["a"], done(1, 0));
    assert_eq!(night.fates["b"], done(0, 1));
    assert_eq!(night.fates["c"], done(1, 1));
    assert_holds(&night, &[both]);
}

/// Of two statements that begin on one day the one that ends earlier comes first.
#[test]
fn of_one_day_the_shorter_first() {
    let opening = period(A, ENDS[JANUARY], ENDS[JANUARY]);
    let january = month(A, JANUARY);
    let files = [("a", january.clone()), ("b", opening.clone())];
    let night = run(&journal(9, &[]), &files);
    assert_eq!(night.rounds, [2]);
    assert_holds(&night, &[opening.clone(), january.clone()]);
    // The file with the longer one comes first: it is held back.
    let two = month(B, DECEMBER).then(january);
    let night = run(
        &journal(9, &[]),
        &[("a", two.clone()), ("b", opening.clone())],
    );
    assert_eq!(night.rounds, [1, 1]);
    assert_holds(&night, &[opening, two]);
}

/// What can no longer be stored holds nothing back: December is refused, February follows. April may
/// still follow one day, and is left.
#[test]
fn what_is_too_early_holds_nothing_back() {
    let held = busy_month(A, JANUARY);
    let files = [
        ("x", busy_month(A, DECEMBER)),
        ("y", busy_month(A, FEBRUARY)),
        ("z", busy_month(A, APRIL)),
    ];
    let night = run(&journal(9, std::slice::from_ref(&held)), &files);
    assert_eq!(night.rounds, [1, 0]);
    assert_eq!(night.fates["x"], refused(22, 1));
    assert_eq!(night.fates["y"], done(1, 0));
    assert_eq!(night.fates["z"], left(22, 1));
    let totals = "done 1, refused 1, left 1, stored 1, held 0\n";
    assert_eq!(text(&night, "totals"), totals);
    assert_eq!(text(&night, "status"), "4\n");
    assert_holds(&night, &[held, busy_month(A, FEBRUARY)]);
}

/// An account that a file begins is known to the next one in the same round: March is done in the
/// first, though a file with February waits on.
#[test]
fn an_account_is_known_at_once() {
    let held = busy_month(B, JANUARY);
    let first = month(A, JANUARY).then(month(A, FEBRUARY));
    let files = [
        ("x", first.clone()),
        ("y", month(A, FEBRUARY).then(busy_month(B, MARCH))),
        ("z", month(A, MARCH)),
    ];
    let night = run(&journal(20, std::slice::from_ref(&held)), &files);
    assert_eq!(night.rounds, [2, 0]);
    assert_eq!(night.fates["y"], left(22, 3));
    assert_holds(&night, &[held, first, month(A, MARCH)]);
}

/// One account of a file is known, the other is not: that one holds it back.
#[test]
fn one_of_two_accounts_is_new() {
    let held = month(A, JANUARY);
    let two = month(A, FEBRUARY).then(busy_month(B, MARCH));
    let gap = busy_month(B, JANUARY).then(busy_month(B, MARCH));
    let night = run(
        &journal(9, std::slice::from_ref(&held)),
        &[("x", two), ("y", gap)],
    );
    assert_eq!(night.fates["x"], Fate::HeldBack);
    assert_eq!(night.fates["y"], left(22, 4));
    assert_holds(&night, &[held]);
}

/// What the check refuses holds nothing back, nor does what is not taken.
#[test]
fn refused_and_ignored_hold_nothing_back() {
    let files = [
        ("a", month(A, JANUARY).set(2, 1, b"09")),
        ("b.part", month(A, JANUARY)),
        ("c", month(A, FEBRUARY)),
    ];
    let night = run(&journal(9, &[]), &files);
    assert_eq!(night.rounds, [1]);
    assert_eq!(night.fates["a"], refused(6, 2));
    assert_eq!(night.fates["c"], done(1, 0));
    assert_eq!(
        text(&night, "begun"),
        "12345-00010-EUR-2-0000000000A 2025-01-31\n"
    );
}

/// A file for which there is no room holds back one for which there would be.
#[test]
fn a_first_month_without_room() {
    let line = movement("05", "150125", "150125", "0000000000000{");
    let long = month(A, JANUARY).with(2, line).set(2, 22, A);
    let files = [("x", long), ("y", month(A, FEBRUARY))];
    let before = journal(2, &[]);
    let night = run(&before, &files);
    assert_eq!(night.rounds, [0]);
    assert_eq!(night.fates["x"], left(24, 1));
    assert_eq!(night.fates["y"], Fate::HeldBack);
    assert!(night.journal == before);
}

/// An account is its whole key: one that differs in a zone holds nothing back.
#[test]
fn accounts_are_whole_keys() {
    let zones: [(usize, &[u8]); 5] = [
        (3, b"12346"),
        (12, b"00011"),
        (17, b"USD"),
        (20, b"3"),
        (22, B),
    ];
    for (position, bytes) in zones {
        let gap = month(A, JANUARY).then(month(A, MARCH));
        let other = (1..=4).fold(gap, |sheet, record| sheet.set(record, position, bytes));
        let files = [("x", other), ("y", month(A, FEBRUARY))];
        let night = run(&journal(9, &[]), &files);
        assert_eq!(night.rounds, [2]);
        assert_eq!(night.fates["x"], done(2, 0), "{position}");
        assert_eq!(night.fates["y"], done(1, 0), "{position}");
    }
}

/// December 1999 is before January 2000, and not after it.
#[test]
fn holding_back_at_the_turn_of_the_century() {
    let december = period(A, "301199", "311299");
    let january = period(A, "311299", "310100");
    let february = period(A, "310100", "290200");
    let march = period(A, "290200", "310300");
    let night = run(
        &journal(9, &[]),
        &[
            ("x", december.clone().then(february.clone())),
            ("y", january.clone()),
        ],
    );
    assert_eq!(night.fates["y"], Fate::HeldBack);
    let night = run(
        &journal(9, &[]),
        &[("x", january.then(march)), ("y", december)],
    );
    assert_eq!(night.fates["y"], done(1, 0));
}

/// A dormant account: March would follow January, and its name comes before that of February. Known
/// or new, all are stored, in order.
#[test]
fn a_dormant_account() {
    let [january, february, march] = [JANUARY, FEBRUARY, MARCH].map(|one| month(A, one));
    let files = [("a", march.clone()), ("b", february.clone())];
    let night = run(&journal(9, std::slice::from_ref(&january)), &files);
    assert_eq!(night.rounds, [2]);
    assert_holds(&night, &[january, february.clone(), march.clone()]);
    let night = run(&journal(9, &[]), &files);
    assert_eq!(night.rounds, [2]);
    assert_holds(&night, &[february, march]);
    assert_eq!(text(&night, "status"), "0\n");
}

/// March stands in a file with January of another account, and that file comes first. It is held
/// back until February has come, whether the account is known or new.
#[test]
fn a_dormant_account_in_a_file_of_two() {
    let two = month(B, JANUARY).then(month(A, MARCH));
    let files = [("a", two.clone()), ("b", month(A, FEBRUARY))];
    let january = month(A, JANUARY);
    for held in [&[][..], std::slice::from_ref(&january)] {
        let night = run(&journal(9, held), &files);
        assert_eq!(night.rounds, [1, 1]);
        assert_eq!(night.fates["a"], done(2, 0));
        assert_eq!(night.fates["b"], done(1, 0));
        let after = [held, &[month(A, FEBRUARY), two.clone()]].concat();
        assert_holds(&night, &after);
    }
}

/// February does not come: nothing tells that it is missing, and March passes it over. The next
/// night it is too early for ever.
#[test]
fn a_dormant_month_is_passed_over() {
    let held = month(A, JANUARY);
    let files = [("x", month(A, MARCH)), ("y", month(A, APRIL))];
    let first = run(&journal(9, std::slice::from_ref(&held)), &files);
    assert_eq!(first.rounds, [2]);
    let after = [held, month(A, MARCH), month(A, APRIL)];
    assert_holds(&first, &after);
    assert_eq!(
        text(&first, "skipped"),
        "12345-00010-EUR-2-0000000000A 2025-01-31 2025-02-28\n"
    );
    let second = run(&first.journal, &[("z", month(A, FEBRUARY))]);
    assert_eq!(second.rounds, [0]);
    assert_eq!(second.fates["z"], refused(22, 1));
    assert_holds(&second, &after);
}

/// Months that close one to three days before the next one opens.
#[test]
fn months_that_close_early() {
    let [november, december, january] = [
        period(A, "311025", "281125"),
        period(A, "301125", "311225"),
        period(A, "311225", "300126"),
    ];
    let february = period(A, "310126", "270226");
    let files = [
        ("a", february.clone()),
        ("b", january.clone()),
        ("c", december.clone()),
    ];
    let night = run(&journal(9, std::slice::from_ref(&november)), &files);
    assert_eq!(night.rounds, [3]);
    assert_holds(
        &night,
        &[
            november.clone(),
            december.clone(),
            january.clone(),
            february.clone(),
        ],
    );
    // New, and the first month in a file that comes last for its name and first for its date.
    let files = [
        ("a", february.then(period(B, "270226", "310326"))),
        ("b", november.clone()),
    ];
    let night = run(&journal(12, &[]), &files);
    assert_eq!(night.rounds, [2]);
    let [first, second] = files.map(|(_, sheet)| sheet);
    assert_holds(&night, &[second, first]);
    // Known, and December in a file that waits for another account: January waits too.
    let stuck = december.then(busy_month(B, APRIL));
    let before = journal(12, &[november, busy_month(B, JANUARY)]);
    let night = run(&before, &[("a", january), ("b", stuck)]);
    assert_eq!(night.rounds, [0]);
    assert_eq!(night.fates["a"], Fate::HeldBack);
    assert_eq!(night.fates["b"], left(22, 3));
    assert!(night.journal == before);
}

/// What begins on the very day of the last new date skips no day: it waits for nothing. Of files that
/// begin on one day the one whose earliest ends first has its turn first.
#[test]
fn on_the_very_day_of_the_last() {
    let held = month(A, JANUARY);
    let before = journal(9, std::slice::from_ref(&held));
    let february = month(A, FEBRUARY);
    let fortnight = period(A, "310125", "140225");
    let stuck = fortnight.clone().then(busy_month(A, MARCH));
    let files = [("a", february.clone()), ("b", stuck)];
    let night = run(&before, &files);
    assert_eq!(night.rounds, [1, 0]);
    assert_eq!(night.fates["b"], left(22, 1));
    assert_holds(&night, &[held.clone(), february.clone()]);
    let one_day = period(A, "310125", "310125");
    let files = [("a", february.clone()), ("b", one_day.clone())];
    let night = run(&before, &files);
    assert_eq!(night.rounds, [2]);
    assert_holds(&night, &[held.clone(), one_day, february]);
    // A day later the fortnight comes first, and then the other is too early for ever.
    let late = period(A, "010225", "280225");
    let files = [("a", late), ("b", fortnight.clone())];
    let night = run(&before, &files);
    assert_eq!(night.rounds, [1]);
    assert_eq!(night.fates["a"], refused(22, 1));
    assert_holds(&night, &[held, fortnight]);
}

/// One that begins and ends on the day of the last could follow itself: a copy holds nothing back,
/// whether it is held or stands in the file itself. Another one of that day does.
#[test]
fn copies_of_a_single_day() {
    let one_day = period(A, "310125", "310125");
    let late = period(A, "020225", "280225");
    let both = one_day.clone().then(late.clone());
    let files = [("a", both.clone()), ("b", both.clone())];
    let night = run(&journal(9, &[]), &files);
    assert_eq!(night.fates["a"], done(2, 0));
    assert_eq!(night.fates["b"], done(0, 2));
    let stuck = one_day.clone().then(busy_month(B, MARCH));
    let held = [one_day.clone(), busy_month(B, JANUARY)];
    let files = [("a", stuck.clone()), ("b", late.clone())];
    let night = run(&journal(20, &held), &files);
    assert_eq!(night.fates["a"], left(22, 3));
    assert_eq!(night.fates["b"], done(1, 0));
    let files = [("a", stuck), ("b", both)];
    let night = run(&journal(20, &held[1..]), &files);
    assert_eq!(night.fates["a"], left(22, 3));
    assert_eq!(night.fates["b"], done(2, 0));
    let nothing = movement("05", "310125", "310125", "0000000000000{").clone();
    let other = one_day.with(2, nothing).set(2, 22, A);
    let files = [("a", month(B, JANUARY).then(late)), ("b", other)];
    let night = run(&journal(20, &held[..1]), &files);
    assert_eq!(night.rounds, [1, 1]);
    assert_eq!(night.fates["a"], done(2, 0));
    assert_eq!(night.fates["b"], done(1, 0));
}

/// What stands before a statement in its own file counts as if it were held.
#[test]
fn statements_before_it_in_its_file() {
    let held = month(A, JANUARY);
    let before = journal(20, std::slice::from_ref(&held));
    let both = month(A, FEBRUARY).then(month(A, MARCH));
    let stuck = month(A, FEBRUARY).then(busy_month(B, MARCH));
    let files = [
        ("x", both.clone()),
        ("y", stuck),
        ("z", busy_month(B, JANUARY)),
    ];
    let night = run(&before, &files);
    assert_eq!(night.fates["x"], done(2, 0));
    assert_eq!(night.fates["y"], left(22, 3));
    assert_holds(&night, &[held, busy_month(B, JANUARY), both]);
}

/// A month once more, with another label.
fn corrected_month(account: &[u8; 11], month: usize) -> Sheet {
    busy_month(account, month).set(2, 49, b"CORRECTED")
}

/// A journal that holds January and February.
fn two_months_held() -> Vec<u8> {
    journal(20, &[busy_month(A, JANUARY), busy_month(A, FEBRUARY)])
}

/// A corrected month begins before the last one that is held ends, and so does an older month:
/// nothing of such a file can ever be stored, and it goes.
#[test]
fn corrected_and_older_months_are_refused() {
    let before = two_months_held();
    let never = [
        corrected_month(A, JANUARY),
        corrected_month(A, FEBRUARY),
        busy_month(A, DECEMBER),
        corrected_month(A, JANUARY).then(busy_month(A, DECEMBER)),
    ];
    for file in never {
        let night = run(&before, &[("x", file)]);
        assert_eq!(night.rounds, [0]);
        assert_eq!(night.fates["x"], refused(22, 1));
        assert!(night.journal == before);
        assert_eq!(text(&night, "refused"), "x\n");
        assert_eq!(text(&night, "left"), "");
        let totals = "done 0, refused 1, left 0, stored 0, held 0\n";
        assert_eq!(text(&night, "totals"), totals);
        assert_eq!(text(&night, "status"), "1\n");
    }
}

/// Beside held ones it goes too: none of them is to be stored.
#[test]
fn a_corrected_month_beside_held_ones() {
    let before = two_months_held();
    let [january, february] = [JANUARY, FEBRUARY].map(|one| busy_month(A, one));
    let files = [
        ("x", january.clone().then(corrected_month(A, FEBRUARY))),
        ("y", corrected_month(A, JANUARY).then(february.clone())),
        ("z", february.then(january)),
    ];
    let night = run(&before, &files);
    assert_eq!(night.rounds, [1]);
    assert_eq!(night.fates["x"], refused(22, 4));
    assert_eq!(night.fates["y"], refused(22, 1));
    assert_eq!(night.fates["z"], done(0, 2));
    assert!(night.journal == before);
    assert_eq!(text(&night, "status"), "1\n");
}

/// A held one of a single day begins on the last new date and not before it. It is held all the same.
#[test]
fn a_corrected_month_beside_a_held_day() {
    let one_day = period(A, "310125", "310125");
    let nothing = movement("05", "310125", "310125", "0000000000000{");
    let corrected = month(A, JANUARY).with(2, nothing).set(2, 22, A);
    let before = journal(9, &[month(A, JANUARY), one_day.clone()]);
    let night = run(&before, &[("x", one_day.clone().then(corrected.clone()))]);
    assert_eq!(night.fates["x"], refused(22, 3));
    // Another one of that day may still be stored.
    let other = one_day.set(1, 103, b"1").set(2, 103, b"1");
    let night = run(&before, &[("x", other.then(corrected))]);
    assert_eq!(night.fates["x"], left(22, 1));
    assert!(night.journal == before);
}

/// What is held is asked as it is stored: with a debit zero the held one is the same.
#[test]
fn a_corrected_month_beside_a_held_one_with_the_other_zero() {
    let nil = |zero: &[u8]| month(A, JANUARY).set(1, 91, zero).set(2, 91, zero);
    let (credit, debit) = (b"0000000000000{", b"0000000000000}");
    let nothing = movement("05", "310125", "310125", "0000000000000{");
    let corrected = nil(credit).with(2, nothing).set(2, 22, A);
    let before = journal(9, &[nil(credit)]);
    let night = run(&before, &[("x", nil(debit).then(corrected))]);
    assert_eq!(night.fates["x"], refused(22, 3));
    assert!(night.journal == before);
}

/// Beside a new month it stays, wherever in the file that stands, and holds the next one back.
#[test]
fn a_corrected_month_beside_a_new_one() {
    let before = two_months_held();
    let (corrected, march) = (corrected_month(A, JANUARY), busy_month(A, MARCH));
    let files = [
        (corrected.clone().then(march.clone()), left(22, 1)),
        (march.then(corrected), left(22, 4)),
    ];
    for (file, fate) in files {
        let night = run(&before, &[("x", file), ("y", busy_month(A, APRIL))]);
        assert_eq!(night.rounds, [0]);
        assert_eq!(night.fates["x"], fate);
        assert_eq!(night.fates["y"], Fate::HeldBack);
        assert!(night.journal == before);
        assert_eq!(text(&night, "left"), "x\ny\n");
        assert_eq!(text(&night, "status"), "4\n");
    }
}

/// So it does beside the first month of another account, which does not begin then.
#[test]
fn a_corrected_month_beside_a_first_one() {
    let before = two_months_held();
    let both = corrected_month(A, FEBRUARY).then(month(B, JANUARY));
    let night = run(&before, &[("x", both), ("y", month(B, FEBRUARY))]);
    assert_eq!(night.rounds, [0]);
    assert_eq!(night.fates["x"], left(22, 1));
    assert_eq!(night.fates["y"], Fate::HeldBack);
    assert_eq!(text(&night, "begun"), "");
}

/// Where the new month comes in another file too, nothing is left of the first one once it is held:
/// in the next round, or later in the same.
#[test]
fn a_corrected_month_beside_one_that_comes() {
    let before = two_months_held();
    let march = busy_month(A, MARCH);
    let before_it = corrected_month(A, JANUARY).then(march.clone());
    let behind_it = march.clone().then(corrected_month(A, FEBRUARY));
    // This one begins earlier, so that its turn comes first.
    let two = month(B, DECEMBER).then(march.clone());
    let cases = [
        (
            before_it.clone(),
            march.clone(),
            &[1, 0][..],
            refused(22, 1),
        ),
        (behind_it, march, &[1, 0], refused(22, 4)),
        (before_it, two, &[1], refused(22, 1)),
    ];
    for (both, other, rounds, fate) in cases {
        let night = run(&before, &[("x", both), ("y", other)]);
        assert_eq!(night.rounds, rounds);
        assert_eq!(night.fates["x"], fate);
        assert!(matches!(night.fates["y"], Fate::Done(_)));
        assert_eq!(text(&night, "status"), "1\n");
    }
}

/// Months in the wrong order inside a file. Each could still be stored from another file, so it is
/// left, whether anything is held of the account or not, dormant or not.
#[test]
fn months_in_the_wrong_order_are_left() {
    // Nothing is held: February begins the account, January cannot follow it. December is held:
    // February does not follow it, or it does and January does not.
    let ends = [[left(22, 4), left(22, 1)], [left(22, 3), left(22, 3)]];
    for (month, [new, known]) in [busy_month, month].into_iter().zip(ends) {
        let december = [month(A, DECEMBER)];
        for (held, fate) in [(&[][..], new), (&december, known)] {
            assert_left_backwards(&journal(20, held), month, fate);
        }
    }
}

/// A file of February and January is left so. Once both have come by themselves it is held.
fn assert_left_backwards(before: &[u8], month: fn(&[u8; 11], usize) -> Sheet, fate: Fate) {
    let backwards = month(A, FEBRUARY).then(month(A, JANUARY));
    let night = run(before, &[("x", backwards.clone())]);
    assert_eq!(night.rounds, [0]);
    assert_eq!(night.fates["x"], fate);
    assert!(night.journal == before);
    assert_eq!(text(&night, "status"), "4\n");
    let files = [
        ("x", backwards),
        ("y", month(A, JANUARY)),
        ("z", month(A, FEBRUARY)),
    ];
    let night = run(before, &files);
    assert_eq!(night.fates["x"], done(0, 2));
    assert_eq!(text(&night, "status"), "0\n");
}

/// What begins on the very day that the last one ends, with another balance, is left. Once the right
/// one is held it is too early for ever.
#[test]
fn on_the_very_day_with_another_balance() {
    let before = journal(20, &[busy_month(A, JANUARY)]);
    let (right, wrong) = (busy_month(A, FEBRUARY), month(A, FEBRUARY));
    let night = run(&before, &[("x", wrong.clone())]);
    assert_eq!(night.rounds, [0]);
    assert_eq!(night.fates["x"], left(22, 1));
    assert_eq!(text(&night, "status"), "4\n");
    // Its turn comes before the right one's, or after it.
    for (name, rounds) in [("x", &[1, 0][..]), ("z", &[1])] {
        let night = run(&before, &[(name, wrong.clone()), ("y", right.clone())]);
        assert_eq!(night.rounds, rounds);
        assert_eq!(night.fates[name], refused(22, 1));
        assert_eq!(night.fates["y"], done(1, 0));
        let totals = "done 1, refused 1, left 0, stored 1, held 0\n";
        assert_eq!(text(&night, "totals"), totals);
        assert_eq!(text(&night, "status"), "1\n");
    }
}

/// What another account holds, if only a zone apart, makes nothing too early.
#[test]
fn too_early_for_its_own_account() {
    let held = [busy_month(A, APRIL), busy_month(B, DECEMBER)];
    let before = journal(20, &held);
    let files = [("x", busy_month(B, FEBRUARY)), ("y", busy_month(A, MARCH))];
    let night = run(&before, &files);
    assert_eq!(night.fates["x"], left(22, 1));
    assert_eq!(night.fates["y"], refused(22, 1));
    assert!(night.journal == before);
}

/// 1999 is before 2000, and not after it.
#[test]
fn too_early_at_the_turn_of_the_century() {
    let before = journal(9, &[period(A, "311299", "310100")]);
    let night = run(&before, &[("x", period(A, "301199", "311299"))]);
    assert_eq!(night.fates["x"], refused(22, 1));
    let before = journal(9, &[period(A, "301199", "311299")]);
    let other = |sheet: Sheet| sheet.set(1, 103, b"1").set(2, 103, b"1");
    let night = run(&before, &[("x", other(period(A, "010100", "310100")))]);
    assert_eq!(night.fates["x"], left(22, 1));
}

/// A file without room waits, also where a corrected month stands behind.
#[test]
fn without_room_a_file_waits() {
    let before = journal(6, &[busy_month(A, JANUARY), busy_month(A, FEBRUARY)]);
    let both = busy_month(A, MARCH).then(corrected_month(A, JANUARY));
    let night = run(&before, &[("x", both)]);
    assert_eq!(night.fates["x"], left(24, 1));
    assert_eq!(text(&night, "status"), "4\n");
}
