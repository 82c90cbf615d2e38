//! Vectors of amounts of nothing, by the settled point that they are for: files with the answer of
//! the check, and series on a journal. They are fixed: no seed.

mod series;

pub use series::series;

use crate::damage::{case, Case, Claim};
use crate::worked_account::{complement, draft, statement, with, Records};

/// The two zeros, and other amounts around nothing.
const CREDIT: &str = "0000000000000{";
const DEBIT: &str = "0000000000000}";
const SEVEN: &str = "0000000000000G";
const MINUS_SEVEN: &str = "0000000000000P";
const MINUS_TEN: &str = "0000000000001}";
const HUNDRED: &str = "0000000000010{";

/// Old and new date of a statement.
const FEBRUARY: [&str; 2] = ["310125", "280225"];
const MARCH: [&str; 2] = ["280225", "310325"];

/// The name of a file, what is expected of the check, the records.
type Vector = (&'static str, Claim, Records);

/// All files, with each line end.
pub fn checks() -> Vec<Case> {
    let vectors = vectors();
    let with = |line_end| vectors.iter().map(move |vector| check(vector, line_end));
    (0..3).flat_map(with).collect()
}

/// Each file once. The line ends take turns.
pub fn kept() -> Vec<Case> {
    let turns = vectors().into_iter().zip((0..3).cycle());
    turns
        .map(|(vector, line_end)| check(&vector, line_end))
        .collect()
}

fn check((name, claim, records): &Vector, line_end: u64) -> Case {
    case(name, &draft(records, line_end), *claim)
}

fn vectors() -> Vec<Vector> {
    [accepted(), refused(), texts(), several()].concat()
}

/// N1: a debit zero wherever an amount stands.
fn accepted() -> Vec<Vector> {
    let list = [
        ("N1-in-01-and-07", quiet(DEBIT, DEBIT)),
        ("N1-in-01", quiet(DEBIT, CREDIT)),
        ("N1-in-07", quiet(CREDIT, DEBIT)),
        ("N1-in-04", statement(FEBRUARY, HUNDRED, &[DEBIT], HUNDRED)),
        ("N1-in-all", nothing([DEBIT; 4])),
        (
            "N1-movements-cancel-out",
            statement(FEBRUARY, DEBIT, &[SEVEN, MINUS_SEVEN], DEBIT),
        ),
        (
            "N1-minus-ten",
            statement(FEBRUARY, DEBIT, &[MINUS_TEN], MINUS_TEN),
        ),
    ];
    let accepted = |(name, records)| (name, Claim::Accepted, records);
    list.into_iter().map(accepted).collect()
}

/// N1: what is wrong beside a debit zero, and what is none.
fn refused() -> Vec<Vector> {
    let nil = || quiet(DEBIT, DEBIT);
    let movement = || statement(FEBRUARY, DEBIT, &[DEBIT], DEBIT);
    let [mut doubled, mut open, mut mmo] = [nil(), nil(), movement()];
    doubled.insert(0, doubled[0].clone());
    open.pop();
    mmo.insert(2, complement(FEBRUARY[0], "MMOUSD20000000000000}"));
    vec![
        (
            "N1-sum-wrong",
            Claim::Refused(13, 3),
            statement(FEBRUARY, DEBIT, &[SEVEN], DEBIT),
        ),
        (
            "N1-from-minus-ten",
            Claim::Refused(13, 2),
            quiet(MINUS_TEN, DEBIT),
        ),
        ("N1-second-01", Claim::Refused(7, 2), doubled),
        (
            "N1-no-old-date",
            Claim::Refused(9, 1),
            with(nil(), 0, 35, b"310225"),
        ),
        (
            "N1-no-value-date",
            Claim::Refused(9, 2),
            with(movement(), 1, 43, b"290225"),
        ),
        (
            "N1-other-account",
            Claim::Refused(10, 2),
            with(nil(), 1, 32, b"B"),
        ),
        (
            "N1-new-date-before-old",
            Claim::Refused(12, 2),
            with(nil(), 1, 35, b"300125"),
        ),
        ("N1-no-07", Claim::Refused(14, 1), open),
        ("N1-amount-of-an-mmo", Claim::Refused(8, 3), mmo),
        (
            "N1-blank-before-the-sign",
            Claim::Refused(8, 1),
            with(nil(), 0, 103, b" "),
        ),
        (
            "N1-two-signs",
            Claim::Refused(8, 2),
            with(nil(), 1, 103, b"}"),
        ),
    ]
}

/// N3, N9: the same text in label, reference and information, there in the place of an amount.
fn texts() -> Vec<Vector> {
    let worth_a_hundred = statement(FEBRUARY, HUNDRED, &[CREDIT], HUNDRED);
    vec![
        (
            "N3-texts",
            Claim::Accepted,
            with_texts(nothing([DEBIT; 4]), DEBIT),
        ),
        (
            "N3-texts-alone",
            Claim::Accepted,
            with_texts(worth_a_hundred, DEBIT),
        ),
    ]
}

/// N4, N5: several statements of the account.
fn several() -> Vec<Vector> {
    let march = statement(MARCH, DEBIT, &[], DEBIT);
    let both_writings = [quiet(DEBIT, DEBIT), quiet(CREDIT, CREDIT)].concat();
    vec![
        ("N4-in-either-writing", Claim::Accepted, both_writings),
        (
            "N5-nil-follows-nil",
            Claim::Accepted,
            [quiet(CREDIT, CREDIT), march].concat(),
        ),
    ]
}

/// February without a movement.
fn quiet(old: &str, new: &str) -> Records {
    statement(FEBRUARY, old, &[], new)
}

/// February with two movements of nothing.
fn nothing([old, first, second, new]: [&str; 4]) -> Records {
    statement(FEBRUARY, old, &[first, second], new)
}

/// Where `with_texts` puts its text, as `with` counts: twice in the label of the first movement, in
/// its reference, and in its complement in the place of an amount.
const TEXTS: [(usize, usize); 4] = [(1, 49), (1, 66), (1, 105), (2, 91)];

/// A statement of February with a complement, and a text in all places for one.
fn with_texts(mut records: Records, text: &str) -> Records {
    records.insert(2, complement(FEBRUARY[0], "LIBAVOIR"));
    let put = |records, (record, position)| with(records, record, position, text.as_bytes());
    TEXTS.into_iter().fold(records, put)
}
