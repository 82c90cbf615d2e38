//! The vectors on a journal.

use super::{nothing, quiet, with_texts};
use super::{CREDIT, DEBIT, FEBRUARY, MARCH, MINUS_SEVEN, MINUS_TEN, SEVEN, TEXTS};
use crate::record::RECORD;
use crate::series_cases::{Script, SeriesCase, Write, TABLE};
use crate::worked_account::{deliver, newest, statement, with, Records};

const SERIES: [(&str, Write); 6] = [
    ("N3-texts", texts),
    ("N4-in-one-file", in_one_file),
    ("N4-in-two-files", in_two_files),
    ("N5-nil-follows-nil", nil_follows_nil),
    ("N6-parts", parts),
    ("N7-debit-zeros-in-bodies", debit_zeros_in_bodies),
];

/// All series.
pub fn series() -> Vec<SeriesCase> {
    SERIES.into_iter().map(SeriesCase::fixed).collect()
}

/// Statements of one day that differ in a text alone are several. Each is held in any writing.
fn texts(script: &mut Script) {
    let one_day = [FEBRUARY[0]; 2];
    let of = |zero: &str| statement(one_day, zero, &[zero], zero);
    script.fresh(20);
    deliver(script, 1, &[with_texts(of(DEBIT), DEBIT)]);
    deliver(script, 0, &[with_texts(of(CREDIT), DEBIT)]);
    for (record, position) in TEXTS {
        let sent = with_texts(of(DEBIT), DEBIT);
        let other = with(sent.clone(), record, position, CREDIT.as_bytes());
        deliver(script, 2, &[other.clone(), sent, other]);
    }
    script.sound();
    script.entries(&[1, 5, 6]);
}

/// Two writings of one statement, then all writings of another.
fn in_one_file(script: &mut Script) {
    for line_end in 0..3 {
        script.fresh(4);
        deliver(
            script,
            line_end,
            &[quiet(DEBIT, DEBIT), quiet(CREDIT, CREDIT)],
        );
        script.entries(&[1, 2]);
    }
    let zero = |writing: usize, place: usize| [DEBIT, CREDIT][writing >> place & 1];
    let writing = |writing| nothing([0, 1, 2, 3].map(|place| zero(writing, place)));
    let all: Vec<Records> = (0..16).map(writing).collect();
    script.fresh(4);
    newest(script, 1, &all);
    deliver(script, 1, &all);
    newest(script, 1, &all);
    script.entries(&[1, 2]);
    script.sound();
}

/// A retry with the other zero and other line ends, also where no line is left.
fn in_two_files(script: &mut Script) {
    script.fresh(4);
    deliver(script, 2, &[nothing([DEBIT; 4])]);
    deliver(script, 0, &[nothing([CREDIT; 4])]);
    deliver(script, 1, &[nothing([CREDIT, DEBIT, CREDIT, DEBIT])]);
    deliver(script, 1, &[statement(MARCH, DEBIT, &[], DEBIT)]);
    // The other way round.
    script.fresh(4);
    deliver(script, 0, &[nothing([CREDIT; 4])]);
    deliver(script, 2, &[nothing([DEBIT; 4])]);
    script.sound();
}

/// The held one ends with nothing. What is sent begins with another balance; then with either zero
/// a day later, which is stored; then on the very day, which is too early by then.
fn nil_follows_nil(script: &mut Script) {
    let february = |zero: &str| statement(FEBRUARY, zero, &[SEVEN, MINUS_SEVEN], zero);
    let march = |zero: &str| statement(MARCH, zero, &[], zero);
    for (held, sent) in [(CREDIT, DEBIT), (DEBIT, CREDIT), (DEBIT, DEBIT)] {
        script.fresh(12);
        deliver(script, 0, &[february(held)]);
        deliver(script, 1, &[march(MINUS_TEN)]);
        deliver(script, 1, &[with(march(sent), 0, 35, b"010325")]);
        deliver(script, 1, &[march(sent)]);
        deliver(script, 2, &[february(sent), march(held)]);
        script.sound();
    }
    // In one file.
    script.fresh(12);
    deliver(script, 2, &[february(CREDIT), march(DEBIT)]);
    script.entries(&[1, 2]);
}

/// The newest statement is the file's until it is delivered, and the journal's from then on.
fn parts(script: &mut Script) {
    script.fresh(12);
    for line_end in 0..3 {
        newest(script, line_end, &[nothing([DEBIT; 4])]);
    }
    deliver(script, 1, &[nothing([DEBIT; 4])]);
    for line_end in 0..3 {
        newest(script, line_end, &[nothing([DEBIT; 4])]);
        newest(script, line_end, &[nothing([CREDIT; 4])]);
    }
    newest(script, 0, &[]);
    // A new one in two writings: the first of the two.
    let [debits, credits] = [DEBIT, CREDIT].map(|zero| statement(MARCH, zero, &[], zero));
    newest(script, 1, &[nothing([DEBIT; 4]), debits, credits]);
    script.entries(&[1]);
}

/// Put into an amount of a body, a debit zero makes the journal unsound in every call; put into a
/// text it does not.
fn debit_zeros_in_bodies(script: &mut Script) {
    let held = with_texts(nothing([CREDIT; 4]), CREDIT);
    let amounts = [0, 1, 3, 4].map(|record| (record, 91));
    script.fresh(8);
    deliver(script, 1, std::slice::from_ref(&held));
    for (record, position) in amounts.into_iter().chain(TEXTS) {
        let sign = TABLE + RECORD * record + position - 1 + 13;
        script.poke(sign, b'}');
        script.sound();
        script.entries(&[1, 2]);
        deliver(script, 0, &[]);
        newest(script, 2, &[]);
        script.poke(sign, b'{');
        script.sound();
    }
    deliver(script, 2, &[held]);
}
