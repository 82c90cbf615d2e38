//! Vectors of what is expected of a statement that does not follow, by the settled point that they
//! are for: series on a journal. The answer says with which date and balance the last statement of
//! its account ends, also where that one stands in the same file. They are fixed: no seed.

use crate::cash_cases::statements::on;
use crate::record::MOST;
use crate::series_cases::{Script, SeriesCase, Write, TABLE};
use crate::worked_account::{
    april, astray, corrected_february, deliver, draft, february, january, march, moved, newest,
    of_another, one_day, quiet, statement, with, Records, AFTER_FEBRUARY, AFTER_MARCH, APRIL_ENDS,
    FEBRUARY_ENDS, JANUARY_ENDS, MARCH_ENDS, MAY_ENDS, OTHER_KEYS,
};

const SERIES: [(&str, Write); 11] = [
    ("X1-stored-earlier-from-the-file", earlier_from_the_file),
    ("X1-held-ones-in-the-file", held_ones_in_the_file),
    ("X1-last-of-several", last_of_several),
    ("X1-of-its-own-account", of_its_own_account),
    ("X2-zero-in-other-answers", zero_in_other_answers),
    ("X2-table-full", table_full),
    ("X2-balances", balances),
    ("X4-newest", asked_for_the_newest),
    ("X5-dates", dates),
    ("X6-after-on-and-before", after_on_and_before),
    ("N10-ends-with-a-debit-zero", ends_with_a_debit_zero),
];

/// All series.
pub fn series() -> Vec<SeriesCase> {
    SERIES.into_iter().map(SeriesCase::fixed).collect()
}

/// X1: March would be stored from the same file, so it is the last; the journal stays as it is.
fn earlier_from_the_file(script: &mut Script) {
    script.fresh(20);
    deliver(script, 1, &[february()]);
    for line_end in 0..3 {
        deliver(script, line_end, &[march(), astray()]);
    }
    deliver(script, 1, &[astray()]);
    script.sound();
    script.entries(&[1, 2]);
    // From an empty journal; then with March behind the one that does not follow.
    script.fresh(20);
    deliver(script, 2, &[february(), march(), astray()]);
    deliver(script, 0, &[february(), astray(), march()]);
    script.entries(&[1]);
    // The same once the two are held.
    deliver(script, 0, &[february(), march()]);
    deliver(script, 1, &[astray()]);
    deliver(script, 2, &[april()]);
    script.sound();
}

/// X1: a held one in the file does not become the last, whether the journal or the file had it first.
fn held_ones_in_the_file(script: &mut Script) {
    script.fresh(20);
    deliver(script, 0, &[january(), february()]);
    // It would follow January.
    deliver(script, 1, &[january(), corrected_february()]);
    deliver(script, 2, &[february(), january(), astray()]);
    deliver(script, 0, &[march(), january(), february(), astray()]);
    deliver(script, 1, &[march(), march(), astray()]);
    deliver(script, 2, &[march(), february(), march(), astray()]);
    script.sound();
}

/// X1: of several that are held the last; where several end on one day, the last of these.
fn last_of_several(script: &mut Script) {
    let one_day = |old, more| moved([MARCH_ENDS, MARCH_ENDS], old, &[more]);
    script.fresh(24);
    deliver(script, 0, &[january(), february(), march()]);
    deliver(script, 1, &[astray()]);
    // April would follow March, but for those of March's last day.
    deliver(script, 2, &[one_day(100_005, 7), one_day(100_012, -12)]);
    deliver(script, 1, &[april()]);
    deliver(
        script,
        0,
        &[one_day(100_000, 1), one_day(100_001, 1), april()],
    );
    script.sound();
    script.entries(&[5, 6]);
}

/// X1: two accounts whose keys differ in one zone. The other one's statement comes later and stands
/// between, and April would follow it.
fn of_its_own_account(script: &mut Script) {
    let february = || quiet([JANUARY_ENDS, FEBRUARY_ENDS], AFTER_FEBRUARY);
    for key in OTHER_KEYS {
        let other_march = of_another(march(), key);
        script.fresh(8);
        deliver(script, 1, &[february(), other_march.clone(), april()]);
        deliver(script, 0, &[february(), other_march]);
        deliver(script, 1, &[of_another(april(), key), april()]);
        deliver(script, 2, &[of_another(astray(), key)]);
    }
}

/// X2: accepted, refused by the check, for lines or for the journal. What does not follow stands in
/// each of the refused files.
fn zero_in_other_answers(script: &mut Script) {
    script.fresh(6);
    deliver(script, 1, &[february()]);
    deliver(script, 0, &[february()]);
    deliver(script, 2, &[]);
    deliver(script, 1, &[astray(), march()[..2].to_vec()]);
    deliver(script, 0, &[with(astray(), 1, 1, b"09")]);
    deliver(script, 2, &[with(astray(), 1, 104, b"E")]);
    let file = draft(&astray(), 1).bytes();
    script.deliver_bytes(2, &file);
    script.deliver_bytes(3, &file);
    // Two lines are left. The first that is refused decides.
    deliver(script, 1, &[march(), astray()]);
    deliver(script, 1, &[astray(), march()]);
    script.poke(TABLE - 1, b'.');
    deliver(script, 1, &[astray()]);
    script.poke(TABLE - 1, b' ');
    deliver(script, 1, &[astray()]);
    script.sound();
}

/// X2: 128 statements, each of one day, the last of 8 May. A new one has no place; one that does not
/// follow is refused for that.
fn table_full(script: &mut Script) {
    let first = on("010125");
    let all: Vec<Records> = (first..first + 128).map(one_day).collect();
    let next = || one_day(first + 128);
    script.fresh(258);
    deliver(script, 0, &all);
    deliver(script, 1, &[next()]);
    deliver(script, 2, &[all[0].clone(), next(), astray()]);
    deliver(script, 1, &[of_another(next(), OTHER_KEYS[4])]);
    deliver(script, 0, &[all[127].clone(), all[0].clone(), astray()]);
    script.sound();
}

/// X2: nothing, a little, much and the most there is, as a credit and as a debit. What does not
/// follow begins with the same digits and the other sign, after nothing with another balance.
fn balances(script: &mut Script) {
    for balance in [0, 10, -10, 120_833, -120_833, MOST, -MOST] {
        let last = quiet([JANUARY_ENDS, FEBRUARY_ENDS], balance);
        let other = if balance == 0 { 10 } else { -balance };
        let next = quiet([FEBRUARY_ENDS, MARCH_ENDS], other);
        script.fresh(4);
        deliver(script, 1, &[last.clone(), next.clone()]);
        deliver(script, 0, &[last]);
        deliver(script, 2, &[next]);
    }
}

/// X4: the newest statement is refused without what was expected.
fn asked_for_the_newest(script: &mut Script) {
    script.fresh(20);
    deliver(script, 1, &[february()]);
    for file in [&[march(), astray()][..], &[astray()]] {
        newest(script, 2, file);
        deliver(script, 2, file);
    }
    newest(script, 0, &[]);
}

/// X5: the days at both ends of the calendar and of the century, and one that not each century has.
fn dates(script: &mut Script) {
    for date in ["010180", "311299", "010100", "290200", "311279"] {
        script.fresh(4);
        deliver(script, 0, &[quiet([date, date], 100)]);
        deliver(script, 1, &[quiet([date, date], 101)]);
    }
}

/// X6: it begins after the expected date or on it, with another balance; or before it, with that
/// balance or another.
fn after_on_and_before(script: &mut Script) {
    let after_february = [
        (MARCH_ENDS, AFTER_MARCH),
        (FEBRUARY_ENDS, AFTER_MARCH),
        ("270225", AFTER_FEBRUARY),
        ("270225", AFTER_MARCH),
    ];
    let after_march = [
        (APRIL_ENDS, AFTER_FEBRUARY),
        (MARCH_ENDS, AFTER_FEBRUARY),
        ("300325", AFTER_MARCH),
        ("300325", AFTER_FEBRUARY),
    ];
    script.fresh(20);
    deliver(script, 0, &[february()]);
    for (date, balance) in after_february {
        deliver(script, 1, &[quiet([date, MAY_ENDS], balance)]);
    }
    // An older one and a corrected one.
    deliver(script, 2, &[january()]);
    deliver(script, 0, &[corrected_february()]);
    for (date, balance) in after_march {
        deliver(script, 2, &[march(), quiet([date, MAY_ENDS], balance)]);
    }
    // A later day with that balance follows.
    deliver(
        script,
        1,
        &[march(), quiet([APRIL_ENDS, MAY_ENDS], AFTER_MARCH)],
    );
    script.sound();
}

/// N10: the last one ends with a debit zero, in the file and in the journal: nothing is expected.
fn ends_with_a_debit_zero(script: &mut Script) {
    let (debit, credit) = ("0000000000000}", "0000000000000{");
    let (seven, minus_seven) = ("0000000000000G", "0000000000000P");
    let minus_ten = "0000000000001}";
    let to_nil = |zero| statement([JANUARY_ENDS, FEBRUARY_ENDS], seven, &[minus_seven], zero);
    let next = |date, amount| statement([date, MARCH_ENDS], amount, &[], amount);
    script.fresh(12);
    deliver(script, 1, &[to_nil(debit), next(FEBRUARY_ENDS, seven)]);
    deliver(script, 1, &[to_nil(debit)]);
    deliver(script, 0, &[next(FEBRUARY_ENDS, minus_ten)]);
    deliver(script, 2, &[to_nil(credit), next("270225", debit)]);
    deliver(script, 1, &[next(FEBRUARY_ENDS, debit)]);
    deliver(script, 1, &[next(MARCH_ENDS, seven)]);
    script.sound();
}
