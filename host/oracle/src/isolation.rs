//! Vectors of one account among its neighbours, by the settled point that they are for. They are
//! fixed: no seed.
//!
//! The series show why the premises are needed: shared room, and files for several accounts. The
//! groups show that with the premises nothing of a neighbour reaches the account.

use std::slice::from_ref;

use crate::cash_cases::statements::on;
use crate::neighbours::{Delivery, Group, Run};
use crate::series_cases::{Script, SeriesCase, Write};
use crate::worked_account::{
    april, astray, complement, corrected_february, deliver, february, file, january, march, moved,
    of_another, one_day, quiet, with, Records, AFTER_JANUARY, AFTER_MARCH, FEBRUARY_ENDS,
    JANUARY_ENDS, KEY, MARCH_ENDS, OTHER_KEYS,
};

const SERIES: [(&str, Write); 2] = [
    ("I6-no-room-left", no_room_left),
    ("I6-two-accounts-in-a-file", two_accounts_in_a_file),
];

/// All series.
pub fn series() -> Vec<SeriesCase> {
    SERIES.into_iter().map(SeriesCase::fixed).collect()
}

/// All groups of runs.
pub fn groups() -> Vec<Group> {
    let mut list = vec![refused_and_empty_files()];
    list.append(&mut what_was_expected());
    list.push(rooms_of_other_sizes());
    list
}

/// The statement of a neighbour, whose account has another number.
fn neighbours(records: Records) -> Records {
    of_another(records, OTHER_KEYS[4])
}

/// I6: two lines are room for one statement of two records, the neighbour's or hers.
fn no_room_left(script: &mut Script) {
    let orders = [
        [neighbours(april()), april()],
        [april(), neighbours(april())],
    ];
    for [first, second] in orders {
        script.fresh(2);
        deliver(script, 1, from_ref(&first));
        deliver(script, 1, &[second]);
        deliver(script, 0, &[first]);
        script.sound();
        script.entries(&[1, 2]);
    }
}

/// I6: a file with her April and the neighbour's. Where the neighbour's does not follow what is held
/// of it, hers is not stored either, though it comes first; alone it is.
fn two_accounts_in_a_file(script: &mut Script) {
    let both = [april(), neighbours(april())];
    script.fresh(8);
    deliver(script, 1, &both);
    script.entries(&[1, 2]);
    script.fresh(8);
    deliver(script, 1, &[neighbours(february())]);
    deliver(script, 1, &both);
    script.sound();
    script.entries(&[1, 2]);
    deliver(script, 2, &both[..1]);
    script.sound();
    script.entries(&[1, 2, 3]);
}

/// A delivery of these statements.
fn of(line_end: u64, statements: &[Records]) -> Delivery {
    Delivery {
        line_end,
        file: file(statements, line_end),
    }
}

/// A group of the worked account.
fn group(name: &str, hers: Vec<Delivery>, runs: Vec<Run>) -> Group {
    Group {
        name: name.to_string(),
        key: KEY.to_vec(),
        hers,
        runs,
    }
}

/// A run in which a neighbour makes these deliveries before each of hers, and after the last.
fn each_time(lines: usize, hers: &[Delivery], deliveries: &[Delivery]) -> Run {
    Run {
        lines,
        between: vec![deliveries.to_vec(); hers.len() + 1],
    }
}

/// I2: files that the check refuses, and files of no bytes, are sent by her and by a neighbour. Those
/// of the neighbour have her own bytes, and come before the right files that they are made from,
/// between them and after them.
fn refused_and_empty_files() -> Group {
    let hers = vec![
        of(1, &[march()[..2].to_vec()]),
        of(1, &[february()]),
        of(7, &[]),
        of(0, &[]),
        of(0, &[with(march(), 1, 104, b"5")]),
        of(2, &[march()]),
        of(0, &[february(), march(), april()[..1].to_vec()]),
        of(0, &[april()]),
        of(1, &[february(), march(), april()]),
    ];
    let refused = refused_files();
    let empty: Vec<Delivery> = [0, 1, 2, 3, 256].map(|line_end| of(line_end, &[])).into();
    let own = vec![
        of(0, &[neighbours(february())]),
        of(1, &[neighbours(february()), neighbours(astray())]),
    ];
    let runs = vec![
        each_time(9, &hers, &[]),
        each_time(9, &hers, &refused),
        each_time(12, &hers, &empty),
        each_time(40, &hers, &[own, refused, empty].concat()),
    ];
    group("I2-refused-and-empty-files", hers, runs)
}

/// Her right files, each with one fault: the refusals 1, 2 and 4 to 14.
fn refused_files() -> Vec<Delivery> {
    let mut list = Vec::new();
    let right = file(&[march()], 1);
    for line_end in [3, 2] {
        let file = right.clone();
        list.push(Delivery { line_end, file });
    }
    let mut wrong_end = right;
    wrong_end[120] = b' ';
    list.push(Delivery {
        line_end: 1,
        file: wrong_end,
    });
    let mmo = || complement(FEBRUARY_ENDS, "MMOUSD200000000002700");
    let mut twice = march();
    twice.splice(2..2, [mmo(), mmo()]);
    let faults = [
        with(march(), 1, 49, b"\x7F"),
        with(march(), 1, 1, b"09"),
        march()[1..].to_vec(),
        with(march(), 1, 104, b"5"),
        with(march(), 1, 43, b"290225"),
        with(march(), 1, 22, b"B"),
        twice,
        with(march(), 1, 35, b"270225"),
        with(march(), 2, 104, b"F"),
        march()[..2].to_vec(),
    ];
    for (line_end, fault) in (0..3).cycle().zip(faults) {
        // Behind a right one of hers, too.
        list.push(of(line_end, from_ref(&fault)));
        list.push(of(line_end, &[february(), fault]));
    }
    list
}

/// I3: what was expected of her is the end of her own last statement. That of a neighbour one zone
/// apart comes later and ends on another day with another balance. One of those that do not follow
/// hers follows it; in the end it is stored there.
fn what_was_expected() -> Vec<Group> {
    let hers = vec![
        of(0, &[february()]),
        of(1, &[astray()]),
        of(2, &[march(), astray()]),
        of(0, &[february(), corrected_february()]),
        of(1, &[january()]),
        of(1, &[march()]),
        of(2, &[astray()]),
        of(0, &[april(), astray()]),
        of(0, &[april()]),
    ];
    let after_march = quiet([FEBRUARY_ENDS, MARCH_ENDS], AFTER_MARCH + 1);
    let after_january = quiet(["301124", JANUARY_ENDS], AFTER_JANUARY);
    let in_november = quiet(["311024", "301124"], 95_000);
    let cases = [
        ("I3-later-than-hers", after_march, astray()),
        ("I3-corrected", after_january, corrected_february()),
        ("I3-earlier-than-hers", in_november, january()),
    ];
    let group_of = |(name, last, follows): (&str, Records, Records)| {
        let mut runs = vec![each_time(9, &hers, &[])];
        for key in OTHER_KEYS {
            let theirs = |records: &Records| of(1, &[of_another(records.clone(), key)]);
            // Their March does not follow either, and what was expected of it is another.
            let mut run = each_time(30, &hers, &[theirs(&last), theirs(&march())]);
            run.between[0].clear();
            run.between[6].push(theirs(&follows));
            runs.push(run);
        }
        group(name, hers.clone(), runs)
    };
    cases.map(group_of).into()
}

/// I5: sizes from just enough room for her to much more. Neighbours are refused for lines and for
/// entries, before her statements, between them and when all is full; she is not.
fn rooms_of_other_sizes() -> Group {
    let hers = vec![
        of(0, &[january()]),
        of(1, &[february(), march()]),
        of(2, &[january(), astray()]),
        of(0, &[april()]),
        of(1, &[january(), february(), march(), april()]),
    ];
    let two = || of(1, &[neighbours(april())]);
    // More than the journals of few lines have.
    let records = moved([JANUARY_ENDS, FEBRUARY_ENDS], 5, &[1; 17]);
    let long = of(0, &[of_another(records, OTHER_KEYS[1])]);
    let mut just_enough = each_time(12, &hers, from_ref(&long));
    just_enough.between[4].push(two());
    let mut two_lines_more = each_time(14, &hers, &[two(), long]);
    two_lines_more.between[4].push(of(2, &[of_another(april(), OTHER_KEYS[0])]));
    let runs = vec![
        each_time(12, &hers, &[]),
        just_enough,
        two_lines_more,
        full_table(&hers),
        each_time(1_000, &hers, &[two()]),
    ];
    group("I5-rooms-of-other-sizes", hers, runs)
}

/// A neighbour takes all entries but the four that she needs: 123 before her first, one before her
/// last. Then the table is full. What it sends beside is one statement too many.
fn full_table(hers: &[Delivery]) -> Run {
    let first = on("010125");
    let days = |from: u64, to: u64| {
        let statements = (first + from..first + to).map(|day| neighbours(one_day(day)));
        of(from % 3, &statements.collect::<Vec<_>>())
    };
    let mut run = each_time(12 + 2 * 128, hers, &[]);
    run.between[0] = vec![days(0, 123), days(0, 129)];
    run.between[1] = vec![days(0, 128)];
    run.between[3] = vec![days(123, 124), days(124, 126)];
    run.between[4] = vec![days(124, 125), days(0, 124)];
    run.between[5] = vec![days(124, 125)];
    run
}
