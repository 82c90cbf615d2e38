//! Vectors of month ends, by the settled point that they are for: series on a journal. The last
//! statement held closes on a Friday; what follows opens on that day or on a later one. They are
//! fixed: no seed.

use crate::record::{put, RECORD};
use crate::series_cases::{Script, SeriesCase, Write, TABLE};
use crate::worked_account::{deliver, moved, newest, with, Records, KEY};

/// A Friday that closes a November, and the Sunday with which its December opens.
const FRIDAY: &str = "281125";
const SUNDAY: &str = "301125";
/// The days with which that November opens and that December closes.
const OCTOBER_ENDS: &str = "311025";
const DECEMBER_ENDS: &str = "311225";

/// Bytes of an entry, and the position of the old date in it.
const ENTRY: usize = 60;
const OLD_DATE: usize = 26;

const SERIES: [(&str, Write); 10] = [
    ("M1-at-or-after", at_or_after),
    ("M1-in-one-file", in_one_file),
    ("M1-turn-of-the-century", turn_of_the_century),
    ("M2-held-is-asked-first", held_is_asked_first),
    ("M3-delivered", delivered),
    ("M3-laid-out", laid_out),
    ("M4-along-a-chain", along_a_chain),
    ("M5-corrected", corrected),
    ("M6-passed-over", passed_over),
    ("M7-within-a-statement", within_a_statement),
];

/// All series.
pub fn series() -> Vec<SeriesCase> {
    SERIES.into_iter().map(SeriesCase::fixed).collect()
}

/// A statement without a movement, with 100 on the account.
fn quiet(dates: [&str; 2]) -> Records {
    moved(dates, 100, &[])
}

/// The November that closes on Friday, and the December that opens on Sunday.
fn friday() -> Records {
    quiet([OCTOBER_ENDS, FRIDAY])
}

fn sunday() -> Records {
    quiet([SUNDAY, DECEMBER_ENDS])
}

/// M1: old dates and balances after Friday with 100. Days decide, not the bytes DDMMYY: 29 October
/// is earlier, 1 December is later.
const AFTER_FRIDAY: [(&str, i64); 9] = [
    (SUNDAY, 100),
    (FRIDAY, 100),
    ("271125", 100),
    ("291025", 100),
    ("011225", 100),
    ("010180", 100),
    (SUNDAY, 101),
    (FRIDAY, 101),
    (SUNDAY, -100),
];

/// What may come after Friday.
fn after_friday() -> impl Iterator<Item = Records> {
    let december = |(date, old)| moved([date, DECEMBER_ENDS], old, &[]);
    AFTER_FRIDAY.into_iter().map(december)
}

fn at_or_after(script: &mut Script) {
    for next in after_friday() {
        script.fresh(4);
        deliver(script, 0, &[friday()]);
        newest(script, 1, std::slice::from_ref(&next));
        deliver(script, 2, &[next]);
        script.sound();
    }
}

/// The same with Friday in front in the file, and with Friday held and in front.
fn in_one_file(script: &mut Script) {
    for next in after_friday() {
        let both = [friday(), next];
        script.fresh(4);
        newest(script, 2, &both);
        deliver(script, 1, &both);
        deliver(script, 1, &both[..1]);
        deliver(script, 0, &both);
        script.entries(&[1, 2]);
    }
}

/// M1: 00 comes after 99, and 79 after that; 80 comes first.
fn turn_of_the_century(script: &mut Script) {
    for date in ["301299", "311299", "010100", "030100", "310180", "291279"] {
        script.fresh(4);
        deliver(script, 1, &[quiet(["301199", "311299"])]);
        deliver(script, 1, &[quiet([date, "311279"])]);
        script.sound();
    }
    // The days of the calendar's two ends.
    script.fresh(8);
    deliver(script, 2, &[quiet(["010180", "010180"])]);
    deliver(script, 2, &[quiet(["311279", "311279"])]);
    deliver(script, 2, &[quiet(["301279", "311279"])]);
    deliver(script, 2, &[quiet(["020180", "311279"])]);
    deliver(script, 2, &[moved(["311279", "311279"], 100, &[5, -5])]);
    script.sound();
    script.entries(&[1, 2, 3, 4]);
}

/// M2: Sunday, Friday, Sunday in a file.
fn held_is_asked_first(script: &mut Script) {
    let file = [sunday(), friday(), sunday()];
    script.fresh(4);
    deliver(script, 1, &[friday()]);
    newest(script, 1, &file);
    deliver(script, 1, &file);
    newest(script, 1, &file);
    // No line is left, and the file comes again.
    deliver(script, 2, &file);
    deliver(script, 0, &[friday()]);
    script.sound();
    script.entries(&[1, 2, 3]);
    // Where nothing is held, Sunday is stored first and Friday cannot follow it.
    script.fresh(4);
    deliver(script, 1, &file);
    deliver(script, 1, &file[..1]);
    deliver(script, 1, &file);
    script.sound();
}

/// M3: the journal of Friday and Sunday, made by deliveries.
fn delivered(script: &mut Script) {
    script.fresh(5);
    deliver(script, 2, &[friday(), sunday()]);
    ask(script);
    script.fresh(5);
    deliver(script, 0, &[friday()]);
    deliver(script, 1, &[sunday()]);
    ask(script);
}

/// Every call on a journal of 5 lines. The deliveries say what all its bytes are.
fn ask(script: &mut Script) {
    script.sound();
    script.entries(&[1, 2, 3]);
    deliver(script, 0, &[]);
    newest(script, 0, &[]);
    deliver(script, 2, &[sunday(), friday()]);
    newest(script, 1, &[friday()]);
}

/// M3: the same journal laid out byte by byte, then with other old dates in the second entry, in
/// its body, and in both.
fn laid_out(script: &mut Script) {
    let journal = |old_date: &str| {
        let second = quiet([old_date, DECEMBER_ENDS]);
        layout(&[
            ([OCTOBER_ENDS, FRIDAY], friday()),
            ([old_date, DECEMBER_ENDS], second),
        ])
    };
    script.fresh(5);
    script.change(&layout(&[]), &journal(SUNDAY));
    ask(script);
    let entry = ENTRY + OLD_DATE - 1;
    let body = TABLE + 2 * RECORD + 34;
    for date in [
        FRIDAY, "291125", "271125", "011225", "291025", "311225", "010180",
    ] {
        let (from, to) = (journal(SUNDAY), journal(date));
        for places in [&[entry][..], &[body], &[entry, body]] {
            let mut changed = from.clone();
            for &first in places {
                changed[first..first + 6].copy_from_slice(&to[first..first + 6]);
            }
            script.change(&from, &changed);
            ask(script);
            script.change(&changed, &from);
        }
    }
    script.sound();
}

/// A journal of 5 lines that holds these statements of two records, each with its dates.
fn layout(list: &[([&str; 2], Records)]) -> Vec<u8> {
    let mut journal = vec![b' '; TABLE + 5 * RECORD];
    for (index, ([old, new], records)) in list.iter().enumerate() {
        let line = 2 * index;
        let place = format!("{old}{new}{line:06}0002");
        put(&mut journal, ENTRY * index + 1, KEY);
        put(&mut journal, ENTRY * index + OLD_DATE, place.as_bytes());
        put(&mut journal, TABLE + RECORD * line + 1, &records.concat());
    }
    journal
}

/// M4: no gap, gaps of a weekend, of a day and of a month, in one file and one by one.
fn along_a_chain(script: &mut Script) {
    let chain = [
        moved([OCTOBER_ENDS, FRIDAY], 100, &[20]),
        moved([SUNDAY, DECEMBER_ENDS], 120, &[-30, 5]),
        moved([DECEMBER_ENDS, "300126"], 95, &[]),
        moved(["010226", "270226"], 95, &[-95]),
        moved(["310326", "300426"], 0, &[7]),
    ];
    script.fresh(20);
    deliver(script, 1, &chain);
    script.sound();
    newest(script, 0, &[]);
    script.fresh(20);
    for next in &chain {
        newest(script, 2, std::slice::from_ref(next));
        deliver(script, 2, std::slice::from_ref(next));
    }
    for again in &chain {
        deliver(script, 0, std::slice::from_ref(again));
    }
    // Each of the old dates, and each of the new ones, with the last balance.
    for date in [OCTOBER_ENDS, FRIDAY, SUNDAY, "310326", "290426", "300426"] {
        newest(script, 1, &[moved([date, "310526"], 7, &[])]);
    }
    script.sound();
    script.entries(&[1, 2, 3, 4, 5, 6]);
}

/// M5: a corrected statement of the period that is held follows only where the period is one day
/// and sums to nothing.
fn corrected(script: &mut Script) {
    let corrected = moved([OCTOBER_ENDS, FRIDAY], 100, &[5, -5]);
    script.fresh(12);
    deliver(script, 0, &[friday()]);
    deliver(script, 1, std::slice::from_ref(&corrected));
    deliver(script, 1, &[friday(), corrected]);
    // One day, twice corrected; the last time its sum is not nothing.
    for movements in [&[][..], &[5, -5], &[5]] {
        let one_day = moved([SUNDAY, SUNDAY], 100, movements);
        deliver(script, 2, std::slice::from_ref(&one_day));
        deliver(script, 0, &[one_day]);
    }
    deliver(script, 2, &[moved([SUNDAY, SUNDAY], 100, &[-5, 5])]);
    script.sound();
    script.entries(&[1, 2, 3, 4, 5]);
}

/// M6: a missing statement that sums to nothing is not noticed, and once passed it is too early.
fn passed_over(script: &mut Script) {
    let held = quiet(["311224", "010125"]);
    let missing = moved(["010125", "020125"], 100, &[5, -5]);
    let sent = quiet(["020125", "310125"]);
    let after = moved(["310125", "280225"], 100, &[1]);
    script.fresh(12);
    deliver(script, 0, std::slice::from_ref(&held));
    newest(script, 1, std::slice::from_ref(&sent));
    deliver(script, 1, std::slice::from_ref(&sent));
    for _ in 0..2 {
        deliver(script, 2, std::slice::from_ref(&missing));
        deliver(script, 0, &[held.clone(), missing.clone(), sent.clone()]);
        newest(script, 0, std::slice::from_ref(&missing));
        deliver(script, 1, std::slice::from_ref(&after));
    }
    script.sound();
    script.entries(&[1, 2, 3, 4]);
    // In the right order all are stored, also in one file.
    let all = [held, missing, sent, after];
    script.fresh(12);
    deliver(script, 2, &all);
    deliver(script, 1, &all);
    script.sound();
    // In the wrong order within one file the file is refused.
    let [held, missing, sent, _] = all;
    script.fresh(12);
    deliver(script, 0, &[held, sent, missing]);
    script.sound();
}

/// M7: a booking on Saturday under an old date of Sunday is too early, as before; so is a new date.
fn within_a_statement(script: &mut Script) {
    let booked = |date: &[u8]| with(moved([SUNDAY, DECEMBER_ENDS], 100, &[5]), 1, 35, date);
    script.fresh(8);
    deliver(script, 1, &[friday()]);
    deliver(script, 1, &[booked(b"291125")]);
    deliver(script, 0, &[friday(), booked(b"281125")]);
    deliver(script, 2, &[quiet([SUNDAY, "291125"])]);
    newest(script, 1, &[booked(b"291125")]);
    deliver(script, 1, &[booked(b"301125")]);
    script.sound();
}
