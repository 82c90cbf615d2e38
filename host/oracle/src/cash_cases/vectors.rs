//! The vectors of the settled points, and the edges of what a call may lend.

use super::questions::{Book, Question, Span};
use super::spans::no_days;
use super::statements::{journal_of, on, statement, worked_key, Movement};
use crate::cash::MOST_DAYS;
use crate::journal::{ENTRY, TABLE};
use crate::record::{date_number, put, write_date, DAYS, DEBIT_ZERO, RECORD};
use crate::rng::Rng;
use crate::series_cases::accounts::{apart, twin, with_zeros, ZONES};
use crate::valid::{Balance, Statement};

/// A day of the worked statement's movements.
const DAY: u64 = 20_250_205;

pub fn vectors(rng: &mut Rng) -> Vec<Book> {
    vec![
        lengths_and_ends(rng),
        order_of_refusals(rng, true),
        order_of_refusals(rng, false),
        keys(rng),
        tables(rng),
        without_a_movement(rng),
        before_the_first_old_date(rng),
        before_the_old_date(rng),
        last_new_balance(rng),
        at_nil(rng, None),
        at_nil(rng, Some(0)),
        at_nil(rng, Some(2)),
        at_nil(rng, Some(4)),
        at_nil(rng, Some(5)),
        over_a_month_end(rng, "301125"),
        over_a_month_end(rng, "281125"),
        over_a_month_end(rng, "271125"),
        numbers(rng),
        whole_calendar(rng),
        days(),
    ]
}

/// A movement that is booked when it is valued.
fn valued(amount: i64, date: &str) -> Movement {
    booked(amount, date, date)
}

fn booked(amount: i64, booked: &str, value: &str) -> Movement {
    Movement {
        amount,
        booked: on(booked),
        value: on(value),
    }
}

/// A statement of the worked account.
fn worked(rng: &mut Rng, old: (&str, i64), new_date: &str, movements: &[Movement]) -> Statement {
    let old = Balance {
        day: on(old.0),
        value: old.1,
    };
    statement(rng, &worked_key(), old, on(new_date), movements)
}

/// The worked statement: 100000 on 310125 to 120833 on 280225.
fn february(rng: &mut Rng) -> Statement {
    let movements = [booked(25_050, "050225", "060225"), valued(-4_217, "070225")];
    worked(rng, ("310125", 100_000), "280225", &movements)
}

fn february_book(rng: &mut Rng) -> Book {
    let february = february(rng);
    Book::new(journal_of(&[february], 3))
}

/// P1, P2, P3: how long a span may be, and where the calendar ends.
fn lengths_and_ends(rng: &mut Rng) -> Book {
    let spans: [(&str, Span); 14] = [
        ("P1-400-days", (20_240_101, 20_250_203)),
        ("P1-401-days", (20_240_101, 20_250_204)),
        ("P1-400-days-of-a-common-year", (20_250_101, 20_260_204)),
        ("P1-401-days-of-a-common-year", (20_250_101, 20_260_205)),
        ("P2-from-1979", (19_791_231, 19_800_101)),
        ("P2-to-2080", (20_791_231, 20_800_101)),
        ("P2-last-day", (20_791_231, 20_791_231)),
        ("P2-last-400-days", (20_781_127, 20_791_231)),
        ("P2-last-401-days", (20_781_126, 20_791_231)),
        ("P2-first-day", (19_800_101, 19_800_101)),
        ("P2-first-400-days", (19_800_101, 19_810_203)),
        ("P2-all-days", (19_800_101, 20_791_231)),
        ("P3-one-day", (20_250_206, 20_250_206)),
        ("P3-empty", (20_250_206, 20_250_205)),
    ];
    let mut book = february_book(rng);
    for (name, span) in spans {
        book.position(name, &worked_key().bytes(), span, MOST_DAYS);
    }
    book
}

/// P4: of several refusals the first of 21, 27, 25, 18.
fn order_of_refusals(rng: &mut Rng, sound: bool) -> Book {
    let name = if sound { "P4-sound" } else { "P4-unsound" };
    let mut book = february_book(rng);
    if !sound {
        *book.journal.last_mut().expect("a journal has bytes") = b'0';
    }
    let key = worked_key();
    let unknown = apart(rng, &key, ZONES[0]);
    let keys = [&key.bytes()[..], &unknown.bytes()];
    for wrong in [(DAY + 1, DAY), (0, 0), (20_240_101, 20_250_204)] {
        book.faults_at_once(name, keys, [(DAY, DAY + 1), wrong]);
    }
    book
}

/// P5: keys of other lengths, keys apart in one zone, held and not held, keys of any bytes.
fn keys(rng: &mut Rng) -> Book {
    let february = february(rng);
    let mut statements = vec![february];
    let mut others = Vec::new();
    for zone in ZONES {
        let held = apart(rng, &worked_key(), zone);
        statements.push(twin(&statements[0], &held));
        others.push(held.bytes());
        others.push(apart(rng, &held, zone).bytes());
    }
    let mut book = Book::new(journal_of(&statements, 0));
    let key = worked_key().bytes();
    for length in 0..=key.len() {
        others.push(key[..length].to_vec());
        others.push(key[length..].to_vec());
    }
    for more in [&b" "[..], b"0", &key] {
        others.push([&key, more].concat());
        others.push([more, &key].concat());
    }
    for byte in [b' ', b'0', 0, 0xFF] {
        others.push(vec![byte; key.len()]);
    }
    others.push(key.to_ascii_lowercase());
    for key in others {
        book.position("P5-key", &key, (DAY, DAY + 2), 3);
    }
    book
}

/// P6: every length of a table around that of the span.
fn tables(rng: &mut Rng) -> Book {
    let mut book = february_book(rng);
    let key = worked_key().bytes();
    for rows in 0..8 {
        book.position("P6-four-days", &key, (DAY, DAY + 3), rows);
    }
    for rows in [399, 400, 401, 500] {
        book.position("P6-400-days", &key, (20_240_101, 20_250_203), rows);
    }
    book
}

/// P7.
fn without_a_movement(rng: &mut Rng) -> Book {
    let quiet = worked(rng, ("310325", -121_833), "300425", &[]);
    let mut book = Book::new(journal_of(&[quiet], 0));
    let key = worked_key().bytes();
    book.position("P7-no-movement", &key, (20_250_330, 20_250_502), 40);
    book.position("P7-no-movement", &key, (20_240_101, 20_250_203), 400);
    book
}

/// P8: no lower end.
fn before_the_first_old_date(rng: &mut Rng) -> Book {
    let movements = [
        booked(10, "010100", "311299"),
        valued(100, "010100"),
        booked(1_000, "010100", "010180"),
    ];
    let statement = worked(rng, ("010100", 5), "010100", &movements);
    let mut book = Book::new(journal_of(&[statement], 0));
    let key = worked_key().bytes();
    book.position("P8-around-2000", &key, (19_991_230, 20_000_102), 4);
    book.position("P8-first-day", &key, (19_800_101, 19_800_101), 1);
    book
}

/// P9: booked on 030325, valued before its statement's old date.
fn before_the_old_date(rng: &mut Rng) -> Book {
    let february = february(rng);
    let movements = [booked(-20_833, "030325", "270225")];
    let march = worked(rng, ("280225", 120_833), "310325", &movements);
    let mut book = Book::new(journal_of(&[february, march], 1));
    let key = worked_key().bytes();
    book.position("P9-value-date", &key, (20_250_226, 20_250_304), 7);
    book.position("P9-value-date", &key, (20_250_227, 20_250_227), 1);
    book
}

/// P12, P13: the first statement held, the last new balance; another account is valued later.
fn last_new_balance(rng: &mut Rng) -> Book {
    let february = february(rng);
    let march = worked(
        rng,
        ("280225", 120_833),
        "310325",
        &[valued(-20_828, "310325")],
    );
    let other = apart(rng, &worked_key(), ZONES[4]);
    let late = worked(
        rng,
        ("280225", 7),
        "310325",
        &[booked(1, "310325", "311279")],
    );
    let late = twin(&late, &other);
    let mut book = Book::new(journal_of(&[late, february, march], 0));
    let key = worked_key().bytes();
    book.position("P12-first-old-balance", &key, (19_800_101, 19_800_101), 1);
    book.position("P13-last-new-balance", &key, (20_250_301, 20_250_331), 31);
    book.position("P13-last-new-balance", &key, (20_791_231, 20_791_231), 1);
    book.add("P13-balances", Question::Balances((0..=4).collect()));
    book
}

/// N7, N10: statements that came with debit zeros; and the same with such a zero put into the journal,
/// into a record that counts from 0.
fn at_nil(rng: &mut Rng, debit_zero: Option<usize>) -> Book {
    let movements = [
        valued(7, "050225"),
        valued(0, "060225"),
        valued(-7, "070225"),
    ];
    let february = worked(rng, ("310125", 0), "280225", &movements);
    let march = worked(rng, ("280225", 0), "310325", &[]);
    let statements = [february, march].map(|one| with_zeros(&one, DEBIT_ZERO));
    let mut book = Book::new(journal_of(&statements, 1));
    let name = match debit_zero {
        None => "N10-at-nil".to_string(),
        Some(record) => {
            book.journal[TABLE + RECORD * record + 103] = b'}';
            format!("N7-debit-zero-in-record-{}", record + 1)
        }
    };
    let key = worked_key().bytes();
    book.position(&name, &key, (20_250_204, 20_250_208), 5);
    book.position(&name, &key, (20_250_331, 20_250_401), 3);
    book.faults_at_once(&name, [&key, &[b'0'; 25]], [(DAY, DAY + 1), (DAY + 1, DAY)]);
    book.add(&name, Question::Balances((0..=3).collect()));
    book
}

/// M1, M3: a November that closes on Friday, and a December whose first movement is valued on the
/// Saturday after it. The December opens on that Friday or later; a day earlier, the journal is not
/// sound.
fn over_a_month_end(rng: &mut Rng, opens: &str) -> Book {
    let november = worked(rng, ("311025", 100), "281125", &[valued(20, "281125")]);
    let movements = [booked(-30, "301125", "291125"), valued(5, "011225")];
    let december = worked(rng, ("301125", 120), "311225", &movements);
    let mut book = Book::new(journal_of(&[november, december], 1));
    // The old date in the second entry and in its body, which has three records before it.
    for place in [ENTRY + 25, TABLE + 3 * RECORD + 34] {
        put(&mut book.journal, place + 1, opens.as_bytes());
    }
    let name = format!("M3-opens-{opens}");
    let key = worked_key().bytes();
    book.position(&name, &key, (20_251_127, 20_251_202), 6);
    book.position(&name, &key, (20_251_129, 20_251_129), 1);
    book.faults_at_once(&name, [&key, &[b'0'; 25]], [(DAY, DAY + 1), (DAY + 1, DAY)]);
    book.add(&name, Question::Balances((0..=3).collect()));
    book
}

/// Numbers that are no days in either place and in both.
fn numbers(rng: &mut Rng) -> Book {
    let mut book = february_book(rng);
    let key = worked_key().bytes();
    for number in no_days(DAY) {
        let name = format!("P2-no-day-{number}");
        for span in [(number, DAY), (DAY, number), (number, number)] {
            book.position(&name, &key, span, 400);
        }
    }
    book
}

/// A movement on the first and on the last day of each month, and all days in spans of 400.
fn whole_calendar(rng: &mut Rng) -> Book {
    let old = Balance {
        day: on("311299"),
        value: -1_000_000,
    };
    let ends_a_month =
        |&day: &u64| write_date(day)[..2] == *b"01" || write_date(day + 1)[..2] == *b"01";
    let days = (0..DAYS).filter(ends_a_month);
    let movements: Vec<Movement> = days
        .map(|value| Movement {
            amount: 1 + value as i64,
            booked: old.day,
            value,
        })
        .collect();
    let statement = statement(rng, &worked_key(), old, old.day, &movements);
    let mut book = Book::new(journal_of(&[statement], 0));
    for first in (0..DAYS).step_by(MOST_DAYS) {
        let last = (first + MOST_DAYS as u64).min(DAYS) - 1;
        let span = (date_number(first), date_number(last));
        book.position("whole-calendar", &worked_key().bytes(), span, MOST_DAYS);
    }
    book
}

/// Days of the calendar from its first, every day from the one before, and numbers far out.
fn days() -> Book {
    let mut book = Book::new(Vec::new());
    let first = date_number(0);
    let some = (0..DAYS).step_by(97).chain(DAYS - 4..DAYS + 4);
    let from_first = some.map(|after| (first, after)).collect();
    book.add("days-from-the-first", Question::Days(from_first));
    let next = (0..DAYS).map(|day| (date_number(day), 1)).collect();
    book.add("days-after-each", Question::Days(next));
    let none = no_days(DAY).into_iter();
    let none = none.flat_map(|number| [(number, 0), (number, 1), (DAY, number), (number, number)]);
    book.add("days-of-numbers", Question::Days(none.collect()));
    book
}
