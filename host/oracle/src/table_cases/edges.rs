//! Values at the edges of what a statement can say, each with the answer of the writer as the
//! paper gives it.

use super::calls::statement_bytes;
use super::changes::{Change, COMPLEMENTS, COUNTS, ZONES};
use super::worked::{add_complement, row, with_complements, worked};
use crate::values::Values;

/// Values, the bytes lent for them, and the refusal expected or 0.
pub struct Edge {
    pub name: String,
    pub values: Values,
    pub bytes: usize,
    pub number: u32,
}

const MOST: i64 = 99_999_999_999_999;

/// A statement without movements.
fn no_movement(balance: i64) -> Values {
    let mut values = worked();
    values.rows.clear();
    values.head.old_balance = balance;
    values.head.new_balance = balance;
    values
}

/// One movement between two balances.
fn one_movement(old: i64, amount: i64, new: i64) -> Values {
    let mut values = worked();
    values.rows.truncate(1);
    values.head.old_balance = old;
    values.rows[0].amount = amount;
    values.head.new_balance = new;
    values
}

/// So many movements of nothing; the first has complements.
fn long(movements: usize, complements: usize) -> Values {
    let mut values = no_movement(7);
    values.rows = vec![row(b"05", 20250205, 20250206, 0); movements];
    for _ in 0..complements {
        add_complement(&mut values, "LIB", "");
    }
    values.rows[0].complements = complements as u64;
    values
}

/// All edges.
pub fn edges() -> Vec<Edge> {
    let mut list = Vec::new();
    add(&mut list, "worked", 0, worked());
    add(&mut list, "with-complements", 0, with_complements());
    add_balances(&mut list);
    add_amounts(&mut list);
    add_sums(&mut list);
    add_dates(&mut list);
    add_orders(&mut list);
    add_changes(&mut list, &ZONES);
    add_changes(&mut list, &COMPLEMENTS);
    add_changes(&mut list, &COUNTS);
    add_long(&mut list);
    add_outputs(&mut list);
    list
}

fn add(list: &mut Vec<Edge>, name: impl Into<String>, number: u32, values: Values) {
    list.push(Edge {
        name: name.into(),
        bytes: statement_bytes(&values),
        number,
        values,
    });
}

/// A balance in both places, no movement: 14 digits and no more.
fn add_balances(list: &mut Vec<Edge>) {
    for balance in [0, 1, -1, 9, -9, 10, -10, MOST, -MOST] {
        let name = format!("balance-{balance}");
        add(list, name, 0, no_movement(balance));
    }
    let too_large = [MOST + 1, -MOST - 1, i64::MAX, i64::MIN, 10 * MOST];
    for balance in too_large {
        let name = format!("balance-{balance}");
        add(list, name, 19, no_movement(balance));
    }
}

/// An amount that brings one balance to the other.
fn add_amounts(list: &mut Vec<Edge>) {
    for (old, amount, new) in [
        (0, 0, 0),
        (0, MOST, MOST),
        (0, -MOST, -MOST),
        (MOST, -MOST, 0),
        (-MOST, MOST, 0),
        (1, -1, 0),
        (0, -10, -10),
    ] {
        let name = format!("amount-{amount}");
        add(list, name, 0, one_movement(old, amount, new));
    }
    for (old, amount, new) in [
        (-MOST, MOST + 1, 1),
        (MOST, -MOST - 1, -1),
        (0, MOST + 1, MOST + 1),
        (MOST, 1, MOST + 1),
        (-MOST, -1, -MOST - 1),
        (MOST + 1, -1, MOST),
        (0, i64::MAX, i64::MAX),
        (0, i64::MIN, i64::MIN),
        (i64::MIN, i64::MAX, -1),
        (-1, i64::MIN, i64::MAX),
        (i64::MAX, 1, i64::MIN),
    ] {
        let name = format!("amount-{amount}-from-{old}");
        add(list, name, 19, one_movement(old, amount, new));
    }
}

/// Old balance, amounts and new balance, with the answer to them.
type Sum = (&'static str, u32, i64, &'static [i64], i64);

/// A sum on the way may have more than 14 digits. Those that wrap or are cut are wrong.
const SUMS: [Sum; 6] = [
    (
        "beyond-and-back",
        0,
        MOST,
        &[MOST, MOST, -MOST, -MOST],
        MOST,
    ),
    (
        "below-and-back",
        0,
        -MOST,
        &[-MOST, -MOST, MOST, MOST],
        -MOST,
    ),
    ("beyond-and-off", 19, MOST, &[MOST, -MOST], MOST - 1),
    ("wraps-to-0", 19, 0, &[i64::MAX, i64::MAX, 2], 0),
    ("wraps-below", 19, 0, &[i64::MIN, i64::MIN], 0),
    ("cut-to-14-digits", 19, MOST, &[MOST], MOST - 1),
];

/// Old balance plus all amounts is the new balance, in whole numbers.
fn add_sums(list: &mut Vec<Edge>) {
    for (difference, number) in [(1, 19), (-1, 19), (1 << 32, 19), (-(1 << 32), 19), (0, 0)] {
        let mut values = worked();
        values.head.new_balance += difference;
        add(list, format!("sum-off-by-{difference}"), number, values);
        let mut values = worked();
        values.rows[1].amount += difference;
        add(list, format!("amount-off-by-{difference}"), number, values);
    }
    for (name, number, old, amounts, new) in SUMS {
        let mut values = no_movement(old);
        values.head.new_balance = new;
        let amounts = amounts.iter();
        let rows = amounts.map(|&amount| row(b"05", 20250205, 20250206, amount));
        values.rows = rows.collect();
        add(list, format!("sum-{name}"), number, values);
    }
}

/// Days that exist, and numbers that are no day from 1980 to 2079.
const DAYS: [u32; 11] = [
    19800101, 19800229, 19991231, 20000101, 20000229, 20240229, 20250228, 20250430, 20790228,
    20791130, 20791231,
];
const NO_DAYS: [u32; 26] = [
    0,
    1,
    20250230,
    20250231,
    20250229,
    19810229,
    20790229,
    20240230,
    20250431,
    20250631,
    20250931,
    20251131,
    20250132,
    20250100,
    20250001,
    20251301,
    20259901,
    19791231,
    20800101,
    18800101,
    21000228,
    800101,
    31012025,
    250131,
    99999999,
    u32::MAX,
];

/// Each date in turn where its order does not matter.
fn add_dates(list: &mut Vec<Edge>) {
    for (dates, number) in [(&DAYS[..], 0), (&NO_DAYS[..], 19)] {
        for &date in dates {
            for (zone, values) in with_date(date) {
                add(list, format!("{zone}-{date}"), number, values);
            }
        }
    }
}

/// The date as old, as new, as booking and as value date, all else as wide as can be.
fn with_date(date: u32) -> [(&'static str, Values); 4] {
    let mut wide = worked();
    (wide.head.old_date, wide.head.new_date) = (19800101, 20791231);
    let (mut old, mut new, mut booked, mut value) =
        (wide.clone(), wide.clone(), wide.clone(), wide);
    old.head.old_date = date;
    old.rows.iter_mut().for_each(|row| row.booked = 20791231);
    new.head.new_date = date;
    new.rows.iter_mut().for_each(|row| row.booked = 19800101);
    booked.rows[1].booked = date;
    value.rows[0].value = date;
    [
        ("old-date", old),
        ("new-date", new),
        ("booked", booked),
        ("value-date", value),
    ]
}

/// Old date, booking dates of the two movements and new date, with the answer to them.
type Order = (&'static str, u32, [u32; 4]);

const ORDERS: [Order; 9] = [
    ("one-day", 0, [20250131; 4]),
    (
        "back-and-forth",
        0,
        [20250131, 20250228, 20250131, 20250228],
    ),
    (
        "booked-before-old",
        19,
        [20250131, 20250130, 20250205, 20250228],
    ),
    (
        "last-before-old",
        19,
        [20250131, 20250205, 20250130, 20250228],
    ),
    (
        "booked-after-new",
        19,
        [20250131, 20250301, 20250205, 20250228],
    ),
    (
        "last-after-new",
        19,
        [20250131, 20250205, 20250301, 20250228],
    ),
    (
        "new-before-old",
        19,
        [20250131, 20250131, 20250131, 20250130],
    ),
    ("into-2000", 0, [19991231, 20000101, 19991231, 20000101]),
    ("out-of-2000", 19, [20000101, 20000101, 20000101, 19991231]),
];

fn add_orders(list: &mut Vec<Edge>) {
    for (name, number, [old, first, second, new]) in ORDERS {
        let mut values = worked();
        values.head.old_date = old;
        values.rows[0].booked = first;
        values.rows[1].booked = second;
        values.head.new_date = new;
        add(list, name, number, values);
    }
    let mut values = no_movement(5);
    (values.head.old_date, values.head.new_date) = (20250201, 20250131);
    add(list, "new-before-old-no-movement", 19, values);
    let mut values = worked();
    (values.rows[0].value, values.rows[1].value) = (19800101, 20791231);
    add(list, "value-dates-are-free", 0, values);
}

/// Changes of the worked example with complements.
fn add_changes(list: &mut Vec<Edge>, changes: &[Change]) {
    for (name, number, change) in changes {
        let mut values = with_complements();
        change(&mut values);
        add(list, *name, *number, values);
    }
}

/// Around 9,999 records.
fn add_long(list: &mut Vec<Edge>) {
    for (movements, complements, number) in [
        (9_997, 0, 0),
        (9_998, 0, 19),
        (1, 9_996, 0),
        (1, 9_997, 19),
        (5_000, 4_997, 0),
        (5_000, 4_998, 19),
    ] {
        let name = format!("records-{}", 2 + movements + complements);
        add(list, name, number, long(movements, complements));
    }
}

/// Outputs shorter and longer than the statement. 19 comes before 20.
fn add_outputs(list: &mut Vec<Edge>) {
    for (what, values, exact) in [
        ("worked", worked(), 480),
        ("complements", with_complements(), 840),
        ("empty", no_movement(0), 240),
    ] {
        for bytes in [0, 1, 119, 120, exact - 120, exact - 1] {
            add_output(list, format!("{what}-to-{bytes}"), 20, &values, bytes);
        }
        for bytes in [exact, exact + 1, exact + 120, exact + 500] {
            add_output(list, format!("{what}-to-{bytes}"), 0, &values, bytes);
        }
    }
    let mut values = worked();
    values.head.new_balance += 1;
    for bytes in [0, 1, 479, 480, 600] {
        add_output(list, format!("sum-wrong-to-{bytes}"), 19, &values, bytes);
    }
}

fn add_output(list: &mut Vec<Edge>, name: String, number: u32, values: &Values, bytes: usize) {
    list.push(Edge {
        name,
        values: values.clone(),
        bytes,
        number,
    });
}
