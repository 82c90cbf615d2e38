//! The cash desk's questions: the balance in value of an account day by day, the new balance of an
//! entry, and the day so many days after another.
//!
//! Days are numbers YYYYMMDD, which stand in the order of the days. The calendar is walked day by
//! day, and amounts are added in 128 bits, where nothing can overflow.

use std::iter::successors;

use crate::check::{amount, date, zone, RECORD};
use crate::journal::{held, refusal, Held};
use crate::read::Refusal;
use crate::writer::exists;

/// Days of the longest span.
pub const MOST_DAYS: usize = 400;

const TABLE_TOO_SHORT: u32 = 18;
const NO_STATEMENT: u32 = 25;
const NO_SPAN: u32 = 27;

/// Fills the first numbers of a table with the balance in value of an account at the end of each
/// day from first to last, both counted. Gives the number of days. A refusal leaves the table as
/// it was.
pub fn position(
    journal: &[u8],
    key: &[u8],
    first: u64,
    last: u64,
    table: &mut [i64],
) -> Result<u64, Refusal> {
    let list = held(journal)?;
    let days = span(first, last).ok_or(refusal(NO_SPAN))?;
    let account: Vec<&Held> = list.iter().filter(|held| held.key == key).collect();
    let earliest = account.first().ok_or(refusal(NO_STATEMENT))?;
    let rows = table.get_mut(..days.len());
    let rows = rows.ok_or(refusal(TABLE_TOO_SHORT))?;
    let mut balance = earliest.old_balance;
    for (row, change) in rows.iter_mut().zip(changes(&account, &days)) {
        balance += change;
        *row = narrow(balance);
    }
    Ok(days.len() as u64)
}

/// The new balance of entry e of a sound journal, 0 where there is no such entry; entries count
/// from 1. Nothing for a journal that is not sound, of which any number may be answered.
pub fn balance(journal: &[u8], e: u64) -> Option<i64> {
    let list = held(journal).ok()?;
    let found = (1..).zip(&list).find(|&(number, _)| number == e);
    Some(found.map_or(0, |(_, held)| narrow(held.new_balance)))
}

/// The day so many days after a day; 0 where either is not a day from 1980 to 2079.
pub fn day(day: u64, after: u64) -> u64 {
    let days = existing(day).into_iter().flat_map(days_from);
    let found = (0..).zip(days).find(|&(passed, _)| passed == after);
    found.map_or(0, |(_, day)| u64::from(day))
}

/// The days of a span, or nothing where it is empty, too long or ends on what is no day.
fn span(first: u64, last: u64) -> Option<Vec<u32>> {
    let (first, last) = (existing(first)?, existing(last)?);
    let days = days_from(first).take_while(|&day| day <= last);
    let days: Vec<u32> = days.take(MOST_DAYS + 1).collect();
    (1..=MOST_DAYS).contains(&days.len()).then_some(days)
}

/// What each day of a span adds: the movements valued on it, and to the first day those valued
/// before it too. Movements valued after the span add nothing.
fn changes(account: &[&Held], days: &[u32]) -> Vec<i128> {
    let mut changes = vec![0; days.len()];
    for (value_date, amount) in account.iter().flat_map(|held| movements(held)) {
        let counts_from = days.partition_point(|&day| day < value_date);
        if let Some(change) = changes.get_mut(counts_from) {
            *change += amount;
        }
    }
    changes
}

/// Value date and amount of each 04.
fn movements(held: &Held) -> impl Iterator<Item = (u32, i128)> + '_ {
    let records = held.records.chunks_exact(RECORD);
    let movements = records.filter(|record| zone(record, 1, 2) == b"04");
    movements.map(|record| {
        let value_date = date(zone(record, 43, 48)).expect("dates of a sound journal exist");
        let amount = amount(zone(record, 91, 104)).expect("amounts of a sound journal are right");
        (value_date, amount)
    })
}

/// The number as a day, if it is one from 1980 to 2079.
fn existing(number: u64) -> Option<u32> {
    let day = u32::try_from(number).ok()?;
    exists(day).then_some(day)
}

/// A day and all those after it.
fn days_from(day: u32) -> impl Iterator<Item = u32> {
    successors(Some(day), |&day| next(day))
}

/// The day after a day: the next of its month, else the first of the next month, else the first of
/// the next year.
fn next(day: u32) -> Option<u32> {
    let (month, year) = (day / 100, day / 10_000);
    let candidates = [day + 1, 100 * (month + 1) + 1, 10_000 * (year + 1) + 101];
    candidates.into_iter().find(|&next| exists(next))
}

/// No amount passes 64 bits: the balances, of 14 digits, tie the movements to each other.
fn narrow(amount: i128) -> i64 {
    i64::try_from(amount).expect("an amount of more than 64 bits")
}
