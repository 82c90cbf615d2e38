//! Spans, right ones and wrong ones, and numbers that are no days.

use super::questions::Span;
use crate::cash::MOST_DAYS;
use crate::record::{date_number, DAYS};
use crate::rng::Rng;

/// The last day before the calendar, and the first after it.
const BEFORE: u64 = 19_791_231;
const AFTER: u64 = 20_800_101;

/// A day close to the centre, further off, at an end of the calendar, or any.
pub fn near(rng: &mut Rng, centre: u64) -> u64 {
    let reach = match rng.below(8) {
        0 => 1,
        1..=3 => 10,
        4 => 60,
        5 => 450,
        6 => return rng.pick(&[0, 1, DAYS - 2, DAYS - 1]),
        _ => return rng.below(DAYS),
    };
    let day = centre + rng.below(2 * reach + 1);
    day.saturating_sub(reach).min(DAYS - 1)
}

/// A span that begins or ends near the centre, and the number of its days, 0 where it is wrong.
/// Most are right.
pub fn some_span(rng: &mut Rng, centre: u64) -> (Span, usize) {
    let day = near(rng, centre) as i64;
    let more = match rng.below(20) {
        0 => -1 - rng.below(3) as i64,
        1 => -1 - rng.below(500) as i64,
        2 => rng.below(DAYS) as i64,
        3 => 398 + rng.below(4) as i64,
        4 => 399,
        5 => 100 + rng.below(300) as i64,
        6..=8 => 0,
        9 | 10 => 1,
        11..=13 => rng.below(60) as i64,
        _ => rng.below(10) as i64,
    };
    let (mut first, mut last) = match rng.below(2) {
        0 => (day, day + more),
        _ => (day - more, day),
    };
    let calendar = 0..DAYS as i64;
    if rng.one_in(2) {
        first = first.clamp(0, calendar.end - 1);
        last = last.clamp(0, calendar.end - 1);
    }
    let days = usize::try_from(last - first + 1).unwrap_or(0);
    let right = calendar.contains(&first) && calendar.contains(&last) && days <= MOST_DAYS;
    ((number(first), number(last)), if right { days } else { 0 })
}

/// A day as YYYYMMDD; those beyond the ends of the calendar are all one.
fn number(day: i64) -> u64 {
    match u64::try_from(day) {
        Err(_) => BEFORE,
        Ok(DAYS..=u64::MAX) => AFTER,
        Ok(day) => date_number(day),
    }
}

/// Numbers that are no days. Cut to 32 bits, or read in another order, some would be.
pub fn no_days(day: u64) -> Vec<u64> {
    let mut list = vec![0, 1, 101, 250_101, 10_125, 1_012_025, BEFORE, AFTER];
    list.extend([19_800_100, 19_800_001, 20_000_230, 20_230_229, 20_250_229]);
    list.extend([20_250_431, 20_250_631, 20_250_931, 20_251_131, 20_250_132]);
    list.extend([20_250_100, 20_250_001, 20_251_301, 20_251_232, 20_259_999]);
    list.extend([21_000_101, 99_991_231, 99_999_999, u64::from(u32::MAX)]);
    list.extend([32, 33, 40, 47, 62, 63].map(|bit| (1 << bit) + day));
    list.extend([10 * day, day << 32, day << 32 | day, day.wrapping_neg()]);
    list.extend([1 << 32, 1 << 63, u64::MAX - 1, u64::MAX]);
    list
}
