//! Seeded damages of values. Some leave them right.

use super::sweeps::{zones, BORDERS};
use crate::rng::Rng;
use crate::values::{Head, Key, Row, Values};
use crate::writer::COMPLEMENT;

/// Gives nothing where the values have no place for the damage.
type Apply = fn(&mut Rng, &mut Values) -> Option<()>;

/// A named damage.
pub struct Damage {
    pub name: &'static str,
    pub apply: Apply,
}

const MOST: i64 = 99_999_999_999_999;
const AMOUNTS: [i64; 12] = [
    0,
    1,
    -1,
    10,
    -10,
    MOST,
    -MOST,
    MOST + 1,
    -MOST - 1,
    i64::MAX,
    i64::MIN,
    1 << 32,
];
const DATES: [u32; 20] = [
    0,
    1,
    19791231,
    19800101,
    19800229,
    20000229,
    20240229,
    20250229,
    20250230,
    20250431,
    20250100,
    20250001,
    20251301,
    20791231,
    20800101,
    18800101,
    800101,
    31012025,
    99999999,
    u32::MAX,
];
const ENTRIES: [u32; 6] = [0, 1, 9_999_999, 10_000_000, 99_999_999, u32::MAX];

/// All damages.
pub fn damages() -> Vec<Damage> {
    let list: [(&'static str, Apply); 20] = [
        ("byte", byte),
        ("byte-at-a-border", byte_at_a_border),
        ("date", date),
        ("dates-swapped", dates_swapped),
        ("booked-before-old", booked_before_old),
        ("booked-after-new", booked_after_new),
        ("amount", amount),
        ("amount-off", amount_off),
        ("amount-and-balance", amount_and_balance),
        ("entry", entry),
        ("reject", reject),
        ("flag", flag),
        ("count", count),
        ("counts-that-wrap", counts_that_wrap),
        ("count-moved", count_moved),
        ("complements-length", complements_length),
        ("qualifier", qualifier),
        ("mmo", mmo),
        ("mmo-twice", mmo_twice),
        ("row", row),
    ];
    list.map(|(name, apply)| Damage { name, apply }).into()
}

/// Random numbers and bytes in all fields.
pub fn hostile_values(rng: &mut Rng) -> Values {
    let rows: Vec<Row> = (0..rng.below(4)).map(|_| hostile_row(rng)).collect();
    let length = match rng.below(3) {
        0 => 0,
        1 => COMPLEMENT * rng.index(4),
        _ => rng.index(300),
    };
    Values {
        head: Head {
            key: Key {
                bank: bytes(rng),
                branch: bytes(rng),
                currency: bytes(rng),
                decimals: rng.byte(0, 255),
                account: bytes(rng),
            },
            old_date: rng.bits() as u32,
            old_balance: rng.bits() as i64,
            new_date: rng.bits() as u32,
            new_balance: rng.bits() as i64,
        },
        rows,
        complements: (0..length).map(|_| rng.byte(0, 255)).collect(),
    }
}

fn hostile_row(rng: &mut Rng) -> Row {
    Row {
        internal: bytes(rng),
        code: bytes(rng),
        booked: rng.bits() as u32,
        reject: bytes(rng),
        value: rng.bits() as u32,
        label: bytes(rng),
        entry: rng.bits() as u32,
        exempt: rng.byte(0, 255),
        unavailable: rng.byte(0, 255),
        amount: rng.bits() as i64,
        reference: bytes(rng),
        complements: rng.pick(&[0, 1, 2, 1 << 63, u64::MAX]) ^ rng.below(2),
    }
}

fn bytes<const WIDTH: usize>(rng: &mut Rng) -> [u8; WIDTH] {
    std::array::from_fn(|_| rng.byte(0, 255))
}

/// One of the movements.
fn some_row<'a>(rng: &mut Rng, values: &'a mut Values) -> Option<&'a mut Row> {
    let count = values.rows.len();
    (count > 0).then(|| &mut values.rows[rng.index(count)])
}

/// One of the complements.
fn some_complement<'a>(rng: &mut Rng, values: &'a mut Values) -> Option<&'a mut [u8]> {
    let count = values.complements.len() / COMPLEMENT;
    (count > 0).then(|| &mut values.complements[COMPLEMENT * rng.index(count)..][..COMPLEMENT])
}

/// Any byte in any zone.
fn byte(rng: &mut Rng, values: &mut Values) -> Option<()> {
    let byte = rng.byte(0, 255);
    put_byte(rng, values, byte)
}

fn byte_at_a_border(rng: &mut Rng, values: &mut Values) -> Option<()> {
    let byte = rng.pick(&BORDERS);
    put_byte(rng, values, byte)
}

fn put_byte(rng: &mut Rng, values: &mut Values, byte: u8) -> Option<()> {
    let mut zones = zones(values);
    let index = rng.index(zones.len());
    let zone = &mut zones[index].1;
    let place = rng.index(zone.len());
    zone[place] = byte;
    Some(())
}

/// Any of the dates.
fn date(rng: &mut Rng, values: &mut Values) -> Option<()> {
    let date = match rng.below(4) {
        0 => rng.below(30_000_000) as u32,
        1 => 20_250_000 + rng.below(1_400) as u32,
        _ => rng.pick(&DATES),
    };
    let rows = values.rows.iter_mut();
    let mut dates = vec![&mut values.head.old_date, &mut values.head.new_date];
    dates.extend(rows.flat_map(|row| [&mut row.booked, &mut row.value]));
    let index = rng.index(dates.len());
    *dates[index] = date;
    Some(())
}

fn dates_swapped(_: &mut Rng, values: &mut Values) -> Option<()> {
    let head = &mut values.head;
    std::mem::swap(&mut head.old_date, &mut head.new_date);
    (head.old_date != head.new_date).then_some(())
}

/// A year before.
fn booked_before_old(rng: &mut Rng, values: &mut Values) -> Option<()> {
    let old = values.head.old_date;
    some_row(rng, values)?.booked = old.wrapping_sub(10_000);
    Some(())
}

/// A year after.
fn booked_after_new(rng: &mut Rng, values: &mut Values) -> Option<()> {
    let new = values.head.new_date;
    some_row(rng, values)?.booked = new.wrapping_add(10_000);
    Some(())
}

fn some_amount<'a>(rng: &mut Rng, values: &'a mut Values) -> &'a mut i64 {
    let rows = values.rows.iter_mut();
    let mut amounts = vec![&mut values.head.old_balance, &mut values.head.new_balance];
    amounts.extend(rows.map(|row| &mut row.amount));
    let index = rng.index(amounts.len());
    amounts.swap_remove(index)
}

/// An amount or balance, so that the sum is wrong as a rule.
fn amount(rng: &mut Rng, values: &mut Values) -> Option<()> {
    *some_amount(rng, values) = rng.pick(&AMOUNTS);
    Some(())
}

/// Off by one or by a number that is nothing where numbers are cut.
fn amount_off(rng: &mut Rng, values: &mut Values) -> Option<()> {
    let amount = some_amount(rng, values);
    let by = rng.pick(&[1, -1, 10, MOST + 1, -MOST - 1, 1 << 32, i64::MIN]);
    *amount = match rng.below(8) {
        0 => amount.wrapping_neg(),
        _ => amount.wrapping_add(by),
    };
    Some(())
}

/// An amount and, with it, the new balance: the sum is right where it does not wrap.
fn amount_and_balance(rng: &mut Rng, values: &mut Values) -> Option<()> {
    let row = some_row(rng, values)?;
    let amount = rng.pick(&AMOUNTS);
    let by = amount.wrapping_sub(row.amount);
    row.amount = amount;
    values.head.new_balance = values.head.new_balance.wrapping_add(by);
    Some(())
}

fn entry(rng: &mut Rng, values: &mut Values) -> Option<()> {
    some_row(rng, values)?.entry = rng.pick(&ENTRIES);
    Some(())
}

fn reject(rng: &mut Rng, values: &mut Values) -> Option<()> {
    const REASONS: [&[u8; 2]; 8] = [b"  ", b"00", b"99", b"0 ", b" 0", b"A1", b"1A", b"\0\0"];
    some_row(rng, values)?.reject = *rng.pick(&REASONS);
    Some(())
}

fn flag(rng: &mut Rng, values: &mut Values) -> Option<()> {
    let row = some_row(rng, values)?;
    let flag = rng.pick(b"01 2/O\0\x01");
    if rng.one_in(2) {
        row.exempt = flag;
    } else {
        row.unavailable = flag;
    }
    Some(())
}

fn count(rng: &mut Rng, values: &mut Values) -> Option<()> {
    let row = some_row(rng, values)?;
    let count = row.complements;
    row.complements = rng.pick(&[
        count.wrapping_add(1),
        count.wrapping_sub(1),
        count.wrapping_add(256),
        count.wrapping_add(1 << 32),
        count.wrapping_add(1 << 63),
        u64::MAX,
        9_997,
        10_000,
    ]);
    Some(())
}

/// Two counts whose sum is right if it wraps.
fn counts_that_wrap(rng: &mut Rng, values: &mut Values) -> Option<()> {
    let last = values.rows.len().checked_sub(1).filter(|&last| last > 0)?;
    let first = rng.index(last);
    let by = rng.pick(&[1, 2, 1 << 63, 1 << 32]);
    let rows = &mut values.rows;
    rows[first].complements = rows[first].complements.wrapping_add(by);
    rows[last].complements = rows[last].complements.wrapping_sub(by);
    Some(())
}

/// One complement goes to the next movement.
fn count_moved(rng: &mut Rng, values: &mut Values) -> Option<()> {
    let last = values.rows.len().checked_sub(1).filter(|&last| last > 0)?;
    let from = rng.index(last);
    let rows = &mut values.rows;
    rows[from].complements = rows[from].complements.checked_sub(1)?;
    rows[from + 1].complements = rows[from + 1].complements.wrapping_add(1);
    Some(())
}

fn complements_length(rng: &mut Rng, values: &mut Values) -> Option<()> {
    let complements = &mut values.complements;
    let length = complements.len();
    let lengths = [length + 1, length + COMPLEMENT, length + 72, 0, length];
    let length = match rng.below(8) {
        0 => length.checked_sub(1)?,
        1 => length.checked_sub(COMPLEMENT)?,
        2 => rng.index(length + 1),
        _ => rng.pick(&lengths),
    };
    complements.resize(length, b'A');
    Some(())
}

fn qualifier(rng: &mut Rng, values: &mut Values) -> Option<()> {
    const QUALIFIERS: [&[u8; 3]; 8] = [
        b"   ", b"lib", b"mmo", b"MMO", b"MM0", b"L B", b"LI ", b"000",
    ];
    let qualifier = rng.pick(&QUALIFIERS);
    some_complement(rng, values)?[..3].copy_from_slice(qualifier);
    Some(())
}

/// A complement becomes an MMO, right or wrong in one byte.
fn mmo(rng: &mut Rng, values: &mut Values) -> Option<()> {
    let byte = rng.pick(&BORDERS);
    let place = 3 + rng.index(COMPLEMENT - 3);
    let wrong = !rng.one_in(3);
    let complement = some_complement(rng, values)?;
    put_mmo(complement);
    if wrong {
        complement[place] = byte;
    }
    Some(())
}

fn put_mmo(complement: &mut [u8]) {
    complement.fill(b' ');
    complement[..21].copy_from_slice(b"MMOUSD200000000002700");
}

/// All complements become MMOs: wrong where a movement has two.
fn mmo_twice(_: &mut Rng, values: &mut Values) -> Option<()> {
    let complements = values.complements.chunks_exact_mut(COMPLEMENT);
    (complements.len() > 1).then(|| complements.for_each(put_mmo))
}

/// A movement comes twice, or there is one fewer.
fn row(rng: &mut Rng, values: &mut Values) -> Option<()> {
    let row = *some_row(rng, values)?;
    if rng.one_in(2) {
        values.rows.push(row);
    } else {
        values.rows.pop();
    }
    Some(())
}
