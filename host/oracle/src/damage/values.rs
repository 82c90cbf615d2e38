//! Refusals 9 to 13: dates, keys, MMO, order of dates, sums; and near misses that are right.

use super::bytes::other_byte;
use super::lines::{find, find_where, movement_end, statement_of};
use super::recipe::{add as recipe, Claim, Recipe};
use crate::record::{
    code, get, is_mmo, is_nil, put, read_amount, read_date, write_amount, write_date, DAYS,
    DEBIT_ZERO, MOST,
};
use crate::rng::Rng;
use crate::valid::{amount, complement, mmo_complement, Draft};

/// The five zones of the key.
pub const KEY: [(&str, usize, usize); 5] = [
    ("bank", 3, 7),
    ("branch", 12, 16),
    ("currency", 17, 19),
    ("decimals", 20, 20),
    ("account", 22, 32),
];

pub fn add(list: &mut Vec<Recipe>) {
    add_dates(list);
    add_keys(list);
    add_complement_parts(list);
    add_mmo(list);
    add_order(list);
    add_centuries(list);
    add_sums(list);
    add_near_misses(list);
}

/// Six digits that are no date.
pub fn no_date(rng: &mut Rng) -> &'static [u8] {
    const NO_DATES: [&[u8]; 22] = [
        b"290225", b"290201", b"290299", b"290279", b"290281", b"300224", b"300200", b"310225",
        b"310425", b"310680", b"310979", b"311100", b"000125", b"320125", b"990125", b"010025",
        b"011325", b"019925", b"000000", b"311324", b"320280", b"400799",
    ];
    rng.pick(&NO_DATES)
}

/// 9, in each place that has a date.
fn add_dates(list: &mut Vec<Recipe>) {
    let places = [
        ("01-date", "01", 35),
        ("04-booking", "04", 35),
        ("04-value", "04", 43),
        ("05-date", "05", 35),
        ("mmo-date", "MMO", 35),
        ("07-date", "07", 35),
    ];
    for (name, kind, position) in places {
        let name = format!("{name}-does-not-exist");
        recipe(list, "date", name, move |rng, draft| {
            let index = find(rng, draft, kind)?;
            put(&mut draft.lines[index], position, no_date(rng));
            Some(Claim::Refused(9, index + 1))
        });
    }
    let named = [
        ("29-february-2025", "290225"),
        ("31-april", "310425"),
        ("day-00", "000525"),
        ("month-00", "150025"),
        ("month-13", "151325"),
        ("32-january", "320125"),
    ];
    for (name, date) in named {
        let name = format!("04-value-{name}");
        recipe(list, "date", name, move |rng, draft| {
            let index = find(rng, draft, "04")?;
            put(&mut draft.lines[index], 43, date.as_bytes());
            Some(Claim::Refused(9, index + 1))
        });
    }
    for date in [
        "290224", "290200", "290280", "290276", "310125", "300425", "311279", "010180",
    ] {
        let name = format!("04-value-{date}-exists");
        recipe(list, "date-exists", name, move |rng, draft| {
            let index = find(rng, draft, "04")?;
            put(&mut draft.lines[index], 43, date.as_bytes());
            Some(Claim::Accepted)
        });
    }
}

/// Changes one byte of a zone to another of its class.
pub fn change(rng: &mut Rng, line: &mut [u8], first: usize, last: usize) {
    let index = first - 1 + rng.index(last - first + 1);
    line[index] = other_byte(rng, line[index]);
}

/// 10: the key at a 04 or 07; a changed 01 shows at the next record.
fn add_keys(list: &mut Vec<Recipe>) {
    for (kind, offset) in [("04", 1), ("07", 1), ("01", 2)] {
        for (zone, first, last) in KEY {
            let name = format!("{kind}-key-{zone}-differs");
            recipe(list, "key", name, move |rng, draft| {
                let index = find(rng, draft, kind)?;
                change(rng, &mut draft.lines[index], first, last);
                Some(Claim::Refused(10, index + offset))
            });
        }
    }
}

/// 10: a 05 against its 04, in each part of 3-40.
fn add_complement_parts(list: &mut Vec<Recipe>) {
    let parts = [("internal", 8, 11), ("operation", 33, 34)];
    for kind in ["05", "MMO"] {
        for (zone, first, last) in KEY.into_iter().chain(parts) {
            let name = format!("{}-{zone}-not-its-04", kind.to_lowercase());
            recipe(list, "complement", name, move |rng, draft| {
                let index = find(rng, draft, kind)?;
                change(rng, &mut draft.lines[index], first, last);
                Some(Claim::Refused(10, index + 1))
            });
        }
        let name = format!("{}-date-not-its-04", kind.to_lowercase());
        recipe(list, "complement", name, move |rng, draft| {
            let index = find(rng, draft, kind)?;
            let day = read_date(get(&draft.lines[index], 35, 40))?;
            let other = (day + 1 + rng.below(DAYS - 1)) % DAYS;
            put(&mut draft.lines[index], 35, &write_date(other));
            Some(Claim::Refused(10, index + 1))
        });
    }
    recipe(
        list,
        "complement",
        "05-date-one-digit-not-its-04",
        |rng, draft| {
            let index = find(rng, draft, "05")?;
            let line = &mut draft.lines[index];
            change(rng, line, 35, 40);
            let date = get(line, 35, 40);
            match read_date(date) {
                Some(day) if write_date(day) == date => Some(Claim::Refused(10, index + 1)),
                _ => None,
            }
        },
    );
    recipe(
        list,
        "complement",
        "04-operation-not-its-05s",
        |rng, draft| {
            let index = movement_with_complement(rng, draft)?;
            change(rng, &mut draft.lines[index], 33, 34);
            Some(Claim::Refused(10, index + 2))
        },
    );
    recipe(list, "complement", "05-like-the-04-before", |rng, draft| {
        let index = movement_with_complement(rng, draft)?;
        let earlier = (0..index).rev().find(|&i| code(&draft.lines[i]) == b"04")?;
        let part = draft.lines[earlier][2..40].to_vec();
        if part == draft.lines[index][2..40] {
            return None;
        }
        put(&mut draft.lines[index + 1], 3, &part);
        Some(Claim::Refused(10, index + 2))
    });
}

fn movement_with_complement(rng: &mut Rng, draft: &Draft) -> Option<usize> {
    let followed = |index: usize| draft.lines.get(index + 1).map(|l| code(l)) == Some(b"05");
    find_where(rng, draft, |index, line| {
        code(line) == b"04" && followed(index)
    })
}

/// A 04 none of whose complements is an MMO.
pub fn movement_without_mmo(rng: &mut Rng, draft: &Draft) -> Option<usize> {
    let has_mmo = |index| (index..movement_end(draft, index)).any(|i| is_mmo(&draft.lines[i]));
    find_where(rng, draft, |index, line| {
        code(line) == b"04" && !has_mmo(index)
    })
}

/// Puts complements right after a 04: `M` an MMO, `X` another.
pub fn insert_complements(rng: &mut Rng, draft: &mut Draft, movement: usize, kinds: &str) {
    for (number, kind) in kinds.chars().enumerate() {
        let record = match kind {
            'M' => mmo_complement(rng, &draft.lines[movement]),
            _ => complement(rng, &draft.lines[movement]),
        };
        draft
            .lines
            .insert(movement + 1 + number, draft.line(&record));
    }
}

/// 11: where the second MMO stands, and what is lower at it.
fn add_mmo(list: &mut Vec<Recipe>) {
    for (name, kinds, offset) in [
        ("neighbouring", "MM", 3),
        ("not-neighbouring", "MXM", 4),
        ("far", "XMXXXXM", 8),
        ("three", "MMM", 3),
    ] {
        let name = format!("mmo-second-{name}");
        recipe(list, "mmo", name, move |rng, draft| {
            let index = movement_without_mmo(rng, draft)?;
            insert_complements(rng, draft, index, kinds);
            Some(Claim::Refused(11, index + offset))
        });
    }
    let at_second: [(&str, usize, &[u8], u32); 6] = [
        ("malformed-currency", 50, b"1", 8),
        ("malformed-amount", 66, b"{", 8),
        ("malformed-blank", 118, b"X", 8),
        ("date-does-not-exist", 35, b"310225", 9),
        ("bank-not-digits", 3, b"A", 8),
        ("trailing-not-blank", 120, b"0", 8),
    ];
    for (name, position, bytes, number) in at_second {
        let name = format!("mmo-second-{name}");
        recipe(list, "mmo", name, move |rng, draft| {
            let index = movement_without_mmo(rng, draft)?;
            insert_complements(rng, draft, index, "MXM");
            put(&mut draft.lines[index + 3], position, bytes);
            Some(Claim::Refused(number, index + 4))
        });
    }
    recipe(list, "mmo", "mmo-second-not-its-04", |rng, draft| {
        let index = movement_without_mmo(rng, draft)?;
        insert_complements(rng, draft, index, "MM");
        change(rng, &mut draft.lines[index + 2], 8, 11);
        Some(Claim::Refused(10, index + 3))
    });
    recipe(list, "mmo", "mmo-on-text-information", |rng, draft| {
        let index = find(rng, draft, "05")?;
        put(&mut draft.lines[index], 46, b"MMOREFERENCE 12");
        Some(Claim::Refused(8, index + 1))
    });
    recipe(list, "mmo", "mmo-signed-amount", |rng, draft| {
        let index = find(rng, draft, "MMO")?;
        put(&mut draft.lines[index], 53, &write_amount(amount(rng)));
        Some(Claim::Refused(8, index + 1))
    });
    recipe(list, "mmo", "mmo-debit-zero", |rng, draft| {
        let index = find(rng, draft, "MMO")?;
        put(&mut draft.lines[index], 53, DEBIT_ZERO);
        Some(Claim::Refused(8, index + 1))
    });
    recipe(list, "mmo", "mmo-lower-case-qualifier", |rng, draft| {
        let index = find(rng, draft, "MMO")?;
        put(&mut draft.lines[index], 46, b"mmo");
        Some(Claim::Refused(8, index + 1))
    });
}

fn day_at(draft: &Draft, index: usize) -> Option<u64> {
    read_date(get(&draft.lines[index], 35, 40))
}

fn set_day(draft: &mut Draft, index: usize, day: u64) {
    put(&mut draft.lines[index], 35, &write_date(day));
}

/// Moves a movement to another booking date, its complements with it.
pub fn rebook(draft: &mut Draft, movement: usize, day: u64) {
    for index in movement..movement_end(draft, movement) {
        set_day(draft, index, day);
    }
}

/// A day before another, often the day before; nothing before the first.
pub fn earlier_day(rng: &mut Rng, day: u64) -> Option<u64> {
    match day {
        0 => None,
        _ if rng.one_in(2) => Some(day - 1),
        _ => Some(rng.below(day)),
    }
}

/// 12, at the 04 or at the 07.
fn add_order(list: &mut Vec<Recipe>) {
    recipe(list, "order", "04-booking-before-old", |rng, draft| {
        let index = find(rng, draft, "04")?;
        let (first, _) = statement_of(draft, index)?;
        let day = earlier_day(rng, day_at(draft, first)?)?;
        rebook(draft, index, day);
        Some(Claim::Refused(12, index + 1))
    });
    recipe(list, "order", "04-booking-after-new", |rng, draft| {
        let index = find(rng, draft, "04")?;
        let (_, last) = statement_of(draft, index)?;
        let new = day_at(draft, last)?;
        if new + 1 >= DAYS {
            return None;
        }
        let day = new + 1 + rng.below((DAYS - 1 - new).min(40));
        rebook(draft, index, day);
        Some(Claim::Refused(12, last + 1))
    });
    recipe(list, "order", "07-date-before-old", |rng, draft| {
        let index = find(rng, draft, "07")?;
        let (first, _) = statement_of(draft, index)?;
        let day = earlier_day(rng, day_at(draft, first)?)?;
        set_day(draft, index, day);
        Some(Claim::Refused(12, index + 1))
    });
    recipe(
        list,
        "order",
        "07-date-before-old-no-movement",
        |rng, draft| {
            let index = find_where(rng, draft, |i, line| {
                code(line) == b"07" && i > 0 && code(&draft.lines[i - 1]) == b"01"
            })?;
            let day = earlier_day(rng, day_at(draft, index - 1)?)?;
            set_day(draft, index, day);
            Some(Claim::Refused(12, index + 1))
        },
    );
    recipe(list, "order", "07-date-before-a-booking", |rng, draft| {
        let index = find(rng, draft, "04")?;
        let (first, last) = statement_of(draft, index)?;
        let (old, booking) = (day_at(draft, first)?, day_at(draft, index)?);
        if booking <= old {
            return None;
        }
        set_day(draft, last, old + rng.below(booking - old));
        Some(Claim::Refused(12, last + 1))
    });
}

/// Sets all dates of a statement: its 01, its bookings, its 07.
fn set_dates(draft: &mut Draft, first: usize, last: usize, dates: [&str; 3]) {
    for index in first..=last {
        let date = match code(&draft.lines[index]) {
            b"01" => dates[0],
            b"07" => dates[2],
            _ => dates[1],
        };
        put(&mut draft.lines[index], 35, date.as_bytes());
    }
}

/// Dates whose order is not that of their bytes.
fn add_centuries(list: &mut Vec<Recipe>) {
    let right = [
        ["311299", "010100", "020100"],
        ["010180", "311299", "311279"],
        ["010180", "010180", "010180"],
        ["310125", "010225", "280225"],
        ["311224", "010125", "010125"],
        ["290224", "010324", "010324"],
    ];
    for dates in right {
        let name = format!("dates-{}", dates.join("-"));
        recipe(list, "dates", name, move |rng, draft| {
            let index = find(rng, draft, "04")?;
            let (first, last) = statement_of(draft, index)?;
            set_dates(draft, first, last, dates);
            Some(Claim::Accepted)
        });
    }
    // True: the first 04 is at fault; false: the 07.
    let wrong = [
        (["010100", "311299", "020100"], true),
        (["010225", "310125", "280225"], true),
        (["311279", "010180", "311279"], true),
        (["010100", "010100", "311299"], false),
        (["311279", "311279", "010180"], false),
        (["010125", "020225", "010225"], false),
    ];
    for (dates, at_movement) in wrong {
        let name = format!("dates-{}-wrong", dates.join("-"));
        recipe(list, "dates", name, move |rng, draft| {
            let index = find(rng, draft, "04")?;
            let (first, last) = statement_of(draft, index)?;
            set_dates(draft, first, last, dates);
            let index = if at_movement { first + 1 } else { last };
            Some(Claim::Refused(12, index + 1))
        });
    }
}

/// Adds to the amount of a line; nothing where it would leave the 14 digits.
pub fn add_to_amount(draft: &mut Draft, index: usize, difference: i64) -> Option<()> {
    let value = read_amount(get(&draft.lines[index], 91, 104))? + difference;
    if value.abs() > MOST {
        return None;
    }
    put(&mut draft.lines[index], 91, &write_amount(value));
    Some(())
}

/// 13; the differences are also those that a cut to 8, 16 or 32 bits would not see.
fn add_sums(list: &mut Vec<Recipe>) {
    let differences = [
        1,
        10,
        1 << 8,
        1 << 16,
        1 << 31,
        1 << 32,
        1 << 40,
        10_000_000_000_000,
    ];
    for kind in ["07", "04", "01"] {
        for difference in differences {
            let name = format!("{kind}-sum-off-by-{difference}");
            recipe(list, "sum", name, move |rng, draft| {
                let index = find(rng, draft, kind)?;
                let (_, last) = statement_of(draft, index)?;
                let sign = rng.pick(&[1, -1]);
                add_to_amount(draft, index, sign * difference)?;
                Some(Claim::Refused(13, last + 1))
            });
        }
    }
    recipe(list, "sum", "04-sign-turned", |rng, draft| {
        let index = find(rng, draft, "04")?;
        let (_, last) = statement_of(draft, index)?;
        let value = read_amount(get(&draft.lines[index], 91, 104))?;
        if value == 0 {
            return None;
        }
        put(&mut draft.lines[index], 91, &write_amount(-value));
        Some(Claim::Refused(13, last + 1))
    });
    recipe(list, "sum", "movement-dropped", |rng, draft| {
        let index = find(rng, draft, "04")?;
        let (_, last) = statement_of(draft, index)?;
        let end = movement_end(draft, index);
        let zero = is_nil(&draft.lines[index]);
        draft.lines.drain(index..end);
        match zero {
            true => Some(Claim::Accepted),
            false => Some(Claim::Refused(13, last + 1 - (end - index))),
        }
    });
    recipe(list, "sum", "movement-doubled", |rng, draft| {
        let index = find(rng, draft, "04")?;
        let (_, last) = statement_of(draft, index)?;
        let end = movement_end(draft, index);
        let zero = is_nil(&draft.lines[index]);
        let movement = draft.lines[index..end].to_vec();
        draft.lines.splice(end..end, movement);
        match zero {
            true => Some(Claim::Accepted),
            false => Some(Claim::Refused(13, last + 1 + (end - index))),
        }
    });
}

/// Right files that a hasty reading would refuse.
fn add_near_misses(list: &mut Vec<Recipe>) {
    recipe(list, "near-miss", "mmo-in-each-movement", |rng, draft| {
        find(rng, draft, "04")?;
        while let Some(index) = movement_without_mmo(rng, draft) {
            insert_complements(rng, draft, index, "M");
        }
        Some(Claim::Accepted)
    });
    recipe(list, "near-miss", "qualifier-mm0-twice", |rng, draft| {
        let index = find(rng, draft, "04")?;
        insert_complements(rng, draft, index, "XX");
        put(&mut draft.lines[index + 1], 46, b"MM0");
        put(&mut draft.lines[index + 2], 46, b"MM0");
        Some(Claim::Accepted)
    });
    recipe(list, "near-miss", "free-zones-blank", |rng, draft| {
        let index = find(rng, draft, "04")?;
        for index in index..movement_end(draft, index) {
            put(&mut draft.lines[index], 8, b"    ");
        }
        put(&mut draft.lines[index], 49, &[b' '; 31]);
        put(&mut draft.lines[index], 105, &[b' '; 16]);
        Some(Claim::Accepted)
    });
    recipe(
        list,
        "near-miss",
        "label-and-reference-any-byte",
        |rng, draft| {
            let index = find(rng, draft, "04")?;
            let bytes: Vec<u8> = (0..31).map(|_| rng.byte(0x20, 0x7E)).collect();
            put(&mut draft.lines[index], 49, &bytes);
            put(&mut draft.lines[index], 105, &bytes[..16]);
            Some(Claim::Accepted)
        },
    );
    recipe(
        list,
        "near-miss",
        "amounts-shifted-between-movements",
        |rng, draft| {
            let index = find(rng, draft, "04")?;
            let statement = statement_of(draft, index)?;
            let other = find_where(rng, draft, |i, line| {
                i != index && code(line) == b"04" && statement_of(draft, i) == Some(statement)
            })?;
            let difference = 1 + rng.below(1_000_000) as i64;
            add_to_amount(draft, index, difference)?;
            add_to_amount(draft, other, -difference)?;
            Some(Claim::Accepted)
        },
    );
    recipe(list, "near-miss", "both-balances-shifted", |rng, draft| {
        let index = find(rng, draft, "01")?;
        let (_, last) = statement_of(draft, index)?;
        let difference = rng.pick(&[1, -1, 1 << 32, -10_000_000_000]);
        add_to_amount(draft, index, difference)?;
        add_to_amount(draft, last, difference)?;
        Some(Claim::Accepted)
    });
    recipe(list, "near-miss", "statement-of-one-day", |rng, draft| {
        let index = find(rng, draft, "01")?;
        let (first, last) = statement_of(draft, index)?;
        set_dates(draft, first, last, ["290224"; 3]);
        Some(Claim::Accepted)
    });
    for (name, position, bytes) in [
        ("code-absent-from-the-list", 33, "ZZ"),
        ("flags-blank", 89, "  "),
        ("flags-one", 89, "11"),
        ("entry-nines", 82, "9999999"),
    ] {
        recipe(list, "near-miss", name, move |rng, draft| {
            let index = find(rng, draft, "04")?;
            put(&mut draft.lines[index], position, bytes.as_bytes());
            if position == 33 {
                for index in index..movement_end(draft, index) {
                    put(&mut draft.lines[index], position, bytes.as_bytes());
                }
            }
            Some(Claim::Accepted)
        });
    }
}
