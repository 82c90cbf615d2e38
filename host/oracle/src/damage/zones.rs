//! Every zone of every record kind, hit by a byte of another class, by lower case, by a byte
//! that is not permitted. The paper's zone table stands here a second time, as data.

use super::bytes::unpermitted;
use super::lines::find;
use super::recipe::{add as recipe, Claim, Recipe};
use crate::record::{code, put};
use crate::rng::Rng;
use crate::valid::Draft;

#[derive(Clone, Copy, PartialEq, Eq)]
enum Class {
    Digits,
    Letters,
    LettersOrDigits,
    Blank,
    Flag,
    Reject,
    Amount,
    Free,
}

/// Name, first and last position, class.
type Zone = (&'static str, usize, usize, Class);

const BALANCE: [Zone; 12] = [
    ("bank", 3, 7, Class::Digits),
    ("internal", 8, 11, Class::Blank),
    ("branch", 12, 16, Class::Digits),
    ("currency", 17, 19, Class::Letters),
    ("decimals", 20, 20, Class::Digits),
    ("reserved", 21, 21, Class::Blank),
    ("account", 22, 32, Class::LettersOrDigits),
    ("operation", 33, 34, Class::Blank),
    ("date", 35, 40, Class::Digits),
    ("blank-41", 41, 90, Class::Blank),
    ("amount", 91, 104, Class::Amount),
    ("blank-105", 105, 120, Class::Blank),
];

const MOVEMENT: [Zone; 18] = [
    ("bank", 3, 7, Class::Digits),
    ("internal", 8, 11, Class::Free),
    ("branch", 12, 16, Class::Digits),
    ("currency", 17, 19, Class::Letters),
    ("decimals", 20, 20, Class::Digits),
    ("reserved", 21, 21, Class::Blank),
    ("account", 22, 32, Class::LettersOrDigits),
    ("operation", 33, 34, Class::LettersOrDigits),
    ("booking", 35, 40, Class::Digits),
    ("reject", 41, 42, Class::Reject),
    ("value", 43, 48, Class::Digits),
    ("label", 49, 79, Class::Free),
    ("blank-80", 80, 81, Class::Blank),
    ("entry", 82, 88, Class::Digits),
    ("exemption", 89, 89, Class::Flag),
    ("unavailability", 90, 90, Class::Flag),
    ("amount", 91, 104, Class::Amount),
    ("reference", 105, 120, Class::Free),
];

const COMPLEMENT: [Zone; 13] = [
    ("bank", 3, 7, Class::Digits),
    ("internal", 8, 11, Class::Free),
    ("branch", 12, 16, Class::Digits),
    ("currency", 17, 19, Class::Letters),
    ("decimals", 20, 20, Class::Digits),
    ("reserved", 21, 21, Class::Blank),
    ("account", 22, 32, Class::LettersOrDigits),
    ("operation", 33, 34, Class::LettersOrDigits),
    ("date", 35, 40, Class::Digits),
    ("blank-41", 41, 45, Class::Blank),
    ("qualifier", 46, 48, Class::LettersOrDigits),
    ("information", 49, 118, Class::Free),
    ("blank-119", 119, 120, Class::Blank),
];

const MMO: [Zone; 5] = [
    ("currency", 49, 51, Class::Letters),
    ("decimals", 52, 52, Class::Digits),
    ("amount", 53, 66, Class::Digits),
    ("blank-67", 67, 118, Class::Blank),
    ("blank-119", 119, 120, Class::Blank),
];

pub fn add(list: &mut Vec<Recipe>) {
    add_kind(list, "zone-01", "01", &BALANCE);
    add_kind(list, "zone-04", "04", &MOVEMENT);
    add_kind(list, "zone-05", "05", &COMPLEMENT);
    add_kind(list, "zone-mmo", "MMO", &MMO);
    add_kind(list, "zone-07", "07", &BALANCE);
    add_reject(list);
    add_amounts(list);
}

/// Three rounds over the zones, so that the first few recipes are of several zones.
fn add_kind(
    list: &mut Vec<Recipe>,
    family: &'static str,
    kind: &'static str,
    zones: &'static [Zone],
) {
    for &zone in zones {
        let name = format!("{}-{}-other-class", kind.to_lowercase(), zone.0);
        recipe(list, family, name, move |rng, draft| {
            let position = position(rng, zone);
            let byte = rng.pick(wrong_bytes(zone.3, position));
            hit(rng, draft, kind, zone, position, byte)
        });
    }
    for &zone in zones {
        let name = format!("{}-{}-lower-case", kind.to_lowercase(), zone.0);
        recipe(list, family, name, move |rng, draft| {
            let position = position(rng, zone);
            let byte = rng.byte(b'a', b'z');
            hit(rng, draft, kind, zone, position, byte)
        });
    }
    for &zone in zones {
        let name = format!("{}-{}-unpermitted", kind.to_lowercase(), zone.0);
        recipe(list, family, name, move |rng, draft| {
            let index = find(rng, draft, kind)?;
            put(
                &mut draft.lines[index],
                position(rng, zone),
                &[unpermitted(rng)],
            );
            Some(Claim::Refused(5, index + 1))
        });
    }
}

fn position(rng: &mut Rng, zone: Zone) -> usize {
    zone.1 + rng.index(zone.2 - zone.1 + 1)
}

/// Permitted bytes that a zone may not hold, whatever stands beside them.
fn wrong_bytes(class: Class, position: usize) -> &'static [u8] {
    match class {
        Class::Digits => b" /:AOZ{-.",
        Class::Letters => b" @[09-{",
        Class::LettersOrDigits => b" /:@[-{",
        Class::Blank => b"!0AZ~-.",
        Class::Flag => b"2/!9AO~",
        Class::Reject => b"/:!AO-",
        Class::Amount if position == 104 => b"059 STZ@|~[",
        Class::Amount => b" /:AJ{}-+.",
        Class::Free => b" 0A!~-{",
    }
}

/// Puts a permitted byte in. Wrong everywhere but in free zones, where a changed internal
/// operation parts a 05 from its 04.
fn hit(
    rng: &mut Rng,
    draft: &mut Draft,
    kind: &str,
    zone: Zone,
    position: usize,
    byte: u8,
) -> Option<Claim> {
    let index = find(rng, draft, kind)?;
    let changed = draft.lines[index][position - 1] != byte;
    put(&mut draft.lines[index], position, &[byte]);
    if zone.3 != Class::Free {
        return Some(Claim::Refused(8, index + 1));
    }
    let complement_follows = draft.lines.get(index + 1).map(|line| code(line)) == Some(b"05");
    match (zone.0, kind) {
        ("internal", "04") if changed && complement_follows => Some(Claim::Refused(10, index + 2)),
        ("internal", "05") if changed => Some(Claim::Refused(10, index + 1)),
        _ => Some(Claim::Accepted),
    }
}

/// Two digits or two blanks, nothing between.
fn add_reject(list: &mut Vec<Recipe>) {
    let claims = [
        ("digit-blank", "7 ", 8),
        ("blank-digit", " 7", 8),
        ("sign-digit", "-7", 8),
        ("letters", "AB", 8),
        ("zeros", "00", 0),
        ("nines", "99", 0),
        ("blanks", "  ", 0),
    ];
    for (name, bytes, number) in claims {
        let name = format!("04-reject-{name}");
        recipe(list, "reject", name, move |rng, draft| {
            let index = find(rng, draft, "04")?;
            put(&mut draft.lines[index], 41, bytes.as_bytes());
            match number {
                0 => Some(Claim::Accepted),
                _ => Some(Claim::Refused(number, index + 1)),
            }
        });
    }
}

/// Amounts that are none, in each record that has one.
fn add_amounts(list: &mut Vec<Recipe>) {
    let wrong = [
        ("bad-sign", "0000000012345S"),
        ("digit-for-sign", "00000000001235"),
        ("blank-for-sign", "0000000000123 "),
        ("lower-case-sign", "0000000000123a"),
        ("bar-for-sign", "0000000000123|"),
        ("leading-blanks", "          123{"),
        ("sign-in-front", "-000000000123{"),
        ("two-signs", "000000000012{{"),
        ("two-debit-signs", "000000000000}}"),
        ("debit-sign-behind-a-blank", "000000000000 }"),
        ("decimal-point", "0000000001.23{"),
        ("all-blank", "              "),
    ];
    for kind in ["04", "01", "07"] {
        for (name, bytes) in wrong {
            let name = format!("{kind}-amount-{name}");
            recipe(list, "amount", name, move |rng, draft| {
                let index = find(rng, draft, kind)?;
                put(&mut draft.lines[index], 91, bytes.as_bytes());
                Some(Claim::Refused(8, index + 1))
            });
        }
    }
}
