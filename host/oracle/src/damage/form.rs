//! Refusals 1, 2, 4, 5, 6: line-end number, length, line ends, bytes, codes.

use super::bytes::unpermitted;
use super::lines::find_where;
use super::recipe::{add as recipe, Claim, Recipe};
use crate::record::{put, RECORD};
use crate::rng::Rng;
use crate::valid::{file, Draft};

pub fn add(list: &mut Vec<Recipe>) {
    add_numbers(list);
    add_lengths(list);
    add_misread(list);
    add_line_ends(list);
    add_bytes(list);
    add_codes(list);
}

/// 1, also before any other fault and for an empty file.
fn add_numbers(list: &mut Vec<Recipe>) {
    let numbers = [
        3,
        256,
        257,
        258,
        1 << 16,
        1 << 32,
        (1 << 32) + 1,
        (1 << 32) + 2,
        1 << 63,
        u64::MAX,
    ];
    for number in numbers {
        let name = format!("line-end-number-{number}");
        recipe(list, "line-end-number", name, move |_, draft| {
            draft.line_end = number;
            Some(Claim::Refused(1, 0))
        });
    }
    recipe(
        list,
        "line-end-number",
        "line-end-number-3-and-length",
        |_, draft| {
            draft.line_end = 3;
            draft.lines.push(vec![b'0']);
            Some(Claim::Refused(1, 0))
        },
    );
    recipe(
        list,
        "line-end-number",
        "line-end-number-4-empty-file",
        |_, draft| {
            draft.line_end = 4;
            draft.lines.clear();
            Some(Claim::Refused(1, 0))
        },
    );
}

/// 2, also before any fault of a record.
fn add_lengths(list: &mut Vec<Recipe>) {
    recipe(list, "length", "length-byte-added", |rng, draft| {
        draft.lines.push(vec![rng.byte(0x20, 0x7E)]);
        Some(Claim::Refused(2, 0))
    });
    recipe(list, "length", "length-byte-cut", |_, draft| {
        draft.lines.last_mut()?.pop();
        Some(Claim::Refused(2, 0))
    });
    recipe(list, "length", "length-byte-cut-inside", |rng, draft| {
        let index = find_where(rng, draft, |_, _| true)?;
        draft.lines[index].remove(rng.index(RECORD));
        Some(Claim::Refused(2, 0))
    });
    recipe(list, "length", "length-part-of-record", |rng, draft| {
        let length = 1 + rng.index(RECORD - 1);
        draft.lines.push(vec![b' '; length]);
        Some(Claim::Refused(2, 0))
    });
    recipe(
        list,
        "length",
        "length-last-line-end-missing",
        |_, draft| {
            if draft.line_end == 0 {
                return None;
            }
            draft.lines.last_mut()?.truncate(RECORD);
            Some(Claim::Refused(2, 0))
        },
    );
    recipe(list, "length", "length-only-a-line-end", |_, draft| {
        if draft.line_end == 0 {
            return None;
        }
        draft.lines = vec![draft.line(b"")];
        Some(Claim::Refused(2, 0))
    });
    recipe(
        list,
        "length",
        "length-byte-added-and-bad-record",
        |rng, draft| {
            let index = find_where(rng, draft, |_, _| true)?;
            draft.lines[index][1] = b'9';
            draft.lines.push(vec![b'\n']);
            Some(Claim::Refused(2, 0))
        },
    );
}

/// A file read with another line-end number than its own.
fn add_misread(list: &mut Vec<Recipe>) {
    for (from, to) in [(0, 1), (0, 2), (1, 0), (1, 2), (2, 0), (2, 1)] {
        let name = format!("misread-{from}-as-{to}");
        recipe(list, "misread", name, move |_, draft| {
            let length = draft.bytes().len() as u64;
            if draft.line_end != from || length % (120 + to) == 0 {
                return None;
            }
            draft.line_end = to;
            Some(Claim::Refused(2, 0))
        });
    }
    // Sizes at which the length is right both ways.
    let fitting = [
        (0, 1, 121, Claim::Refused(4, 1)),
        (0, 2, 61, Claim::Refused(4, 1)),
        (1, 0, 120, Claim::Refused(5, 2)),
        (1, 2, 122, Claim::Refused(4, 1)),
        (2, 0, 60, Claim::Refused(5, 2)),
        (2, 1, 121, Claim::Refused(4, 1)),
    ];
    for (from, to, records, claim) in fitting {
        let name = format!("misread-{from}-as-{to}-fitting");
        recipe(list, "misread-fitting", name, move |rng, draft| {
            *draft = file(rng, from, records);
            draft.line_end = to;
            Some(claim)
        });
    }
}

/// 4.
fn add_line_ends(list: &mut Vec<Recipe>) {
    const WRONG: [(&str, u64, &[u8]); 11] = [
        ("cr", 1, b"\r"),
        ("blank", 1, b" "),
        ("nul", 1, b"\0"),
        ("zero", 1, b"0"),
        ("vertical-tab", 1, b"\x0B"),
        ("lf-cr", 2, b"\n\r"),
        ("lf-lf", 2, b"\n\n"),
        ("cr-cr", 2, b"\r\r"),
        ("blank-lf", 2, b" \n"),
        ("cr-blank", 2, b"\r "),
        ("blanks", 2, b"  "),
    ];
    for (name, line_end, bytes) in WRONG {
        let name = format!("line-end-{name}");
        recipe(list, "line-end", name, move |rng, draft| {
            let index = wrong_line_end(rng, draft, line_end, bytes)?;
            Some(Claim::Refused(4, index + 1))
        });
    }
    recipe(list, "line-end", "line-end-cr-last-record", |_, draft| {
        if draft.line_end != 1 {
            return None;
        }
        draft.lines.last_mut()?[RECORD] = b'\r';
        Some(Claim::Refused(4, draft.lines.len()))
    });
}

fn wrong_line_end(rng: &mut Rng, draft: &mut Draft, line_end: u64, bytes: &[u8]) -> Option<usize> {
    if draft.line_end != line_end {
        return None;
    }
    let index = find_where(rng, draft, |_, _| true)?;
    put(&mut draft.lines[index], RECORD + 1, bytes);
    Some(index)
}

/// 5, at any position of any record.
fn add_bytes(list: &mut Vec<Recipe>) {
    recipe(list, "byte", "byte-unpermitted-anywhere", |rng, draft| {
        let index = find_where(rng, draft, |_, _| true)?;
        draft.lines[index][rng.index(RECORD)] = unpermitted(rng);
        Some(Claim::Refused(5, index + 1))
    });
    for byte in [0x00, 0x0A, 0x0D, 0x1F, 0x7F, 0x80, 0xFF] {
        for (place, position) in [("first", 0), ("last", RECORD - 1)] {
            let name = format!("byte-{byte:02x}-{place}");
            recipe(list, "byte", name, move |rng, draft| {
                let index = find_where(rng, draft, |_, _| true)?;
                draft.lines[index][position] = byte;
                Some(Claim::Refused(5, index + 1))
            });
        }
    }
}

/// 6.
fn add_codes(list: &mut Vec<Recipe>) {
    let codes = [
        "00", "02", "03", "06", "08", "09", "0A", "0a", "O1", "10", "11", "14", "40", "17", "99",
        "  ", " 1", "1 ", "0 ", "~~",
    ];
    for code in codes {
        let name = format!("code-{}", code.replace(' ', "_"));
        recipe(list, "code", name, move |rng, draft| {
            let index = find_where(rng, draft, |_, _| true)?;
            put(&mut draft.lines[index], 1, code.as_bytes());
            Some(Claim::Refused(6, index + 1))
        });
    }
}
