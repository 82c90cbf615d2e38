//! Hostile files for the exported functions: numbers far out, lengths one off, random bytes.

use crate::check::{Answer, RECORD};
use crate::damage::Case;
use crate::record::line_end as line_end_bytes;
use crate::rng::Rng;
use crate::valid::file;

/// Numbers that are no line end and no entry. Cut to fewer bits, some of them would be.
pub const FAR_OUT: [u64; 16] = [
    3,
    129,
    255,
    256,
    257,
    258,
    1 << 16,
    (1 << 20) + 1,
    1 << 32,
    (1 << 32) + 1,
    (1 << 32) + 2,
    (1 << 60) + 1,
    1 << 63,
    (1 << 63) + 1,
    u64::MAX - 1,
    u64::MAX,
];

/// The fixed hostile files.
pub fn checks(rng: &mut Rng) -> Vec<Case> {
    let mut cases = Vec::new();
    add_line_ends(rng, &mut cases);
    add_lengths(rng, &mut cases);
    cases
}

/// Right files and wrong ones, with line-end numbers that there are not. Where the lowest byte of
/// the number is a line end, the right file has that one.
fn add_line_ends(rng: &mut Rng, cases: &mut Vec<Case>) {
    for line_end in FAR_OUT {
        let right = file(rng, line_end % 256 % 3, 4).bytes();
        let files = [Vec::new(), vec![0], random_bytes(rng, RECORD), right];
        for bytes in files {
            let name = format!("hostile-line-end-{line_end}");
            cases.push(case(name, line_end, bytes, Some(refused(1))));
        }
    }
}

/// A right file cut after each of its bytes, and with bytes after its last.
fn add_lengths(rng: &mut Rng, cases: &mut Vec<Case>) {
    for line_end in 0..3 {
        let mut bytes = file(rng, line_end, 4).bytes();
        let tail = random_bytes(rng, 3);
        bytes.extend(tail);
        for length in 0..=bytes.len() {
            let name = format!("hostile-length-{length}");
            let whole = length % (RECORD + line_end as usize) == 0;
            let expected = (!whole).then(|| refused(2));
            cases.push(case(name, line_end, bytes[..length].to_vec(), expected));
        }
    }
}

/// Line-end numbers with lengths that no file in memory need have.
pub fn lengths() -> Vec<(u64, u64)> {
    let right = (0..3).flat_map(|line_end| {
        let line = RECORD as u64 + line_end;
        let most = u64::MAX - u64::MAX % line;
        // A multiple of the line that is a short file where its upper bits are lost.
        let cut = [1 << 20, 1 << 32, 1 << 40, 1 << 56].map(|factor| factor * line);
        let near = [0, line, 2 * line, 20_000 * line, 20_001 * line, most];
        let near = near.into_iter().chain(cut).flat_map(around);
        let far = FAR_OUT
            .into_iter()
            .chain((0..6).map(|less| u64::MAX - less));
        near.chain(far).map(move |length| (line_end, length))
    });
    let wrong = FAR_OUT.into_iter().flat_map(|line_end| {
        let line = line_end.wrapping_add(RECORD as u64);
        let lengths = [0, 1, 120, 121, 122, line, 2_400_120, u64::MAX];
        lengths.into_iter().map(move |length| (line_end, length))
    });
    right.chain(wrong).collect()
}

/// The number and its two neighbours, where there are such.
fn around(number: u64) -> impl Iterator<Item = u64> {
    let neighbours = [number.checked_sub(1), Some(number), number.checked_add(1)];
    neighbours.into_iter().flatten()
}

/// A refusal of the file as a whole.
fn refused(number: u32) -> Answer {
    Answer::Refused { number, record: 0 }
}

fn case(name: String, line_end: u64, bytes: Vec<u8>, expected: Option<Answer>) -> Case {
    Case {
        name,
        line_end,
        bytes,
        expected,
    }
}

/// Random bytes as a file: of any length, or of whole records; of all bytes, of permitted ones,
/// or of records that begin like records and end with their line end.
pub fn random_file(rng: &mut Rng) -> Case {
    let line_end = rng.below(3);
    let records = rng.index(6);
    let bytes = match rng.below(4) {
        0 => {
            let length = rng.index(500);
            random_bytes(rng, length)
        }
        1 => random_bytes(rng, (RECORD + line_end as usize) * records),
        2 => random_records(rng, line_end, records, |rng| rng.byte(0x20, 0x7E)),
        _ => random_records(rng, line_end, records, |rng| rng.pick(b"0123456789 AZ{}")),
    };
    case("hostile-random-bytes".to_string(), line_end, bytes, None)
}

pub fn random_bytes(rng: &mut Rng, length: usize) -> Vec<u8> {
    (0..length).map(|_| rng.byte(0, 255)).collect()
}

/// Records with a known code and right line ends, of such bytes.
fn random_records(
    rng: &mut Rng,
    line_end: u64,
    records: usize,
    byte: fn(&mut Rng) -> u8,
) -> Vec<u8> {
    let mut bytes = Vec::new();
    for _ in 0..records {
        bytes.extend(rng.pick(&[b"01", b"04", b"05", b"07"]));
        bytes.extend((2..RECORD).map(|_| byte(rng)));
        bytes.extend(line_end_bytes(line_end));
    }
    bytes
}
