//! The format of a series, its lines and its mistakes.

use crate::shelf::{april, february, march, KEY};
use oracle::series::{hash, run};
use oracle::series_cases::SeriesCase;

fn lines(series: &[u8]) -> Vec<String> {
    run(series).unwrap()
}

/// A header written out, with its payload.
fn operation(letter: char, a: u64, b: usize, payload: &[u8]) -> Vec<u8> {
    let header = format!("{letter} {a:019} {b:08}\n").into_bytes();
    assert_eq!(header.len(), 31);
    [header, payload.to_vec()].concat()
}

#[test]
fn a_series_and_its_lines() {
    let file = february().bytes(b"\n");
    let next = march().bytes(b"");
    let series = [
        b"J 0000000000000008520 00000000\n".to_vec(),
        b"S 0000000000000000000 00000000\n".to_vec(),
        b"O 0000000000000000000 00000000\n".to_vec(),
        b"S 0000000000000000000 00000000\n".to_vec(),
        operation('D', 1, 484, &file),
        operation('D', 1, 484, &file),
        operation('E', 1, 0, b""),
        operation('E', 2, 0, b""),
        operation('N', 0, 25, KEY),
        operation('N', 0, 385, &[KEY, &next].concat()),
        operation('N', 3, 25, KEY),
        operation('D', 2, 484, &file),
        operation('P', 7_679, 46, b""),
        operation('S', 0, 0, b""),
        operation('P', 7_679, 32, b""),
        operation('S', 0, 0, b""),
        operation('D', 0, 240, &april().bytes(b"")),
    ];
    let answers: Vec<String> = lines(&series.concat());
    // The hashes are tried by themselves below.
    let words: Vec<String> = answers.iter().map(|line| without_hash(line)).collect();
    let expected = [
        "J 8520",
        "S unsound",
        "O opened",
        "S sound",
        "D stored 1 held 0",
        "D stored 0 held 1",
        "E at 7680 480",
        "E refused 25 0",
        "N journal 7680 480 0",
        "N file 0 360 0",
        "N refused 1 0",
        "D refused 2 0 expected 0 0",
        "S unsound",
        "S sound",
        "D refused 22 1 expected 20250228 120833",
    ];
    assert_eq!(words, expected);
    // A retry and a refusal leave the journal as it is.
    assert_eq!(hash_of(&answers[4]), hash_of(&answers[5]));
    assert_eq!(hash_of(&answers[4]), hash_of(&answers[11]));
    assert_ne!(hash_of(&answers[2]), hash_of(&answers[4]));
}

/// The lines of the series of that name, without hashes.
pub fn lines_of(cases: &[SeriesCase], name: &str) -> Vec<String> {
    let case = cases.iter().find(|case| case.name == name).unwrap();
    let lines = lines(&case.bytes);
    lines.iter().map(|line| without_hash(line)).collect()
}

/// A line without the hash of the journal, if it has one.
fn without_hash(line: &str) -> String {
    match line.rsplit_once(' ') {
        Some((words, _)) if line.starts_with(['D', 'O']) => words.to_string(),
        _ => line.to_string(),
    }
}

fn hash_of(line: &str) -> u64 {
    line.rsplit(' ').next().unwrap().parse().unwrap()
}

/// 46 for a dot; 46 * 31 + 46; and so on. Seven dots are 42,186,008,302 before the remainder.
#[test]
fn hashes_by_hand() {
    let dots = [0, 46, 1_472, 45_678];
    for (length, expected) in dots.into_iter().enumerate() {
        assert_eq!(hash(&vec![b'.'; length]), expected);
        let series = [
            operation('J', length as u64, 0, b""),
            operation('O', 0, 0, b""),
            operation('D', 0, 0, b""),
        ];
        let expected = [
            format!("J {length}"),
            format!("O refused 21 0 {expected}"),
            format!("D refused 21 0 expected 0 0 {expected}"),
        ];
        assert_eq!(lines(&series.concat()), expected);
    }
    assert_eq!(hash(b"......."), 42_186_008_302 - 9 * 4_294_967_291);
    assert_eq!(hash(b"\0\0\x01"), 1);
    assert_eq!(hash(b"\xFF\0"), 255 * 31);
}

/// Before the first buffer there is one of no bytes; a poke outside does nothing.
#[test]
fn pokes() {
    assert_eq!(lines(b""), Vec::<String>::new());
    let poke = |offset, byte| operation('P', offset, byte, b"");
    let series = [
        poke(0, 65),
        operation('D', 0, 0, b""),
        operation('J', 2, 0, b""),
        poke(0, 1),
        poke(1, 255),
        poke(2, 9),
        poke(9_999_999_999_999_999_999, 9),
        operation('D', 0, 0, b""),
    ];
    let expected = [
        "D refused 21 0 expected 0 0 0",
        "J 2",
        "D refused 21 0 expected 0 0 286",
    ];
    assert_eq!(lines(&series.concat()), expected);
}

/// A payload of `N` that is too short for a key is a short key and an empty file.
#[test]
fn short_keys() {
    let series = [
        operation('J', 7_680, 0, b""),
        operation('O', 0, 0, b""),
        operation('N', 0, 0, b""),
        operation('N', 3, 0, b""),
        operation('N', 2, 24, &KEY[..24]),
        operation('N', 2, 26, &[KEY, b"x"].concat()),
    ];
    let expected = [
        "N refused 25 0",
        "N refused 1 0",
        "N refused 25 0",
        "N refused 2 0",
    ];
    assert_eq!(lines(&series.concat())[2..], expected);
}

#[test]
fn malformed_series() {
    let sound = b"S 0000000000000000000 00000000\n";
    let mistakes: [&[u8]; 15] = [
        b"S",
        b"S 0000000000000000000 00000000",
        b"S 0000000000000000000 00000000\r",
        b"S0000000000000000000 00000000 \n",
        b"S 000000000000000000  00000000\n",
        b"S 0000000000000000000 0000000-\n",
        b"S 000000000000000000A 00000000\n",
        b"S 0000000000000000000\t00000000\n",
        b"X 0000000000000000000 00000000\n",
        b"s 0000000000000000000 00000000\n",
        b"\n 0000000000000000000 00000000\n",
        b"D 0000000000000000000 00000001\n",
        b"N 0000000000000000000 00000026\n1234500010EUR20001234567A",
        b"P 0000000000000000000 00000256\n",
        b"J 9999999999999999999 00000000\n",
    ];
    for mistake in mistakes {
        assert!(run(mistake).is_err(), "{}", mistake.escape_ascii());
        let behind = [sound, mistake].concat();
        let error = run(&behind).unwrap_err();
        assert!(error.starts_with("operation 2 at byte 31: "), "{error}");
    }
    assert!(run(&sound[..30]).is_err());
    assert_eq!(lines(sound), ["S unsound"]);
}
