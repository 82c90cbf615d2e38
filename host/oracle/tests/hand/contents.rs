//! How much of a journal is used, what an entry says where it stands, and the length of a file.

use crate::shelf::{accounts, blank, refusal, three_months, with};
use oracle::check::{check, records_in, Answer};
use oracle::contents::{listed, Listed};
use oracle::journal::{is_sound, used, Used};
use oracle::read::Refusal;

/// What the second entry of the three months says.
const MARCH_ROW: &[u8; 41] = b"1234500010EUR20001234567A2025022820250331";

/// Bytes before an entry's dates, first body line and number of records.
const DATES: usize = 25;
const PLACE: usize = 37;

/// Asks with a row of so many bytes. Gives the answer and the row after it.
fn asked(journal: &[u8], e: u64, row: usize) -> (Result<Listed, Refusal>, Vec<u8>) {
    let mut row = vec![b'#'; row];
    let answer = listed(journal, e, &mut row);
    (answer, row)
}

fn at(records: usize, first_line: usize) -> Result<Listed, Refusal> {
    Ok(Listed {
        records,
        first_line,
    })
}

/// A refusal with a row that is as it was.
fn untouched(number: u32, row: usize) -> (Result<Listed, Refusal>, Vec<u8>) {
    (refusal(number, 0), vec![b'#'; row])
}

/// The dates as the row has them where the second entry has these twelve bytes.
fn dates(twelve: &[u8; 12]) -> String {
    let journal = with(three_months(), 60 + DATES, twelve);
    let (answer, row) = asked(&journal, 2, 41);
    assert_eq!(answer, at(3, 4));
    assert_eq!(row[..25], MARCH_ROW[..25]);
    String::from_utf8(row[25..].to_vec()).unwrap()
}

/// The answer where the second entry, in a journal of 12 lines, has this first line and number.
fn place(ten: &[u8; 10]) -> Result<Listed, Refusal> {
    let journal = with(three_months(), 60 + PLACE, ten);
    asked(&journal, 2, 41).0
}

#[test]
fn used_of_a_sound_journal() {
    let some = |statements, lines_taken, lines| {
        Ok(Used {
            statements,
            lines_taken,
            lines,
        })
    };
    assert_eq!(used(&three_months()), some(3, 9, 12));
    assert_eq!(used(&blank(0)), some(0, 0, 0));
    assert_eq!(used(&blank(5)), some(0, 0, 5));
    assert_eq!(used(&accounts(128, 256)), some(128, 256, 256));
    assert_eq!(used(&blank(100_000)), some(0, 0, 100_000));
}

#[test]
fn used_of_what_is_no_journal() {
    assert_eq!(used(&with(three_months(), 7_679, b"0")), refusal(21, 0));
    assert_eq!(used(&with(three_months(), 9_119, b"0")), refusal(21, 0));
    for length in [0, 7_560, 7_679, 7_681, 7_740, 12_007_681, 12_007_800] {
        assert_eq!(used(&vec![b' '; length]), refusal(21, 0));
    }
}

#[test]
fn listed_of_a_sound_journal() {
    let journal = three_months();
    let (answer, row) = asked(&journal, 1, 41);
    assert_eq!(answer, at(4, 0));
    assert_eq!(row, b"1234500010EUR20001234567A2025013120250228");
    assert_eq!(asked(&journal, 2, 41), (at(3, 4), MARCH_ROW.to_vec()));
    let (answer, row) = asked(&journal, 3, 41);
    assert_eq!(answer, at(2, 7));
    assert_eq!(row, b"1234500010EUR20001234567A2025033120250430");
    let full = accounts(128, 256);
    let (answer, row) = asked(&full, 128, 41);
    assert_eq!(answer, at(2, 254));
    assert_eq!(row, b"1234500010EUR2000000001272025033120250430");
}

/// 41 bytes are needed; those behind them stay. An entry that there is not comes before.
#[test]
fn listed_in_rows_of_other_lengths() {
    let journal = three_months();
    for row in [0, 1, 40] {
        assert_eq!(asked(&journal, 2, row), untouched(20, row));
        assert_eq!(asked(&journal, 4, row), untouched(25, row));
        assert_eq!(asked(&journal[..9_119], 2, row), untouched(21, row));
    }
    let longer = [&MARCH_ROW[..], &[b'#'; 19]].concat();
    assert_eq!(asked(&journal, 2, 60), (at(3, 4), longer));
}

#[test]
fn listed_of_an_entry_that_there_is_not() {
    let journal = three_months();
    for e in [0, 4, 128, 129, 256 + 2, (1 << 32) + 2, 1 << 63, u64::MAX] {
        assert_eq!(asked(&journal, e, 41), untouched(25, 41), "{e}");
    }
    // Position 44 alone says whether an entry is used.
    let unused = with(journal.clone(), 60 + 43, b" ");
    assert_eq!(asked(&unused, 2, 41), untouched(25, 41));
    let nothing_else = with(journal, 3 * 60 + 43, b"0");
    let (answer, row) = asked(&nothing_else, 4, 41);
    assert_eq!(answer, at(0, 0));
    assert_eq!(row, b"                         0000000000000000");
}

#[test]
fn listed_of_a_length_that_none_has() {
    let journal = three_months();
    for length in [0, 60, 120, 7_679, 9_119] {
        let cut = asked(&journal[..length], 2, 41);
        assert_eq!(cut, untouched(21, 41), "{length}");
    }
    let longer = [&journal[..], b" "].concat();
    assert_eq!(asked(&longer, 2, 41), untouched(21, 41));
    let mut longest = with(vec![b' '; 12_007_680], 0, &journal[..180]);
    assert_eq!(asked(&longest, 2, 41).0, at(3, 4));
    longest.resize(12_007_800, b' ');
    assert_eq!(asked(&longest, 2, 41), untouched(21, 41));
}

/// No sound test is made.
#[test]
fn listed_of_an_unsound_journal() {
    let journal = with(three_months(), 7_679, b"0");
    assert!(!is_sound(&journal));
    assert_eq!(asked(&journal, 2, 41), (at(3, 4), MARCH_ROW.to_vec()));
    let strange: &[u8; 25] = b"\x00\xFF\n| \x7F2345 01EUR?abcdefgh";
    let (answer, row) = asked(&with(journal, 60, strange), 2, 41);
    assert_eq!(answer, at(3, 4));
    assert_eq!(row, [&strange[..], b"2025022820250331"].concat());
}

#[test]
fn listed_dates_of_both_centuries() {
    assert_eq!(dates(b"311299010100"), "1999123120000101");
    assert_eq!(dates(b"010180311279"), "1980010120791231");
    assert_eq!(dates(b"290200290224"), "2000022920240229");
    assert_eq!(dates(b"290280290296"), "1980022919960229");
}

#[test]
fn listed_dates_that_are_none() {
    assert_eq!(dates(b"290225310325"), "0000000020250331");
    assert_eq!(dates(b"280225310425"), "2025022800000000");
    assert_eq!(dates(b"000125320125"), "0000000000000000");
    assert_eq!(dates(b"010025011325"), "0000000000000000");
    assert_eq!(dates(b"      000000"), "0000000000000000");
    assert_eq!(dates(b"2802 528022E"), "0000000000000000");
    // By their low four bits these would be days.
    assert_eq!(dates(b"28022u0:0225"), "0000000000000000");
    assert_eq!(dates(b"\xB10012501012\x05"), "0000000000000000");
}

#[test]
fn listed_lines_that_are_not_there() {
    assert_eq!(place(b"0000090003"), at(3, 9));
    assert_eq!(place(b"0000090004"), refusal(25, 0));
    assert_eq!(place(b"0000100003"), refusal(25, 0));
    assert_eq!(place(b"0000120000"), at(0, 12));
    assert_eq!(place(b"0000130000"), refusal(25, 0));
    assert_eq!(place(b"9999999999"), refusal(25, 0));
    assert_eq!(place(b"0000000012"), at(12, 0));
    assert_eq!(place(b"0000000013"), refusal(25, 0));
}

/// Bytes that are no digits count by their low four bits: blank 0, C 3, colon 10, slash 15.
#[test]
fn listed_places_of_other_bytes() {
    assert_eq!(place(b"     4000C"), at(3, 4));
    assert_eq!(place(b"00000:0002"), at(2, 10));
    assert_eq!(place(b"00000/0000"), refusal(25, 0));
    assert_eq!(place(b"0000100   "), at(0, 10));
    assert_eq!(place(b"@P`p\x80\xB5\x00\xF0\xE0\xD7"), at(7, 5));
    assert_eq!(place(b"000000000\xFC"), at(12, 0));
    assert_eq!(place(b"000000000\xFD"), refusal(25, 0));
    assert_eq!(place(b"//////////"), refusal(25, 0));
}

/// The numbers of records around each limit. 2 to the 64th is 16 more than a multiple of 120 and of
/// 122, and 93 more than one of 121.
#[test]
fn lengths_of_files() {
    for (line_end, length, answer) in [
        (0, 0, Ok(0)),
        (2, 0, Ok(0)),
        (0, 120, Ok(1)),
        (1, 121, Ok(1)),
        (2, 122, Ok(1)),
        (0, 121, Err(2)),
        (1, 120, Err(2)),
        (2, 121, Err(2)),
        (0, 2_400_000, Ok(20_000)),
        (1, 2_420_000, Ok(20_000)),
        (2, 2_440_000, Ok(20_000)),
        (0, 2_399_999, Err(2)),
        (0, 2_400_001, Err(2)),
        (0, 2_400_120, Err(3)),
        (1, 2_420_121, Err(3)),
        (2, 2_440_122, Err(3)),
        (0, u64::MAX, Err(2)),
        (0, u64::MAX - 15, Err(3)),
        (1, u64::MAX - 92, Err(3)),
        (2, u64::MAX - 15, Err(3)),
        (0, 120 << 32, Err(3)),
    ] {
        assert_eq!(records_in(line_end, length), answer, "{line_end} {length}");
    }
}

#[test]
fn lengths_with_line_ends_that_are_none() {
    for line_end in [3, 120, 256, 1 << 32, (1 << 32) + 1, u64::MAX] {
        for length in [0, 1, 120, 121, 2_400_120, u64::MAX] {
            assert_eq!(records_in(line_end, length), Err(1));
        }
    }
}

/// What the length is refused with, the check refuses the file with.
#[test]
fn lengths_and_the_check() {
    for line_end in 0..4 {
        for length in 0..500 {
            let answer = check(line_end, &vec![b'.'; length]);
            if let Err(number) = records_in(line_end, length as u64) {
                assert_eq!(answer, Answer::Refused { number, record: 0 });
            }
        }
    }
}
