//! The readings of the readers (C) as small vectors, expected answers derived by hand.

use crate::common::{
    accepted, balance, empty_statement, movement as plain_movement, with_complements, worked, Sheet,
};
use crate::outcomes::outcomes;
use oracle::check::check;
use oracle::read::{complement, head, movement, place, Head, Key, Place, Refusal, Row};
use oracle::show::{complement_line, head_line, line, place_line, readings, row_line};

const LINE_ENDS: [(u64, &[u8]); 3] = [(0, b""), (1, b"\n"), (2, b"\r\n")];

fn refused<T>(number: u32, record: u64) -> Result<T, Refusal> {
    Err(Refusal { number, record })
}

const LABEL: &str = " VIREMENT  de 'X' {~}  123     ";
const REFERENCE: &str = " REF|0001  z ~  ";

/// A 04 with every zone filled.
fn full_movement() -> Vec<u8> {
    let key = "00010EUR2 0001234567A";
    let record =
        format!("0412345a| 1{key}A305022557311279{LABEL}  0012345 00000000000421P{REFERENCE}");
    assert_eq!(record.len(), 120);
    record.into_bytes()
}

/// One statement with the full movement.
fn full() -> Sheet {
    Sheet(vec![
        balance("01", "310125", "0000000010000{"),
        full_movement(),
        balance("07", "280225", "0000000009578C"),
    ])
}

/// Three statements of 7, 2 and 4 records.
fn three() -> Sheet {
    with_complements().then(empty_statement()).then(worked())
}

/// The head of the worked statement.
fn worked_head() -> Head<'static> {
    Head {
        key: Key {
            bank: b"12345",
            branch: b"00010",
            currency: b"EUR",
            decimals: b'2',
            account: b"0001234567A",
        },
        old_date: 20250131,
        old_balance: 100_000,
        new_date: 20250228,
        new_balance: 120_833,
    }
}

/// Its first movement, with so many complements.
fn worked_row(complements: u64) -> Row<'static> {
    Row {
        internal: b"    ",
        code: b"05",
        booked: 20250205,
        reject: b"  ",
        value: 20250206,
        label: b"                               ",
        entry: 0,
        exempt: b'0',
        unavailable: b'0',
        amount: 25_050,
        reference: b"                ",
        complements,
    }
}

#[test]
fn c1_the_whole_file_is_judged_first() {
    // The fault is in statement 2, record 7; statement 1 is right.
    let file = worked().then(worked()).set(7, 81, b"X").bytes(b"");
    for numbers in [[1, 1, 1], [0, 0, 0], [2, 1, 1], [9, 9, 9]] {
        assert_eq!(outcomes(0, &file, numbers), [refused(8, 7); 4]);
    }
    // The same for refusals without a record and for an open statement at the end.
    let file = worked().bytes(b"\n");
    for numbers in [[1, 1, 1], [0, 0, 0], [9, 9, 9]] {
        assert_eq!(outcomes(3, &file, numbers), [refused(1, 0); 4]);
        assert_eq!(outcomes(0, &file, numbers), [refused(2, 0); 4]);
        let open = worked().then(worked().first(1)).bytes(b"\n");
        assert_eq!(outcomes(1, &open, numbers), [refused(14, 5); 4]);
    }
}

#[test]
fn c2_order_of_16_and_17() {
    let file = three().bytes(b"");
    // No such statement comes before no such movement or complement.
    assert_eq!(outcomes(0, &file, [4, 9, 9]), [refused(16, 0); 4]);
    assert_eq!(movement(0, &file, 1, 3), refused(17, 0));
    assert_eq!(complement(0, &file, 1, 3, 9), refused(17, 0));
    assert_eq!(complement(0, &file, 1, 1, 4), refused(17, 0));
    // A movement without complements, a statement without movements.
    assert_eq!(complement(0, &file, 1, 2, 1), refused(17, 0));
    assert_eq!(head(0, &file, 2).map(|(_, movements)| movements), Ok(0));
    assert_eq!(movement(0, &file, 2, 1), refused(17, 0));
    assert_eq!(complement(0, &file, 2, 1, 1), refused(17, 0));
}

#[test]
fn c3_numbers_start_at_1_in_each_statement_and_movement() {
    let lib = b"LIBVIREMENT RECU                                                         ";
    let mmo = b"MMOUSD200000000002700                                                    ";
    let npy = b"NPYUN CLIENT                                                             ";
    let file = three().bytes(b"");
    assert_eq!(complement(0, &file, 1, 1, 1), Ok(lib.as_slice()));
    assert_eq!(complement(0, &file, 1, 1, 2), Ok(mmo.as_slice()));
    assert_eq!(complement(0, &file, 1, 1, 3), Ok(npy.as_slice()));
    assert_eq!(movement(0, &file, 1, 1), Ok(worked_row(3)));
    assert_eq!(movement(0, &file, 3, 1), Ok(worked_row(0)));
    let second = movement(0, &file, 3, 2).unwrap();
    assert_eq!((second.code, second.amount), (b"08".as_slice(), -4_217));
    assert_eq!(movement(0, &file, 1, 2), Ok(second));
}

/// At 0 and one past the last, and for the largest number.
#[test]
fn c3_no_such_number() {
    let file = three().bytes(b"");
    for none in [0, 4, u64::MAX] {
        assert_eq!(outcomes(0, &file, [none, 1, 1]), [refused(16, 0); 4]);
    }
    for none in [0, 3, u64::MAX] {
        let expected = [Ok(()), Ok(()), refused(17, 0), refused(17, 0)];
        assert_eq!(outcomes(0, &file, [1, none, 1]), expected);
        assert_eq!(outcomes(0, &file, [3, none, 1]), expected);
    }
    for none in [0, 4, u64::MAX] {
        let expected = [Ok(()), Ok(()), Ok(()), refused(17, 0)];
        assert_eq!(outcomes(0, &file, [1, 1, none]), expected);
    }
    // Nothing is cut to 32 bits.
    let one_more = (1 << 32) + 1;
    assert_eq!(outcomes(0, &file, [one_more, 1, 1]), [refused(16, 0); 4]);
    assert_eq!(movement(0, &file, 1, one_more), refused(17, 0));
    assert_eq!(complement(0, &file, 1, 1, one_more), refused(17, 0));
}

#[test]
fn c3_an_empty_file_has_no_statement() {
    for (line_end, _) in LINE_ENDS {
        for k in [0, 1] {
            assert_eq!(outcomes(line_end, b"", [k, 1, 1]), [refused(16, 0); 4]);
        }
    }
    assert_eq!(outcomes(3, b"", [1, 1, 1]), [refused(1, 0); 4]);
}

/// All zones that are neither key nor reserved, blanks kept.
#[test]
fn c4_fields_of_a_row() {
    let row = Row {
        internal: b"a| 1",
        code: b"A3",
        booked: 20250205,
        reject: b"57",
        value: 20791231,
        label: LABEL.as_bytes(),
        entry: 12_345,
        exempt: b' ',
        unavailable: b'0',
        amount: -4_217,
        reference: REFERENCE.as_bytes(),
        complements: 0,
    };
    assert_eq!(movement(0, &full().bytes(b""), 1, 1), Ok(row));
}

/// Text zones as bytes, dates as YYYYMMDD, entry number and amounts as numbers.
#[test]
fn c5_forms_of_the_fields() {
    let set = |position, bytes: &[u8]| worked().set(2, position, bytes).bytes(b"");
    let entry = |digits: &[u8]| movement(0, &set(82, digits), 1, 1).unwrap().entry;
    assert_eq!(entry(b"0000000"), 0);
    assert_eq!(entry(b"0000010"), 10);
    assert_eq!(entry(b"9999999"), 9_999_999);
    let value = |date: &[u8]| movement(0, &set(43, date), 1, 1).unwrap().value;
    assert_eq!(value(b"010180"), 19800101);
    assert_eq!(value(b"311299"), 19991231);
    assert_eq!(value(b"290200"), 20000229);
    assert_eq!(value(b"311279"), 20791231);
    let reject = set(41, b"07");
    assert_eq!(movement(0, &reject, 1, 1).unwrap().reject, b"07");
    for flags in [b"01", b"10", b" 1", b"0 "] {
        let file = set(89, flags);
        let row = movement(0, &file, 1, 1).unwrap();
        assert_eq!([row.exempt, row.unavailable], *flags);
    }
}

#[test]
fn c5_amounts() {
    // Old balance, one movement, new balance.
    let cases = [
        (
            "0000000000000{",
            "0000000000000{",
            "0000000000000{",
            0,
            0,
            0,
        ),
        (
            "0000000000000A",
            "0000000000000K",
            "0000000000000J",
            1,
            -2,
            -1,
        ),
        (
            "0000000000001}",
            "0000000000002{",
            "0000000000001{",
            -10,
            20,
            10,
        ),
        (
            "9999999999999R",
            "9999999999999I",
            "0000000000000{",
            -MOST,
            MOST,
            0,
        ),
        (
            "9999999999999I",
            "0000000000000{",
            "9999999999999I",
            MOST,
            0,
            MOST,
        ),
    ];
    const MOST: i128 = 99_999_999_999_999;
    for (old, amount, new, old_value, value, new_value) in cases {
        let sheet = Sheet(vec![
            balance("01", "310125", old),
            plain_movement("05", "050225", "050225", amount),
            balance("07", "280225", new),
        ]);
        let file = sheet.bytes(b"");
        let (head, movements) = head(0, &file, 1).unwrap();
        let balances = (head.old_balance, head.new_balance);
        assert_eq!((balances, movements), ((old_value, new_value), 1));
        assert_eq!(movement(0, &file, 1, 1).unwrap().amount, value);
    }
}

/// A refused answer is its number and record and nothing else.
#[test]
fn c6_c7_nothing_stands_beside_a_refusal() {
    let file = worked().bytes(b"");
    assert_eq!(line(place(0, &file, 2), place_line), "refused 16 0");
    assert_eq!(line(head(0, &file, 0), head_line), "refused 16 0");
    assert_eq!(line(movement(0, &file, 1, 3), row_line), "refused 17 0");
    let answer = complement(0, &file, 1, 1, 1);
    assert_eq!(line(answer, complement_line), "refused 17 0");
    assert_eq!(line(place(1, &file, 1), place_line), "refused 2 0");
    let file = worked().set(3, 35, b"310225").bytes(b"");
    assert_eq!(line(head(0, &file, 1), head_line), "refused 9 3");
    assert_eq!(readings(0, &file), ["refused 9 3"]);
}

/// Records x (120 + line end), the 07's line end included.
#[test]
fn c8_statement_parts() {
    let places = [
        (0, [(0, 840), (840, 240), (1080, 480)]),
        (1, [(0, 847), (847, 242), (1089, 484)]),
        (2, [(0, 854), (854, 244), (1098, 488)]),
    ];
    let counts = [accepted(1, 2, 3), accepted(1, 0, 0), accepted(1, 2, 0)];
    for ((line_end, places), (_, end)) in places.into_iter().zip(LINE_ENDS) {
        let file = three().bytes(end);
        for (k, (first, length)) in (1..).zip(places) {
            assert_eq!(place(line_end, &file, k), Ok(Place { first, length }));
            let part = &file[first..first + length];
            assert!(part.starts_with(b"01") && part.ends_with(end));
            assert_eq!(check(line_end, part), counts[k as usize - 1]);
        }
    }
}

/// The readers answer for a part with k 1 what they answer for the file.
#[test]
fn c9_readers_of_one_statement() {
    for (line_end, end) in LINE_ENDS {
        let file = full().then(three()).bytes(end);
        for k in 1..=4 {
            let Place { first, length } = place(line_end, &file, k).unwrap();
            let part = &file[first..first + length];
            assert_eq!(place(line_end, part, 1), Ok(Place { first: 0, length }));
            assert_eq!(head(line_end, part, 1), head(line_end, &file, k));
            for m in 0..4 {
                let of_part = movement(line_end, part, 1, m);
                assert_eq!(of_part, movement(line_end, &file, k, m));
                for c in 0..5 {
                    let of_part = complement(line_end, part, 1, m, c);
                    assert_eq!(of_part, complement(line_end, &file, k, m, c));
                }
            }
            assert_eq!(place(line_end, part, 2), refused(16, 0));
        }
    }
}

#[test]
fn c10_the_movement_count_is_beside_the_head() {
    for (line_end, end) in LINE_ENDS {
        let file = three().bytes(end);
        assert_eq!(head(line_end, &file, 1), Ok((worked_head(), 2)));
        assert_eq!(head(line_end, &file, 3), Ok((worked_head(), 2)));
        let without_movements = Head {
            new_balance: 100_000,
            ..worked_head()
        };
        assert_eq!(head(line_end, &file, 2), Ok((without_movements, 0)));
    }
}

/// The lines that the commands print.
#[test]
fn lines() {
    let file = full().then(with_complements()).bytes(b"\n");
    assert_eq!(line(place(1, &file, 2), place_line), "363|847");
    assert_eq!(
        line(head(1, &file, 2), head_line),
        "12345|00010|EUR|2|0001234567A|20250131|100000|20250228|120833|2"
    );
    assert_eq!(
        readings(1, &file),
        [
            "S 0 363 12345 00010 EUR 2 0001234567A 20250131 100000 20250228 95783 1".to_string(),
            "M a| 1|A3|20250205|57|20791231| VIREMENT  de 'X' {~}  123     |12345| |0|-4217|\
             \u{20}REF|0001  z ~  |0"
                .to_string(),
            "S 363 847 12345 00010 EUR 2 0001234567A 20250131 100000 20250228 120833 2".to_string(),
            format!(
                "M     |05|20250205|  |20250206|{:31}|0|0|0|25050|{:16}|3",
                "", ""
            ),
            format!("C LIB{:70}", "VIREMENT RECU"),
            format!("C MMO{:70}", "USD200000000002700"),
            format!("C NPY{:70}", "UN CLIENT"),
            format!(
                "M     |08|20250207|  |20250207|{:31}|0|0|0|-4217|{:16}|0",
                "", ""
            ),
        ]
    );
    assert_eq!(readings(1, b""), Vec::<String>::new());
}
