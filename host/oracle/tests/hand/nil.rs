//! Amounts of nothing, written with either sign: points N1 to N10, answers derived by hand.

use std::slice::from_ref;

use crate::asked::{asked, UNTOUCHED};
use crate::common::{
    accepted, balance, complement, long_statement, movement, refused, with_complements, worked,
    Sheet, MMO,
};
use crate::series::lines_of;
use crate::shelf::{
    accounts, b, blank, delivered, file, journal, numbered_account, refusal, standstill, stored,
    with, KEY,
};
use oracle::cash::balance as new_balance;
use oracle::check::{amount, check};
use oracle::contents::{listed, Listed};
use oracle::delivery::{deliver, newest, Newest, Source};
use oracle::journal::{as_stored, body, entry, is_sound, open, used, Used};
use oracle::listing::listing;
use oracle::nil::{checks, series};
use oracle::read::{head, movement as read_movement, place, statements, Place, Refusal};
use oracle::show::readings;
use oracle::values::Values;
use oracle::writer::write_statement;

const CREDIT: &str = "0000000000000{";
const DEBIT: &str = "0000000000000}";
const ZEROS: [&str; 2] = [CREDIT, DEBIT];

/// February without a movement.
fn quiet(old: &str, new: &str) -> Sheet {
    Sheet(vec![
        balance("01", "310125", old),
        balance("07", "280225", new),
    ])
}

/// March without a movement: it follows a February that ends at nil.
fn quiet_march(old: &str, new: &str) -> Sheet {
    Sheet(vec![
        balance("01", "280225", old),
        balance("07", "310325", new),
    ])
}

/// February with two movements of nothing: 1 old balance, 2 and 3 movements, 4 new balance.
fn nothing([old, first, second, new]: [&str; 4]) -> Sheet {
    quiet(old, new)
        .with(2, movement("05", "050225", "060225", first))
        .with(3, movement("08", "070225", "070225", second))
}

/// All writings of that statement, the one with credits first.
fn writings() -> Vec<Sheet> {
    let zero = |writing: usize, place: usize| ZEROS[writing >> place & 1];
    let sheet = |writing| nothing([0, 1, 2, 3].map(|place| zero(writing, place)));
    (0..16).map(sheet).collect()
}

/// A nil balance, +7 and -7, a nil balance.
fn there_and_back(old: &str, new: &str) -> Sheet {
    quiet(old, new)
        .with(2, movement("05", "050225", "050225", "0000000000000G"))
        .with(3, movement("08", "070225", "070225", "0000000000000P"))
}

/// 1 old balance, 2 movement, 3 its complement, 4 new balance; amounts with this zero, and the same
/// text in the label, in the reference, and in the complement where other records have the amount.
fn with_texts(zero: &str, text: &str) -> Sheet {
    let information = format!("{:42}{text}", "AVOIR");
    nothing([zero; 4])
        .without(3)
        .set(2, 49, text.as_bytes())
        .set(2, 66, text.as_bytes())
        .set(2, 106, text.as_bytes())
        .with(3, complement("05", "050225", "LIB", &information))
}

/// The entry of February with so many records, at line 0.
fn february_of(records: usize) -> String {
    format!("1234500010EUR20001234567A310125280225000000{records:04}")
}

/// A journal of 12 lines that holds one statement of February.
fn holding(sheet: &Sheet) -> Vec<u8> {
    let entry = february_of(sheet.0.len());
    journal(12, &[&entry], from_ref(sheet))
}

#[test]
fn n1_wherever_an_amount_stands() {
    for old in ZEROS {
        for new in ZEROS {
            assert_eq!(quiet(old, new).answer(), accepted(1, 0, 0));
            assert_eq!(there_and_back(old, new).answer(), accepted(1, 2, 0));
        }
    }
    for sheet in writings() {
        assert_eq!(sheet.answer(), accepted(1, 2, 0));
    }
    // Between amounts that are not nothing.
    let zero = movement("05", "050225", "050225", DEBIT);
    assert_eq!(worked().with(2, zero).answer(), accepted(1, 3, 0));
    // From nothing, and to nothing.
    let seven = movement("05", "050225", "050225", "0000000000000G");
    let sheet = quiet(DEBIT, "0000000000000G").with(2, seven.clone());
    assert_eq!(sheet.answer(), accepted(1, 1, 0));
    let sheet = quiet("0000000000000P", DEBIT).with(2, seven);
    assert_eq!(sheet.answer(), accepted(1, 1, 0));
}

/// 8 at record 1 before.
#[test]
fn n1_sum_wrong() {
    let seven = movement("05", "050225", "050225", "0000000000000G");
    for old in ZEROS {
        for new in ZEROS {
            let sheet = quiet(old, new).with(2, seven.clone());
            assert_eq!(sheet.answer(), refused(13, 3));
        }
    }
}

#[test]
fn n1_numbers_that_8_hid() {
    let quiet = || quiet(DEBIT, DEBIT);
    let sheet = quiet().with(3, quiet().0[1].clone());
    assert_eq!(sheet.answer(), refused(7, 3));
    assert_eq!(quiet().set(1, 35, b"310225").answer(), refused(9, 1));
    assert_eq!(quiet().set(2, 35, b"300225").answer(), refused(9, 2));
    assert_eq!(quiet().set(2, 32, b"B").answer(), refused(10, 2));
    assert_eq!(quiet().set(2, 35, b"300125").answer(), refused(12, 2));
    assert_eq!(quiet().first(1).answer(), refused(14, 1));
    let sheet = nothing([DEBIT; 4]);
    assert_eq!(sheet.clone().set(2, 43, b"290225").answer(), refused(9, 2));
    assert_eq!(sheet.clone().set(3, 12, b"9").answer(), refused(10, 3));
    assert_eq!(sheet.clone().set(3, 35, b"300125").answer(), refused(12, 3));
    let mmo = complement("05", "050225", "MMO", MMO);
    let sheet = sheet.with(3, mmo.clone()).with(4, mmo);
    assert_eq!(sheet.answer(), refused(11, 4));
    // Lower numbers stay, and so does 8 for another zone.
    assert_eq!(quiet().set(1, 120, b"\n").answer(), refused(5, 1));
    assert_eq!(quiet().set(1, 1, b"02").answer(), refused(6, 1));
    assert_eq!(quiet().set(1, 105, b"X").answer(), refused(8, 1));
}

#[test]
fn n1_15_behind_debit_zeros() {
    let long = |records: usize| {
        let lines = 2..records;
        let long = long_statement(records);
        lines.fold(long, |sheet, record| sheet.set(record, 104, b"}"))
    };
    assert_eq!(long(9_999).answer(), accepted(1, 9_997, 0));
    assert_eq!(long(10_000).answer(), refused(15, 10_000));
}

#[test]
fn n1_not_the_amount_of_an_mmo() {
    let sheet = with_complements().set(4, 53, DEBIT.as_bytes());
    assert_eq!(sheet.answer(), refused(8, 4));
    let mmo = complement("05", "050225", "MMO", "USD20000000000000}");
    let sheet = nothing([DEBIT; 4]).with(3, mmo);
    assert_eq!(sheet.answer(), refused(8, 3));
    // Where other records have their amount an MMO is blank.
    let sheet = with_complements().set(4, 91, DEBIT.as_bytes());
    assert_eq!(sheet.answer(), refused(8, 4));
}

#[test]
fn n1_minus_ten() {
    let ten = "0000000000001}";
    assert_eq!(amount(ten.as_bytes()), Some(-10));
    assert_eq!(quiet(ten, ten).answer(), accepted(1, 0, 0));
    assert_eq!(quiet(DEBIT, ten).answer(), refused(13, 2));
    assert_eq!(quiet(ten, DEBIT).answer(), refused(13, 2));
    let sheet = quiet(DEBIT, ten).with(2, movement("08", "050225", "050225", ten));
    assert_eq!(sheet.answer(), accepted(1, 1, 0));
}

#[test]
fn n1_what_is_no_amount() {
    let none = [
        " 000000000000}",
        "000000000000 }",
        "000000000000}}",
        "}0000000000000",
        "-000000000000}",
        "00000000000000",
        "0000000000000]",
        "0000000000000|",
        "0000000000000~",
        "             }",
    ];
    for zone in none {
        assert_eq!(amount(zone.as_bytes()), None);
        assert_eq!(quiet(zone, DEBIT).answer(), refused(8, 1));
        assert_eq!(quiet(DEBIT, zone).answer(), refused(8, 2));
        let sheet = nothing([DEBIT, zone, DEBIT, DEBIT]);
        assert_eq!(sheet.answer(), refused(8, 2));
    }
}

#[test]
fn n2_a_debit_zero_is_0() {
    assert_eq!(ZEROS.map(|zero| amount(zero.as_bytes())), [Some(0); 2]);
    let sheet = nothing([DEBIT; 4]).bytes(b"");
    let (head, _) = head(0, &sheet, 1).unwrap();
    assert_eq!((head.old_balance, head.new_balance), (0, 0));
    for m in [1, 2] {
        assert_eq!(read_movement(0, &sheet, 1, m).unwrap().amount, 0);
    }
}

/// The amount zones alone are stored with a credit.
#[test]
fn n3_text_stays_to_the_byte() {
    let sent = with_texts(DEBIT, DEBIT);
    assert_eq!(sent.answer(), accepted(1, 1, 1));
    let as_it_stands = sent
        .clone()
        .set(1, 104, b"{")
        .set(2, 104, b"{")
        .set(4, 104, b"{");
    let (answer, after) = delivered(&blank(12), &[sent]);
    assert_eq!(answer, stored(1, 0));
    assert!(after == holding(&as_it_stands));
    assert!(after == holding(&with_texts(CREDIT, DEBIT)));
    // 05: positions 91 to 104.
    assert_eq!(&as_it_stands.0[2][90..104], DEBIT.as_bytes());
    assert_eq!(&after[7_680 + 240 + 90..][..14], DEBIT.as_bytes());
}

/// Statements that differ in such a text are two.
#[test]
fn n3_text_with_the_other_sign_is_another_text() {
    // All on one day, so that each follows the other.
    let on_one_day = |text: &str| {
        let sheet = with_texts(DEBIT, text);
        (2..=4).fold(sheet, |sheet, record| sheet.set(record, 35, b"310125"))
    };
    let sheets = [on_one_day(DEBIT), on_one_day(CREDIT)];
    assert_eq!(delivered(&blank(8), &sheets).0, stored(2, 0));
    // In one place only: the label, the reference, the complement.
    for (record, position) in [(2, 62), (2, 119), (3, 104)] {
        let other = sheets[0].clone().set(record, position, b"{");
        assert_ne!(other.0, sheets[0].0);
        let sheets = [sheets[0].clone(), other];
        assert_eq!(delivered(&blank(8), &sheets).0, stored(2, 0));
    }
}

#[test]
fn n3_as_stored() {
    for sheet in writings() {
        assert_eq!(as_stored(&sheet.bytes(b"")), writings()[0].bytes(b""));
    }
    let texts = with_texts(CREDIT, DEBIT).bytes(b"");
    assert_eq!(as_stored(&texts), texts);
    let ten = quiet("0000000000001}", "0000000000001}").bytes(b"");
    assert_eq!(as_stored(&ten), ten);
}

#[test]
fn n4_all_writings_in_one_file() {
    let with_credits = holding(&writings()[0]);
    let (answer, after) = delivered(&blank(12), &writings());
    assert_eq!(answer, stored(1, 15));
    assert!(after == with_credits);
    let backwards: Vec<Sheet> = writings().into_iter().rev().collect();
    let (answer, after) = delivered(&blank(12), &backwards);
    assert_eq!(answer, stored(1, 15));
    assert!(after == with_credits);
    let both = [quiet(DEBIT, DEBIT), quiet(CREDIT, CREDIT)];
    assert_eq!(delivered(&blank(12), &both).0, stored(1, 1));
}

#[test]
fn n4_in_two_files() {
    for first in writings() {
        let (answer, after) = delivered(&blank(12), &[first]);
        assert_eq!(answer, stored(1, 0));
        assert!(after == holding(&writings()[0]));
        for again in writings() {
            let (answer, later) = delivered(&after, &[again]);
            assert_eq!(answer, stored(0, 1));
            assert!(later == after);
        }
    }
}

/// With other line ends too.
#[test]
fn n4_line_ends_aside() {
    let mut journal = blank(4);
    let sent = |sheet: &Sheet, line_end| file(from_ref(sheet), line_end);
    let [debits, credits] = [DEBIT, CREDIT].map(|zero| nothing([zero; 4]));
    assert_eq!(deliver(&mut journal, 2, &sent(&debits, 2)), stored(1, 0));
    assert_eq!(deliver(&mut journal, 0, &sent(&credits, 0)), stored(0, 1));
    assert_eq!(deliver(&mut journal, 1, &sent(&debits, 1)), stored(0, 1));
}

/// Held comes before 22, 23 and 24.
#[test]
fn n4_held_before_all_refusals() {
    // Two lines, both used.
    let full = journal(2, &[&february_of(2)], &[quiet(CREDIT, CREDIT)]);
    assert_eq!(delivered(&full, &[quiet(DEBIT, CREDIT)]).0, stored(0, 1));
    let next = quiet_march(DEBIT, DEBIT);
    assert_eq!(delivered(&full, from_ref(&next)).0, refusal(24, 1));
    // No longer the last of its account.
    let (_, later) = delivered(&blank(4), &[quiet(DEBIT, DEBIT), next]);
    assert_eq!(delivered(&later, &[quiet(CREDIT, DEBIT)]).0, stored(0, 1));
    // 128 entries.
    let (answer, full) = delivered(&accounts(127, 256), &[quiet(DEBIT, DEBIT)]);
    assert_eq!(answer, stored(1, 0));
    assert_eq!(delivered(&full, &[quiet(CREDIT, CREDIT)]).0, stored(0, 1));
    assert_eq!(delivered(&full, &[numbered_account(127)]).0, refusal(23, 1));
}

/// The same period with another label is another statement still.
#[test]
fn n4_a_corrected_statement_is_not_held() {
    let before = holding(&nothing([CREDIT; 4]));
    let corrected = nothing([DEBIT; 4]).set(2, 49, b"CORRECTED");
    assert_eq!(delivered(&before, &[corrected]).0, refusal(22, 1));
    let other_account = b(nothing([DEBIT; 4]));
    assert_eq!(delivered(&before, &[other_account]).0, stored(1, 0));
}

#[test]
fn n5_same_balance_by_value() {
    for new in ZEROS {
        for old in ZEROS {
            let (_, before) = delivered(&blank(12), &[there_and_back(DEBIT, new)]);
            let next = quiet_march(old, old);
            assert_eq!(delivered(&before, from_ref(&next)).0, stored(1, 0));
            let both = [there_and_back(CREDIT, new), next];
            assert_eq!(delivered(&blank(12), &both).0, stored(2, 0));
            assert_eq!(delivered(&before, &both).0, stored(1, 1));
        }
    }
}

#[test]
fn n5_does_not_follow() {
    let before = holding(&quiet(CREDIT, CREDIT));
    for zone in ["0000000000001}", "0000000000000J", "0000000000000A"] {
        assert_eq!(
            delivered(&before, &[quiet_march(zone, zone)]).0,
            refusal(22, 1)
        );
    }
    let early = quiet_march(DEBIT, DEBIT).set(1, 35, b"270225");
    assert_eq!(delivered(&before, &[early]).0, refusal(22, 1));
    let late = quiet_march(DEBIT, DEBIT).set(1, 35, b"010325");
    assert_eq!(delivered(&before, &[late]).0, stored(1, 0));
    // A debit zero after a balance.
    let before = holding(&worked());
    assert_eq!(
        delivered(&before, &[quiet_march(DEBIT, DEBIT)]).0,
        refusal(22, 1)
    );
}

/// A part of the file has the file's own bytes.
#[test]
fn n6_parts_of_the_file() {
    let sheet = worked().then(nothing([DEBIT; 4]));
    for (line_end, end) in [(0, &b""[..]), (1, b"\n"), (2, b"\r\n")] {
        let file = sheet.bytes(end);
        let Place { first, length } = place(line_end, &file, 2).unwrap();
        let part = &file[first..first + length];
        assert!(part == nothing([DEBIT; 4]).bytes(end));
        assert_eq!(check(line_end, part), accepted(1, 2, 0));
    }
}

/// The bytes of the newest statement of the worked account, and where they are from.
fn newest_bytes(journal: &[u8], line_end: u64, file: &[u8]) -> (Source, Vec<u8>) {
    let Newest { source, place, .. } = newest(journal, line_end, file, KEY).unwrap();
    let from = match source {
        Source::Journal => journal,
        Source::File => file,
    };
    (source, from[place.first..][..place.length].to_vec())
}

#[test]
fn n6_newest_before_a_delivery_and_after_it() {
    let [debits, credits] = [DEBIT, CREDIT].map(|zero| nothing([zero; 4]));
    let mut journal = blank(12);
    let sent = debits.bytes(b"\n");
    let from_file = (Source::File, sent.clone());
    assert_eq!(newest_bytes(&journal, 1, &sent), from_file);
    assert_eq!(deliver(&mut journal, 1, &sent), stored(1, 0));
    // All writings are held now: the journal's part.
    let from_journal = (Source::Journal, credits.bytes(b""));
    assert_eq!(newest_bytes(&journal, 1, &sent), from_journal);
    assert_eq!(newest_bytes(&journal, 0, b""), from_journal);
    for sheet in writings() {
        let again = sheet.bytes(b"\r\n");
        assert_eq!(newest_bytes(&journal, 2, &again), from_journal);
    }
    assert_eq!(body(&journal, 1), Ok(&credits.bytes(b"")[..]));
    // A new one, and behind it another writing of it.
    let next = [quiet_march(DEBIT, CREDIT), quiet_march(CREDIT, CREDIT)];
    let from_file = (Source::File, next[0].bytes(b"\n"));
    assert_eq!(newest_bytes(&journal, 1, &file(&next, 1)), from_file);
}

/// Every call but the opening.
fn every_call_is_21(journal: &[u8]) {
    assert!(!is_sound(journal));
    assert_eq!(entry(journal, 1), refusal(21, 0));
    assert_eq!(body(journal, 1), refusal(21, 0));
    assert_eq!(used(journal), refusal(21, 0));
    for sheets in [&[][..], &[nothing([CREDIT; 4])], &[nothing([DEBIT; 4])]] {
        assert_eq!(delivered(journal, sheets).0, refusal(21, 0));
        let file = file(sheets, 1);
        assert_eq!(newest(journal, 1, &file, KEY), refusal(21, 0));
    }
    let unsound = Refusal {
        number: 21,
        record: 0,
    };
    assert_eq!(
        asked(journal, KEY, (20250205, 20250205), 1),
        (Err(unsound), vec![UNTOUCHED])
    );
    assert_eq!(new_balance(journal, 1), None);
    let mut opened = journal.to_vec();
    assert_eq!(open(&mut opened), Ok(()));
    assert!(is_sound(&opened));
}

#[test]
fn n7_a_debit_zero_in_a_body() {
    assert!(is_sound(&holding(&writings()[0])));
    for sheet in &writings()[1..] {
        assert_eq!(sheet.answer(), accepted(1, 2, 0));
        every_call_is_21(&holding(sheet));
    }
    // Planted in the second of two bodies.
    let sheets = [nothing([DEBIT; 4]), quiet_march(DEBIT, DEBIT)];
    let (_, two) = delivered(&blank(12), &sheets);
    assert!(is_sound(&two));
    for record in [4, 5] {
        every_call_is_21(&with(two.clone(), 7_680 + 120 * record + 103, b"}"));
    }
}

/// Free text is no amount.
#[test]
fn n7_text_in_a_body() {
    assert!(is_sound(&holding(&with_texts(CREDIT, DEBIT))));
    assert!(!is_sound(&holding(&with_texts(DEBIT, DEBIT))));
    // An amount that ends with this sign.
    let ten = quiet("0000000000001}", "0000000000001}");
    assert!(is_sound(&holding(&ten)));
}

/// One statement in two writings, by two entries.
#[test]
fn n7_two_writings_of_one_statement() {
    let nil = |zero: &str| {
        let zero = zero.as_bytes();
        standstill().set(1, 91, zero).set(2, 91, zero)
    };
    let entries = [
        "1234500010EUR20001234567A3004253004250000000002",
        "1234500010EUR20001234567A3004253004250000020002",
    ];
    for (first, second) in [(CREDIT, DEBIT), (DEBIT, CREDIT), (CREDIT, CREDIT)] {
        let twice = journal(4, &entries, &[nil(first), nil(second)]);
        assert!(!is_sound(&twice));
    }
    assert!(is_sound(&journal(4, &entries[..1], &[nil(CREDIT)])));
}

/// What is read from any writing is written with credits. Two files may say the same.
#[test]
fn n8_the_writer_writes_credits() {
    let credits = writings()[0].bytes(b"");
    let values = Values::of(&statements(0, &credits).unwrap()[0]);
    for sheet in writings() {
        let file = sheet.bytes(b"");
        let list = statements(0, &file).unwrap();
        assert_eq!(Values::of(&list[0]), values);
        let mut out = vec![b'.'; 480];
        let Values {
            head,
            rows,
            complements,
        } = Values::of(&list[0]);
        let answer = write_statement(&head, &rows, &complements, &mut out);
        assert_eq!((answer, &out), (Ok(480), &credits));
    }
}

/// No amount stands in the positions that a 05 shares with its 04.
#[test]
fn n9_complements_of_a_nil_movement() {
    for zero in ZEROS {
        let sheet = nothing([zero; 4])
            .with(3, complement("05", "050225", "LIB", zero))
            .with(4, complement("05", "050225", "MMO", MMO));
        assert_eq!(sheet.answer(), accepted(1, 2, 2));
        let other = sheet.set(3, 40, b"6");
        assert_eq!(other.answer(), refused(10, 3));
    }
}

#[test]
fn n10_listing_and_readings() {
    let expected = "\
S 12345 00010 0001234567A EUR 2 2025-01-31 0 2 2025-02-28 0
M 2025-02-05 2025-02-06 05 0
M 2025-02-07 2025-02-07 08 0
OK 1
";
    let credits = readings(1, &writings()[0].bytes(b"\n"));
    for sheet in writings() {
        let file = sheet.bytes(b"\n");
        assert_eq!(listing(&file), expected);
        assert_eq!(readings(1, &file), credits);
    }
    assert_eq!(
        credits[0],
        "S 0 484 12345 00010 EUR 2 0001234567A 20250131 0 20250228 0 2"
    );
}

/// Entries, lines and balances are those of any statement.
#[test]
fn n10_entries() {
    let (_, journal) = delivered(&blank(12), &[nothing([DEBIT; 4])]);
    let mut row = [b'#'; 41];
    let place = Listed {
        records: 4,
        first_line: 0,
    };
    assert_eq!(listed(&journal, 1, &mut row), Ok(place));
    assert_eq!(&row, b"1234500010EUR20001234567A2025013120250228");
    let taken = Used {
        statements: 1,
        lines_taken: 4,
        lines: 12,
    };
    assert_eq!(used(&journal), Ok(taken));
    assert_eq!(new_balance(&journal, 1), Some(0));
    let (answer, table) = asked(&journal, KEY, (20250205, 20250207), 3);
    assert_eq!((answer, table), (Ok(3), vec![0; 3]));
}

// The vectors that go to the replay.

/// Each says what it expects.
#[test]
fn vectors_get_the_answer_they_expect() {
    for case in checks() {
        let answer = check(case.line_end, &case.bytes);
        assert_eq!(case.expected, Some(answer), "{}", case.name);
    }
}

fn lines(name: &str) -> Vec<String> {
    lines_of(&series(), name)
}

/// Four texts with the other sign, each twice in a file, the one that is held between them.
#[test]
fn lines_of_the_texts() {
    let expected = [
        "J 10080",
        "O opened",
        "D stored 1 held 0",
        "D stored 0 held 1",
        "D stored 1 held 2",
        "D stored 1 held 2",
        "D stored 1 held 2",
        "D stored 1 held 2",
        "S sound",
        "E at 7680 480",
        "E at 9600 480",
        "E refused 25 0",
    ];
    assert_eq!(lines("N3-texts"), expected);
}

#[test]
fn lines_of_one_file() {
    let two_writings = [
        "J 8160",
        "O opened",
        "D stored 1 held 1",
        "E at 7680 240",
        "E refused 25 0",
    ];
    let all_writings = [
        "J 8160",
        "O opened",
        "N file 0 484 1",
        "D stored 1 held 15",
        "N journal 7680 480 0",
        "E at 7680 480",
        "E refused 25 0",
        "S sound",
    ];
    let expected = [
        &two_writings[..],
        &two_writings,
        &two_writings,
        &all_writings,
    ];
    assert_eq!(lines("N4-in-one-file"), expected.concat());
}

#[test]
fn lines_of_two_files() {
    let expected = [
        "J 8160",
        "O opened",
        "D stored 1 held 0",
        "D stored 0 held 1",
        "D stored 0 held 1",
        "D refused 24 1 expected 0 0",
        "J 8160",
        "O opened",
        "D stored 1 held 0",
        "D stored 0 held 1",
        "S sound",
    ];
    assert_eq!(lines("N4-in-two-files"), expected);
}

/// March is stored a day late, and then refused on the day that it should begin.
#[test]
fn lines_of_nil_after_nil() {
    let each = [
        "J 9120",
        "O opened",
        "D stored 1 held 0",
        "D refused 22 1 expected 20250228 0",
        "D stored 1 held 0",
        "D refused 22 1 expected 20250331 0",
        "D refused 22 5 expected 20250331 0",
        "S sound",
    ];
    let in_one_file = [
        "J 9120",
        "O opened",
        "D stored 2 held 0",
        "E at 7680 480",
        "E at 8160 240",
    ];
    let expected = [&each[..], &each, &each, &in_one_file];
    assert_eq!(lines("N5-nil-follows-nil"), expected.concat());
}

#[test]
fn lines_of_parts() {
    let before = [
        "J 9120",
        "O opened",
        "N file 0 480 0",
        "N file 0 484 1",
        "N file 0 488 2",
        "D stored 1 held 0",
    ];
    let held = ["N journal 7680 480 0"; 7];
    let next = ["N file 484 242 1", "E at 7680 480"];
    let expected = [&before[..], &held, &next];
    assert_eq!(lines("N6-parts"), expected.concat());
}

/// In four amounts and four texts.
#[test]
fn lines_of_bodies() {
    let amount = [
        "S unsound",
        "E refused 21 0",
        "E refused 21 0",
        "D refused 21 0 expected 0 0",
        "N refused 21 0",
        "S sound",
    ];
    let text = [
        "S sound",
        "E at 7680 600",
        "E refused 25 0",
        "D stored 0 held 0",
        "N journal 7680 600 0",
        "S sound",
    ];
    let mut expected = vec!["J 8640", "O opened", "D stored 1 held 0"];
    expected.extend(amount.repeat(4));
    expected.extend(text.repeat(4));
    expected.push("D stored 0 held 1");
    assert_eq!(lines("N7-debit-zeros-in-bodies"), expected);
}
