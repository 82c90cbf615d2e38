//! The writer against the check: what it writes is read back as the values, and no file reads as
//! the values that it refuses. The records are laid out here by this test's own code as well.

mod replays;
mod runs;
mod zeros;

use std::collections::BTreeMap;

use oracle::journal::as_stored;
use oracle::read::{statements, Refusal};
use oracle::rng::Rng;
use oracle::table_cases::{
    damages, edges, hostile_values, replay_tables, some_values, sweeps, with_complements, TABLES,
};
use oracle::values::{Head, Key, Row, Values};
use oracle::write::valid_case;
use oracle::writer::{movements, writable, write_statement};
use replays::{same_by_command, Reader};
use runs::{mistaken, path};
use zeros::signed;

/// The writer's answer to an output with room for everything.
fn write(values: &Values) -> Option<Vec<u8>> {
    let mut out = vec![b'.'; 9_999 * 120];
    let answer = write_statement(&values.head, &values.rows, &values.complements, &mut out);
    match answer {
        Ok(bytes) => {
            out.truncate(bytes as usize);
            Some(out)
        }
        Err(refusal) => {
            let (number, record) = (19, 0);
            assert_eq!(refusal, Refusal { number, record });
            None
        }
    }
}

/// Whether a file of one statement reads as these values.
fn reads_as(file: &[u8], values: &Values) -> bool {
    match statements(0, file) {
        Ok(list) => list.len() == 1 && Values::of(&list[0]) == *values,
        Err(_) => false,
    }
}

/// The writer writes the records laid out here where they read as the values, and else refuses.
fn assert_agrees(values: &Values, name: &str) -> bool {
    let records = lay_out(values);
    let right = reads_as(&records, values);
    assert_eq!(write(values), right.then_some(records), "{name}");
    right
}

#[test]
fn edges_agree() {
    for edge in edges() {
        let right = assert_agrees(&edge.values, &edge.name);
        assert_eq!(right, edge.number != 19, "{}", edge.name);
    }
}

#[test]
fn sweeps_agree() {
    let list = sweeps();
    let right = list
        .iter()
        .filter(|(name, values)| assert_agrees(values, name));
    let right = right.count();
    assert!(right > 100 && list.len() - right > 100);
}

/// Every byte in every place of the complements of two movements.
#[test]
fn every_byte_of_a_complement_agrees() {
    let base = with_complements();
    for place in 0..base.complements.len() {
        for byte in 0..=255 {
            let mut values = base.clone();
            values.complements[place] = byte;
            let right = reads_as(&lay_out(&values), &values);
            let judged = writable(&values.head, &values.rows, &values.complements);
            assert_eq!(judged, right, "{place} {byte}");
        }
    }
}

#[test]
fn damaged_values_agree() {
    let mut rng = Rng::new(41);
    let damages = damages();
    let mut refused: BTreeMap<&str, usize> = BTreeMap::new();
    for number in 0..20_000 {
        let mut values = some_values(&mut rng);
        assert!(number % 4 != 0 || assert_agrees(&values, "valid"));
        let damage = &damages[number % damages.len()];
        let applied = (damage.apply)(&mut rng, &mut values);
        let right = assert_agrees(&values, damage.name);
        if applied.is_some() && !right {
            *refused.entry(damage.name).or_default() += 1;
        }
        if number % 3 == 0 {
            let second = &damages[rng.index(damages.len())];
            let _ = (second.apply)(&mut rng, &mut values);
            assert_agrees(&values, second.name);
        }
    }
    // Every damage makes values that no file has.
    assert_eq!(refused.len(), damages.len());
}

#[test]
fn hostile_values_agree() {
    let mut rng = Rng::new(42);
    for _ in 0..5_000 {
        assert!(!assert_agrees(&hostile_values(&mut rng), "hostile"));
    }
}

/// Statements of valid files are filled into a table, and written as they stood there, but that
/// zeros are credits. So the journal stores them.
#[test]
fn statements_are_written_back() {
    let mut rng = Rng::new(43);
    for _ in 0..1_000 {
        let case = valid_case(&mut rng);
        let line = 120 + case.line_end as usize;
        let list = statements(case.line_end, &case.bytes).unwrap();
        for (k, statement) in (1..).zip(&list) {
            let values = Values::of(statement);
            let mut table = vec![with_complements().rows[0]; values.rows.len() + 1];
            let count = movements(case.line_end, &case.bytes, k, &mut table).unwrap();
            assert_eq!(table[..count as usize], values.rows);
            let place = statement.place;
            let lines = case.bytes[place.first..][..place.length].chunks(line);
            let records: Vec<u8> = lines.flat_map(|line| &line[..120]).copied().collect();
            let written = write(&values);
            assert!(written == Some(as_stored(&records)));
            assert!(written == Some(signed(0, &records, b'{')));
        }
    }
}

// Records laid out as best possible: of a number the last digits, of complements as many as there
// are.

fn lay_out(values: &Values) -> Vec<u8> {
    let key = &values.head.key;
    let mut records = balance(b"01", key, values.head.old_date, values.head.old_balance);
    let mut complements = values.complements.chunks_exact(73);
    for row in &values.rows {
        records.extend(movement(key, row));
        for _ in 0..row.complements.min(10_000) {
            if let Some(complement) = complements.next() {
                let start = start(b"05", key, &row.internal, &row.code, row.booked);
                records.extend([&start, &b"     "[..], complement, b"  "].concat());
            }
        }
    }
    let Head {
        new_date,
        new_balance,
        ..
    } = values.head;
    records.extend(balance(b"07", key, new_date, new_balance));
    records
}

fn balance(code: &[u8], key: &Key, date: u32, amount: i64) -> Vec<u8> {
    let start = start(code, key, b"    ", b"  ", date);
    [&start, &[b' '; 50][..], &amount_zone(amount), &[b' '; 16]].concat()
}

fn movement(key: &Key, row: &Row) -> Vec<u8> {
    [
        &start(b"04", key, &row.internal, &row.code, row.booked),
        &row.reject[..],
        &date_zone(row.value),
        &row.label,
        b"  ",
        format!("{:07}", row.entry % 10_000_000).as_bytes(),
        &[row.exempt, row.unavailable],
        &amount_zone(row.amount),
        &row.reference,
    ]
    .concat()
}

/// Positions 1 to 40.
fn start(code: &[u8], key: &Key, internal: &[u8], operation: &[u8], date: u32) -> Vec<u8> {
    [
        code,
        &key.bank,
        internal,
        &key.branch,
        &key.currency,
        &[key.decimals, b' '],
        &key.account,
        operation,
        &date_zone(date),
    ]
    .concat()
}

fn date_zone(date: u32) -> Vec<u8> {
    let text = format!("{date:08}");
    let last = &text[text.len() - 6..];
    [&last[4..6], &last[2..4], &last[0..2]]
        .concat()
        .into_bytes()
}

fn amount_zone(amount: i64) -> Vec<u8> {
    let text = format!("{:014}", amount.unsigned_abs());
    let mut zone = text.into_bytes();
    zone.drain(..zone.len() - 14);
    let last = usize::from(zone[13] - b'0');
    zone[13] = match amount < 0 {
        true => b"}JKLMNOPQR"[last],
        false => b"{ABCDEFGHI"[last],
    };
    zone
}

// The file for the replay, read back by this test's own code.

impl Reader<'_> {
    fn zone<const WIDTH: usize>(&mut self) -> [u8; WIDTH] {
        self.take(WIDTH).try_into().unwrap()
    }

    fn four(&mut self) -> u32 {
        self.number(4) as u32
    }

    fn eight(&mut self) -> u64 {
        self.number(8)
    }

    fn signed(&mut self) -> i64 {
        i64::from_le_bytes(self.zone())
    }

    fn head(&mut self) -> Head {
        Head {
            key: Key {
                bank: self.zone(),
                branch: self.zone(),
                currency: self.zone(),
                decimals: self.zone::<1>()[0],
                account: self.zone(),
            },
            old_date: self.four(),
            old_balance: self.signed(),
            new_date: self.four(),
            new_balance: self.signed(),
        }
    }

    fn row(&mut self) -> Row {
        Row {
            internal: self.zone(),
            code: self.zone(),
            booked: self.four(),
            reject: self.zone(),
            value: self.four(),
            label: self.zone(),
            entry: self.four(),
            exempt: self.zone::<1>()[0],
            unavailable: self.zone::<1>()[0],
            amount: self.signed(),
            reference: self.zone(),
            complements: self.eight(),
        }
    }

    fn rows(&mut self, count: u64) -> Vec<Row> {
        (0..count).map(|_| self.row()).collect()
    }

    fn answer(&mut self) -> [u64; 3] {
        [self.eight(), self.eight(), self.eight()]
    }
}

fn numbers(answer: Result<u64, Refusal>) -> [u64; 3] {
    match answer {
        Ok(value) => [0, 0, value],
        Err(refusal) => [u64::from(refusal.number), refusal.record, 0],
    }
}

/// A case that reads: the answer and the rows are those of a fresh call. Gives k and the answer.
fn reread(reader: &mut Reader) -> (u64, [u64; 3]) {
    let (line_end, file, k) = (reader.eight(), reader.bytes(), reader.eight());
    let untouched = with_complements().rows[1];
    let mut table = vec![untouched; reader.eight() as usize];
    let answer = reader.answer();
    let mut expected = reader.rows(answer[2]);
    expected.resize(table.len(), untouched);
    assert_eq!(numbers(movements(line_end, file, k, &mut table)), answer);
    assert!(table == expected);
    (k, answer)
}

/// A case that writes, likewise.
fn rewrite(reader: &mut Reader) -> [u64; 3] {
    let head = reader.head();
    let count = u64::from(reader.four());
    let (rows, complements) = (reader.rows(count), reader.bytes());
    let mut out = vec![b'.'; reader.eight() as usize];
    let answer = reader.answer();
    let mut expected = reader.bytes().to_vec();
    assert_eq!(expected.len() as u64, answer[2]);
    expected.resize(out.len(), b'.');
    let came = write_statement(&head, &rows, complements, &mut out);
    assert_eq!(numbers(came), answer);
    assert!(out == expected);
    answer
}

/// A case that does both: the statement stands in the file.
fn retrip(reader: &mut Reader) {
    let (line_end, file, k) = (reader.eight(), reader.bytes(), reader.eight());
    let count = reader.four() as usize;
    let (head, complements, records) = (reader.head(), reader.bytes(), reader.bytes());
    let mut rows = vec![with_complements().rows[1]; count];
    assert_eq!(movements(line_end, file, k, &mut rows), Ok(count as u64));
    let complements = complements.to_vec();
    let values = Values {
        head,
        rows,
        complements,
    };
    assert!(lay_out(&values) == records);
    assert!(reads_as(records, &values));
}

/// Every refusal of the two calls occurs, about half of what is to be written can be, and the
/// answers are those of the calls.
#[test]
fn tables_are_read_back() {
    let path = path("generated.tables");
    let line = replay_tables(3, 4_000, &path).unwrap();
    assert!(line.starts_with("tables: seed 3, 3923 fixed, 4000 generated: answered "));
    let file = std::fs::read(&path).unwrap();
    let mut reader = Reader(&file);
    let cases = reader.cases(TABLES, 3);
    let mut asked = BTreeMap::new();
    let mut refusals: BTreeMap<(u8, u64), u64> = BTreeMap::new();
    for number in 0..cases {
        assert!(!reader.bytes().is_empty());
        let letter = reader.take(1)[0];
        let answer = match letter {
            b'R' => {
                let (k, answer) = reread(&mut reader);
                asked.insert(k, number);
                answer
            }
            b'W' => rewrite(&mut reader),
            _ => {
                assert_eq!(letter, b'T');
                retrip(&mut reader);
                [0, 0, 0]
            }
        };
        // The generated ones are counted apart.
        let generated = number + 4_000 >= cases;
        let kind = if generated { letter } else { letter + 32 };
        *refusals.entry((kind, answer[0])).or_default() += 1;
    }
    assert!(reader.0.is_empty());
    for number in (0..=16).chain([18]) {
        assert!(refusals.contains_key(&(b'r', number)), "{number}");
    }
    for number in [0, 16, 18] {
        assert!(refusals.contains_key(&(b'R', number)), "{number}");
    }
    for k in [0, 1, 1 << 63, u64::MAX] {
        assert!(asked.contains_key(&k), "{k}");
    }
    assert_eq!(refusals[&(b'T', 0)], 400);
    let [right, short] = [0, 20].map(|number| refusals[&(b'W', number)]);
    assert!((800..1_400).contains(&right), "{right} of 2000");
    assert!(short > 150 && refusals[&(b'W', 19)] > 400);
}

/// The command writes the same file, and mistakes in the call end with 2.
#[test]
fn the_command_for_tables() {
    same_by_command("replay-tables", replay_tables);
    mistaken(&[
        &["replay-tables", "1", "10"],
        &["replay-tables", "1", "0", "no such directory/file"],
    ]);
}
