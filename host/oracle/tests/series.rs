//! Generated series against simple statements of what a journal holds and answers.
//!
//! The statements of a file or of body lines are cut here by this test's own code: a statement
//! ends with its 07. Those of a file are taken as a journal stores them, with credits for zeros.

mod keys;
mod zeros;

use std::cmp::Ordering;
use std::collections::BTreeSet;

use keys::key_of;
use oracle::delivery::{deliver, newest, Delivered, Newest, Source};
use oracle::journal::{body, entry, is_sound, open};
use oracle::read::{Place, Refusal};
use oracle::series::{operations, perform, run, Operation};
use oracle::series_cases::{large_cases, scenes, series_case, KEPT_JOURNAL, KEPT_SERIES, KINDS};
use zeros::signed;

const TABLE: usize = 7_680;
const SEED: u64 = 21;
/// Each kind comes so many times.
const ROUNDS: usize = 6;

/// A statement's records without line ends.
type Records = Vec<u8>;

/// Cuts lines into statements.
fn cut<'a>(lines: impl Iterator<Item = &'a [u8]>) -> Vec<Records> {
    let mut statements = Vec::new();
    let mut open = Vec::new();
    for line in lines {
        open.extend(&line[..120]);
        if line.starts_with(b"07") {
            statements.push(std::mem::take(&mut open));
        }
    }
    statements
}

fn in_file(line_end: u64, file: &[u8]) -> Vec<Records> {
    let stored = signed(line_end, file, b'{');
    cut(stored.chunks(120 + line_end as usize))
}

/// The statements in the body lines up to the first blank one.
fn in_journal(journal: &[u8]) -> Vec<Records> {
    cut(used_lines(journal))
}

fn used_lines(journal: &[u8]) -> impl Iterator<Item = &[u8]> {
    let lines = journal[TABLE..].chunks(120);
    lines.take_while(|line| line.iter().any(|&byte| byte != b' '))
}

/// The day of a date DDMMYY as a number that grows from day to day.
fn day(date: &[u8]) -> u32 {
    let two = |first: usize| 10 * u32::from(date[first] - b'0') + u32::from(date[first + 1] - b'0');
    let century = if two(4) < 80 { 20 } else { 19 };
    ((100 * century + two(4)) * 100 + two(2)) * 100 + two(0)
}

/// The value of an amount.
fn value(amount: &[u8]) -> i64 {
    let place = |signs: &[u8]| signs.iter().position(|&sign| sign == amount[13]);
    let digits: i64 = std::str::from_utf8(&amount[..13]).unwrap().parse().unwrap();
    match (place(b"{ABCDEFGHI"), place(b"}JKLMNOPQR")) {
        (Some(last), _) => 10 * digits + last as i64,
        (_, last) => -(10 * digits + last.unwrap() as i64),
    }
}

/// The date and the balance with which a statement ends.
fn end_of(records: &[u8]) -> (u32, i64) {
    let closes = &records[records.len() - 120..];
    (day(&closes[34..40]), value(&closes[90..104]))
}

/// How a statement opens behind another of its account: whether its 01 has the balance of the other's
/// 07, and whether its day is earlier or later. As they are stored, equal balances have equal bytes.
fn behind(next: &[u8], last: &[u8]) -> (bool, Ordering) {
    let (opens, closes) = (&next[..120], &last[last.len() - 120..]);
    let days = day(&opens[34..40]).cmp(&day(&closes[34..40]));
    (opens[90..104] == closes[90..104], days)
}

/// The last statement of the same account, if there is one.
fn last_of_account<'a>(list: &'a [Records], statement: &[u8]) -> Option<&'a Records> {
    let key = key_of(statement);
    list.iter().rev().find(|records| key_of(records) == key)
}

/// A file of these statements with another line end and this sign for zeros.
fn rewritten(statements: &[Records], line_end: u64, sign: u8) -> Vec<u8> {
    let end: &[u8] = [&b""[..], b"\n", b"\r\n"][line_end as usize];
    let records = statements.iter().flat_map(|records| records.chunks(120));
    let file: Vec<u8> = records.flat_map(|record| [record, end].concat()).collect();
    signed(line_end, &file, sign)
}

/// What is watched while a series runs.
#[derive(Default)]
struct Watch {
    journal: Vec<u8>,
    /// The journal after the last delivery or opening, and the statements that were delivered
    /// without refusal since the opening, in order of first arrival, none twice.
    clean: Option<(Vec<u8>, Vec<Records>)>,
    refusals: BTreeSet<u32>,
    deliveries: usize,
    answers: usize,
    /// How many statements were stored that begin after the last one ends, and how many were refused
    /// with 22: for an earlier day alone, for another balance alone, for both.
    days_between: usize,
    do_not_follow: [usize; 3],
    /// How many of these stood in a file behind new statements of their account, and how many behind
    /// new ones of other accounts.
    behind_new_ones: [usize; 2],
}

impl Watch {
    fn series(&mut self, bytes: &[u8]) {
        self.journal.clear();
        self.clean = None;
        for operation in operations(bytes).unwrap() {
            match operation {
                Operation::Journal { .. } => {
                    self.clean = None;
                    self.perform(operation);
                }
                Operation::Poke { .. } => assert_eq!(self.perform(operation), None),
                Operation::Open => self.opening(operation),
                Operation::Deliver { line_end, file } => self.delivery(operation, line_end, file),
                _ => self.question(operation),
            }
        }
    }

    /// Performs an operation and notes its refusal.
    fn perform(&mut self, operation: Operation) -> Option<String> {
        let line = perform(&mut self.journal, operation)?;
        let words: Vec<&str> = line.split(' ').collect();
        if words[1] == "refused" {
            let number = words[2].parse().unwrap();
            self.refusals.insert(number);
            // X2: nothing is expected but with 22. X4: and only of a delivery.
            let nothing = ["expected", "0", "0"];
            let rest = &words[4..];
            assert_eq!(rest.starts_with(&nothing), words[0] == "D" && number != 22);
            assert_eq!(rest.contains(&"expected"), words[0] == "D");
        }
        self.answers += 1;
        Some(line)
    }

    fn opening(&mut self, operation: Operation) {
        let before = self.journal.clone();
        let line = self.perform(operation).unwrap();
        if line.starts_with("O refused 21 0 ") {
            assert!(self.journal == before);
        } else {
            assert!(line.starts_with("O opened "));
            assert!(self.journal.iter().all(|&byte| byte == b' '));
            self.clean = Some((self.journal.clone(), Vec::new()));
        }
    }

    /// Questions leave the journal as it is.
    fn question(&mut self, operation: Operation) {
        let before = self.journal.clone();
        let line = self.perform(operation).unwrap();
        assert!(self.journal == before);
        match operation {
            Operation::Sound => {
                let sound = is_made_by_deliveries(&before);
                assert_eq!(line, if sound { "S sound" } else { "S unsound" });
            }
            Operation::Newest {
                line_end,
                key,
                file,
            } => assert_newest(&before, line_end, key, file),
            _ => {}
        }
    }

    /// A refusal changes no byte. Otherwise the list grows by what it did not have.
    fn delivery(&mut self, operation: Operation, line_end: u64, file: &[u8]) {
        let before = self.journal.clone();
        let sound = is_sound(&before);
        let line = self.perform(operation).unwrap();
        assert_eq!(line.starts_with("D refused 21 0 "), !sound);
        if line.starts_with("D refused ") {
            assert!(self.journal == before);
            self.refused_statement(&before, &line, line_end, file);
            return;
        }
        self.deliveries += 1;
        assert!(is_sound(&self.journal));
        let mut list = self.list_before(&before);
        let sent = in_file(line_end, file);
        let mut stored = 0;
        for statement in &sent {
            if !list.contains(statement) {
                if let Some(last) = last_of_account(&list, statement) {
                    let (same_balance, days) = behind(statement, last);
                    assert!(same_balance && days != Ordering::Less);
                    self.days_between += usize::from(days == Ordering::Greater);
                }
                list.push(statement.clone());
                stored += 1;
            }
        }
        let held = sent.len() - stored;
        assert!(line.starts_with(&format!("D stored {stored} held {held} ")));
        assert_holds(&self.journal, &list);
        assert_retries(&self.journal, &sent);
        self.clean = Some((self.journal.clone(), list));
    }

    /// For 22, 23, 24: without the statement at that record and all behind it the file is delivered,
    /// and then that statement alone has the same refusal, at its first record. It is none of those
    /// that are held then. With 22 it has another balance than the last of its account, or an earlier
    /// day; with 23 and 24 neither. What is expected with 22 is the end of that last one.
    fn refused_statement(&mut self, journal: &[u8], line: &str, line_end: u64, file: &[u8]) {
        let words: Vec<&str> = line.split(' ').collect();
        let (number, record): (u32, u64) = (words[2].parse().unwrap(), words[3].parse().unwrap());
        if !(22..=24).contains(&number) {
            return;
        }
        let sent = in_file(line_end, file);
        let index = (0..sent.len()).find(|&index| place_of(&sent, index) as u64 + 1 == record);
        let (before, from_there) = sent.split_at(index.unwrap());
        let mut copy = journal.to_vec();
        assert!(deliver(&mut copy, 0, &before.concat()).is_ok());
        let alone = deliver(&mut copy, 0, &from_there[0]).map_err(|refused| refused.refusal);
        assert_eq!(alone, Err(Refusal { number, record: 1 }));
        let list = in_journal(&copy);
        assert!(!list.contains(&from_there[0]));
        let last = last_of_account(&list, &from_there[0]);
        let opens = last.map(|last| behind(&from_there[0], last));
        let reason = match opens {
            Some((true, Ordering::Less)) => 0,
            Some((false, Ordering::Less)) => 2,
            Some((false, _)) => 1,
            Some((true, _)) | None => return assert_ne!(number, 22),
        };
        assert_eq!(number, 22);
        self.do_not_follow[reason] += 1;
        let (date, balance) = end_of(last.unwrap());
        assert_eq!(words[5..7], [date.to_string(), balance.to_string()]);
        let new = &list[in_journal(journal).len()..];
        let is_own = |records: &Records| key_of(records) == key_of(&from_there[0]);
        self.behind_new_ones[0] += usize::from(new.iter().any(is_own));
        self.behind_new_ones[1] += usize::from(!new.iter().all(is_own));
    }

    /// The list so far. After pokes that left the journal sound it is what the body lines say.
    fn list_before(&self, journal: &[u8]) -> Vec<Records> {
        match &self.clean {
            Some((clean, list)) if clean == journal => list.clone(),
            _ => in_journal(journal),
        }
    }
}

/// A journal is sound if and only if delivering what stands in its lines, one by one, to a fresh
/// one makes the same bytes.
fn is_made_by_deliveries(journal: &[u8]) -> bool {
    let mut fresh = journal.to_vec();
    if open(&mut fresh).is_err() {
        return false;
    }
    let stored = Ok(Delivered { stored: 1, held: 0 });
    let mut all = in_journal(journal).into_iter();
    all.all(|records| deliver(&mut fresh, 0, &records) == stored) && fresh == journal
}

/// The journal holds this list, entry by entry, and nothing else.
fn assert_holds(journal: &[u8], list: &[Records]) {
    let mut first = TABLE;
    for (e, records) in (1..).zip(list) {
        let length = records.len();
        assert_eq!(entry(journal, e), Ok(Place { first, length }));
        assert!(body(journal, e) == Ok(&records[..]));
        first += length;
    }
    assert!(journal[first..].iter().all(|&byte| byte == b' '));
    let none = Err(Refusal {
        number: 25,
        record: 0,
    });
    assert_eq!(entry(journal, list.len() as u64 + 1), none);
    assert_eq!(entry(journal, 0), none);
}

/// What was delivered is held, with each of the line ends and either zero.
fn assert_retries(journal: &[u8], sent: &[Records]) {
    for (line_end, sign) in [(0, b'{'), (1, b'}'), (2, b'{'), (0, b'}')] {
        let mut copy = journal.to_vec();
        let held = Delivered {
            stored: 0,
            held: sent.len() as u64,
        };
        let answer = deliver(&mut copy, line_end, &rewritten(sent, line_end, sign));
        assert_eq!(answer, Ok(held));
        assert!(copy == journal);
    }
}

/// The newest statement is the account's last after a delivery. It comes from the journal if it
/// was there before, else from its first place in the file.
fn assert_newest(journal: &[u8], line_end: u64, key: &[u8], file: &[u8]) {
    let mut copy = journal.to_vec();
    let answer = deliver(&mut copy, line_end, file).map_err(|refused| refused.refusal);
    let expected = answer.and_then(|_| {
        let after = in_journal(&copy);
        let mut last_first = after.iter().rev();
        let last = last_first.find(|records| key_of(records) == key);
        let last = last.ok_or(Refusal {
            number: 25,
            record: 0,
        })?;
        let before = in_journal(journal);
        Ok(match place_in(&before, last) {
            Some(record) => Newest {
                source: Source::Journal,
                place: Place {
                    first: TABLE + 120 * record,
                    length: last.len(),
                },
                line_end: 0,
            },
            None => {
                let line = 120 + line_end as usize;
                let record = place_in(&in_file(line_end, file), last).unwrap();
                let place = Place {
                    first: line * record,
                    length: line * (last.len() / 120),
                };
                Newest {
                    source: Source::File,
                    place,
                    line_end,
                }
            }
        })
    });
    assert_eq!(newest(journal, line_end, file, key), expected);
}

/// How many records stand before the first statement with these records.
fn place_in(list: &[Records], wanted: &Records) -> Option<usize> {
    let index = list.iter().position(|records| records == wanted)?;
    Some(place_of(list, index))
}

/// How many records stand before the statement of that index.
fn place_of(list: &[Records], index: usize) -> usize {
    list[..index]
        .iter()
        .map(|records| records.len() / 120)
        .sum()
}

/// Every kind in turn; among them all refusals but those that need large files.
#[test]
fn generated_series_keep_the_rules() {
    let mut watch = Watch::default();
    for index in 0..ROUNDS * KINDS.len() {
        watch.series(&series_case(SEED, index).bytes);
    }
    let expected: BTreeSet<u32> = (1..=14).filter(|&n| n != 3).chain(21..=25).collect();
    assert_eq!(watch.refusals, expected);
    println!("{} deliveries, {} answers", watch.deliveries, watch.answers);
    assert!(watch.deliveries > 900);
    let (days_between, do_not_follow) = (watch.days_between, watch.do_not_follow);
    assert!(days_between > 150, "{days_between}");
    assert!(
        do_not_follow.iter().all(|&count| count > 50),
        "{do_not_follow:?}"
    );
    let [own, others] = watch.behind_new_ones;
    assert!(own > 100 && others > 80, "{own} {others}");
}

#[test]
fn large_series_keep_the_rules() {
    let mut watch = Watch::default();
    for case in large_cases() {
        watch.series(&case.bytes);
    }
    let expected = BTreeSet::from([3, 15, 21, 24, 25]);
    assert_eq!(watch.refusals, expected);
}

#[test]
fn kept_series_are_small() {
    for index in 0..6 * ROUNDS * KINDS.len() {
        let case = series_case(SEED + 1, index);
        assert_eq!(case.name, KINDS[index % KINDS.len()].0);
        assert!(case.bytes.len() <= KEPT_SERIES, "{}", case.name);
        for operation in operations(&case.bytes).unwrap() {
            if let Operation::Journal { length } = operation {
                assert!(length <= KEPT_JOURNAL, "{}", case.name);
            }
        }
    }
}

/// The same seed and index give the same series; others give others.
#[test]
fn seeds_decide() {
    for index in 0..KINDS.len() {
        let bytes = |seed, index| series_case(seed, index).bytes;
        assert!(bytes(1, index) == bytes(1, index));
        assert!(bytes(1, index) != bytes(2, index));
        assert!(bytes(1, index) != bytes(1, index + KINDS.len()));
    }
}

#[test]
fn operations_are_written_back() {
    for index in 0..KINDS.len() {
        let bytes = series_case(SEED, index).bytes;
        let operations = operations(&bytes).unwrap();
        let written: Vec<u8> = operations.iter().flat_map(Operation::bytes).collect();
        assert!(written == bytes);
        let pokes = operations.iter().filter(|&operation| is_poke(operation));
        let lines = operations.len() - pokes.count();
        assert_eq!(run(&bytes).unwrap().len(), lines);
    }
}

fn is_poke(operation: &Operation) -> bool {
    matches!(operation, Operation::Poke { .. })
}

/// A series cut anywhere but between operations is a mistake, never a crash.
#[test]
fn cut_series_are_mistakes() {
    let bytes = series_case(SEED, 1).bytes;
    let mut ends = BTreeSet::from([0]);
    let mut end = 0;
    for operation in operations(&bytes).unwrap() {
        end += operation.bytes().len();
        ends.insert(end);
    }
    for end in 0..=bytes.len() {
        assert_eq!(operations(&bytes[..end]).is_ok(), ends.contains(&end));
    }
}

/// Each damage leaves the journal sound or not, as it says; the journal before it is the one
/// that delivery makes.
#[test]
fn damages_do_what_they_say() {
    for seed in 0..60 {
        for scene in scenes(seed) {
            let mut journal = vec![b'.'; TABLE + 120 * scene.lines];
            open(&mut journal).unwrap();
            for statement in &scene.list {
                deliver(&mut journal, 0, &statement.records.concat()).unwrap();
            }
            assert!(journal == scene.bytes);
            for damage in &scene.damages {
                assert!(damage.bytes != scene.bytes, "{}", damage.name);
                assert_eq!(is_sound(&damage.bytes), damage.sound, "{}", damage.name);
                assert_eq!(is_made_by_deliveries(&damage.bytes), damage.sound);
            }
        }
    }
}
