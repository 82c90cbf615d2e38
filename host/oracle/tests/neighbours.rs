//! One account among its neighbours: the file for the replay, read back by this test's own code.
//!
//! What a file holds is read here from its lines: a statement begins with an 01 and ends with its 07.

mod keys;
mod redelivered;
mod replays;
mod runs;

use std::collections::{BTreeMap, BTreeSet};

use keys::key_of;
use oracle::case_file::Cases;
use oracle::journal::open;
use oracle::neighbours::{replay_neighbours, NEIGHBOURS};
use oracle::recorded::{fnv, Series};
use oracle::replay::add_series;
use oracle::series::Operation;
use redelivered::{deliver_again, Numbers, Whole};
use replays::{same_by_command, Reader};
use runs::{mistaken, path};

const TABLE: usize = 7_680;
const ENTRIES: usize = 128;

/// A delivery with its answer, and how many entries were used before it.
struct Delivery<'a> {
    hers: bool,
    line_end: u64,
    file: &'a [u8],
    answer: Whole,
    entries: usize,
}

impl<'a> Delivery<'a> {
    /// The lines without their ends, where the line-end number is one.
    fn records(&self) -> impl Iterator<Item = &'a [u8]> {
        let file = if self.line_end < 3 { self.file } else { b"" };
        let lines = file.chunks_exact(120 + self.line_end.min(2) as usize);
        lines.map(|line| &line[..120])
    }

    fn refusal(&self) -> u64 {
        self.answer.0[1]
    }

    /// Whether the check accepts the file: the delivery is not refused, or for the journal.
    fn is_accepted(&self) -> bool {
        matches!(self.refusal(), 0 | 22..=24)
    }

    /// The accounts in an accepted file.
    fn keys(&self) -> BTreeSet<Vec<u8>> {
        let records = self.records().filter(|_| self.is_accepted());
        records.map(key_of).collect()
    }
}

/// A run, with what is said to be held of her in the end.
struct Run<'a> {
    length: u64,
    deliveries: Vec<Delivery<'a>>,
    key: &'a [u8],
    statements: u64,
    hash: u64,
    /// What the journal holds in the end.
    journal: Vec<u8>,
}

impl<'a> Run<'a> {
    fn named(&self, hers: bool) -> impl Iterator<Item = &Delivery<'a>> {
        let named = move |delivery: &&Delivery| delivery.hers == hers;
        self.deliveries.iter().filter(named)
    }

    fn answers(&self, hers: bool) -> Vec<Whole> {
        self.named(hers).map(|delivery| delivery.answer).collect()
    }

    fn refusals(&self, hers: bool) -> BTreeSet<u64> {
        self.named(hers).map(Delivery::refusal).collect()
    }

    /// The records of her statements in the body lines, and how many statements they are.
    fn held(&self) -> (u64, Vec<u8>) {
        let lines = self.journal[TABLE..].chunks(120);
        let hers: Vec<&[u8]> = lines.filter(|line| key_of(line) == self.key).collect();
        let statements = hers.iter().filter(|line| line.starts_with(b"07")).count();
        (statements as u64, hers.concat())
    }
}

fn entries_used(journal: &[u8]) -> usize {
    let entries = journal.chunks(60).take(ENTRIES);
    entries.take_while(|entry| entry[0] != b' ').count()
}

/// Reads the runs of a case, and makes all deliveries again.
fn runs_of<'a>(reader: &mut Reader<'a>) -> Vec<Run<'a>> {
    let mut runs = Vec::new();
    let mut journal: Vec<u8> = Vec::new();
    let mut deliveries = Vec::new();
    for _ in 0..reader.number(4) {
        match reader.number(1) as u8 {
            b'J' => {
                assert!(deliveries.is_empty());
                journal = vec![b'.'; reader.number(8) as usize];
            }
            b'O' => {
                open(&mut journal).unwrap();
                assert_eq!(reader.answer(), [0; 6]);
                assert_eq!(reader.number(8), fnv(&journal));
            }
            letter @ (b'D' | b'H') => {
                let (line_end, file) = (reader.number(8), reader.bytes());
                let entries = entries_used(&journal);
                deliveries.push(Delivery {
                    hers: letter == b'H',
                    line_end,
                    file,
                    answer: deliver_again(reader, &mut journal, line_end, file),
                    entries,
                });
            }
            b'L' => {
                reader.take(16);
                reader.answer();
                reader.bytes();
            }
            b'U' => {
                let [kind, .., entries, _, _] = reader.answer();
                assert_eq!((kind, entries as usize), (0, entries_used(&journal)));
                assert_eq!(reader.number(8), fnv(&journal));
            }
            b'X' => runs.push(Run {
                length: journal.len() as u64,
                deliveries: std::mem::take(&mut deliveries),
                key: reader.bytes(),
                statements: reader.number(4),
                hash: reader.number(8),
                journal: std::mem::take(&mut journal),
            }),
            letter => panic!("unknown letter {letter}"),
        }
    }
    assert!(deliveries.is_empty());
    runs
}

/// The names and the runs of all cases of a file.
fn cases_of(file: &[u8], seed: u64) -> Vec<(String, Vec<Run<'_>>)> {
    let mut reader = Reader(file);
    let cases = (0..reader.cases(NEIGHBOURS, seed)).map(|_| {
        let name = String::from_utf8(reader.bytes().to_vec()).unwrap();
        (name, runs_of(&mut reader))
    });
    let cases = cases.collect();
    assert!(reader.0.is_empty());
    cases
}

/// The premises: she is alone in the first run, her deliveries are the same in all, none of them is
/// refused for room, and no accepted file has statements of hers and of others.
fn assert_premises(name: &str, runs: &[Run]) {
    assert_eq!(runs[0].named(false).count(), 0, "{name}");
    let hers = |run: &Run| -> Vec<(u64, Vec<u8>)> {
        let hers = run.named(true);
        hers.map(|one| (one.line_end, one.file.to_vec())).collect()
    };
    for run in runs {
        assert_eq!(run.key.len(), 25);
        assert_eq!(run.key, runs[0].key);
        assert!(hers(run) == hers(&runs[0]), "{name}");
        assert!(
            run.refusals(true).is_disjoint(&[21, 23, 24].into()),
            "{name}"
        );
        for delivery in &run.deliveries {
            let mut keys = delivery.keys();
            let has_hers = keys.remove(run.key);
            assert!(!has_hers || delivery.hers, "{name}");
            assert!(keys.is_empty() || !delivery.hers, "{name}");
        }
    }
}

/// What follows from them: the same answers, and the same statements held in the same order.
fn assert_the_same(name: &str, runs: &[Run]) {
    for run in runs {
        assert_eq!(run.answers(true), runs[0].answers(true), "{name}");
        let (statements, records) = run.held();
        assert_eq!(
            (run.statements, run.hash),
            (statements, fnv(&records)),
            "{name}"
        );
        assert!(run.held() == runs[0].held(), "{name}");
    }
}

/// What the cases show.
#[derive(Default)]
struct Seen {
    hers: BTreeSet<u64>,
    theirs: BTreeSet<u64>,
    /// The zones in which a neighbour's key alone differs from hers.
    zones: BTreeSet<usize>,
    runs: BTreeSet<usize>,
    counts: BTreeMap<&'static str, usize>,
}

impl Seen {
    fn count(&mut self, what: &'static str, seen: bool) {
        *self.counts.entry(what).or_default() += usize::from(seen);
    }

    fn look_at(&mut self, runs: &[Run]) {
        self.runs.insert(runs.len());
        let lengths: BTreeSet<u64> = runs.iter().map(|run| run.length).collect();
        self.count("journals of several lengths", lengths.len() > 1);
        let her_records: BTreeSet<&[u8]> =
            runs[0].named(true).flat_map(Delivery::records).collect();
        let her_files: BTreeSet<Vec<u8>> = runs[0].named(true).map(without_keys).collect();
        for run in runs {
            self.hers.extend(run.refusals(true));
            self.theirs.extend(run.refusals(false));
            let last_line = run.journal[TABLE..].chunks(120).last().unwrap_or(b" ");
            let full = last_line.iter().any(|&byte| byte != b' ');
            self.count("no line left", full && run.named(false).count() > 0);
            for delivery in run.named(true) {
                let [kind, _, _, _, held, _] = delivery.answer.0;
                let full = delivery.entries == ENTRIES;
                self.count("held in a full table", full && kind == 0 && held > 0);
                let astray = delivery.refusal() == 22;
                self.count("does not follow in a full table", full && astray);
            }
            for delivery in run.named(false) {
                self.look_at_theirs(run.key, delivery, &her_records);
                let has_records = delivery.keys().len() == 1;
                let twin = has_records && her_files.contains(&without_keys(delivery));
                self.count("hers but for the key", twin);
            }
        }
    }

    fn look_at_theirs(&mut self, key: &[u8], delivery: &Delivery, her_records: &BTreeSet<&[u8]>) {
        let keys = delivery.keys();
        self.zones
            .extend(keys.iter().filter_map(|theirs| zone_apart(key, theirs)));
        self.count("several neighbours in a file", keys.len() > 1);
        let hers = delivery
            .records()
            .any(|record| her_records.contains(record));
        self.count("her bytes, refused", hers && !delivery.is_accepted());
        self.count("no bytes", delivery.file.is_empty());
    }
}

/// The records of a file with blanks for the key.
fn without_keys(delivery: &Delivery) -> Vec<u8> {
    let mut records: Vec<u8> = delivery.records().collect::<Vec<_>>().concat();
    for record in records.chunks_mut(120) {
        for zone in [2..7, 11..20, 21..32] {
            record[zone].fill(b' ');
        }
    }
    records
}

/// The one zone in which two keys differ: bank, branch, currency, decimals or account.
fn zone_apart(one: &[u8], other: &[u8]) -> Option<usize> {
    let zones = [0..5, 5..10, 10..13, 13..14, 14..25];
    let differ = |zone: &usize| one[zones[*zone].clone()] != other[zones[*zone].clone()];
    let apart: Vec<usize> = (0..zones.len()).filter(differ).collect();
    match apart[..] {
        [zone] => Some(zone),
        _ => None,
    }
}

/// All refusals of the check but 3 and 15, which need large files.
fn of_the_check() -> impl Iterator<Item = u64> {
    (1..=14).filter(|&number| number != 3)
}

/// In each case the premises hold and what follows from them; over all of them everything occurs that
/// they are to try.
#[test]
fn generated_groups_are_read_back() {
    let path = path("generated.neighbours");
    let line = replay_neighbours(8, 160, &path).unwrap();
    assert!(line.starts_with("neighbours: seed 8, 5 fixed, 160 generated, "));
    let file = std::fs::read(&path).unwrap();
    let cases = cases_of(&file, 8);
    let runs: usize = cases.iter().map(|(_, runs)| runs.len()).sum();
    assert!(line.contains(&format!("generated, {runs} runs: answered ")));
    let mut seen = Seen::default();
    for (name, runs) in &cases {
        assert_premises(name, runs);
        assert_the_same(name, runs);
        if name == "generated" {
            seen.look_at(runs);
        }
    }
    let hers: BTreeSet<u64> = of_the_check().chain([0, 22]).collect();
    assert_eq!(seen.hers, hers);
    assert_eq!(seen.theirs, hers.into_iter().chain([23, 24]).collect());
    assert_eq!(seen.zones, (0..5).collect());
    assert_eq!(seen.runs, (3..=6).collect());
    assert!(seen.counts["journals of several lengths"] > 120);
    for (what, count) in seen.counts {
        assert!(count > 0, "{what}");
    }
}

/// Stored and held, with which nothing is expected.
fn stored(stored: u64, held: u64) -> Whole {
    ([0, 0, 0, stored, held, 0], 0, 0)
}

fn refused(number: u64, record: u64) -> Whole {
    ([1, number, record, 0, 0, 0], 0, 0)
}

fn expecting(record: u64, date: u64, balance: i64) -> Whole {
    let numbers: Numbers = [1, 22, record, 0, 0, 0];
    (numbers, date, balance)
}

// The answers to the fixed cases, derived by hand. Her January to April have 3, 4, 3 and 2 records;
// February ends with 120833, March and April with 100005.

/// The file of the fixed cases, for a test of that name.
fn fixed(test: &str) -> Vec<u8> {
    let path = path(&format!("{test}.neighbours"));
    replay_neighbours(9, 0, &path).unwrap();
    std::fs::read(&path).unwrap()
}

/// The runs of a fixed case.
fn runs_named<'a>(file: &'a [u8], wanted: &str) -> Vec<Run<'a>> {
    let mut cases = cases_of(file, 9).into_iter();
    let (_, runs) = cases.find(|(name, _)| name == wanted).unwrap();
    runs
}

/// The refusals of the neighbours, run by run.
fn refusals_of_theirs(runs: &[Run]) -> Vec<BTreeSet<u64>> {
    runs.iter().map(|run| run.refusals(false)).collect()
}

#[test]
fn i2_refused_and_empty_files() {
    let file = fixed("i2");
    let runs = runs_named(&file, "I2-refused-and-empty-files");
    let expected = [
        refused(14, 2),
        stored(1, 0),
        refused(1, 0),
        stored(0, 0),
        refused(8, 2),
        stored(1, 0),
        refused(14, 8),
        stored(1, 0),
        stored(0, 3),
    ];
    assert_eq!(runs[0].answers(true), expected);
    let check: BTreeSet<u64> = of_the_check().collect();
    let all = of_the_check().chain([0, 22]).collect();
    let theirs = [[].into(), check, [0, 1].into(), all];
    assert_eq!(refusals_of_theirs(&runs), theirs);
}

/// In each case the neighbour ends on another day and with another balance, and later on others.
#[test]
fn i3_what_was_expected() {
    let file = fixed("i3");
    let expected = [
        stored(1, 0),
        expecting(1, 20250228, 120_833),
        expecting(4, 20250331, 100_005),
        expecting(5, 20250228, 120_833),
        expecting(1, 20250228, 120_833),
        stored(1, 0),
        expecting(1, 20250331, 100_005),
        expecting(3, 20250430, 100_005),
        stored(1, 0),
    ];
    for (name, first, second) in [
        (
            "I3-later-than-hers",
            (20250331, 100_006),
            (20250430, 100_006),
        ),
        ("I3-corrected", (20250131, 100_000), (20250228, 125_050)),
        (
            "I3-earlier-than-hers",
            (20241130, 95_000),
            (20250131, 100_000),
        ),
    ] {
        let runs = runs_named(&file, name);
        assert_eq!(runs[0].answers(true), expected);
        let among = &runs[1..];
        assert!(among.iter().map(zone_of_neighbour).eq(0..5));
        // Stored and then held, and one that does not follow beside it. What did not follow hers is
        // stored after her March.
        let [first, second] = [first, second].map(|(date, balance)| expecting(1, date, balance));
        let mut theirs = vec![stored(1, 0), first];
        theirs.extend([stored(0, 1), first].repeat(5));
        theirs.push(stored(1, 0));
        theirs.extend([stored(0, 1), second].repeat(3));
        for run in among {
            assert_eq!(run.answers(false), theirs, "{name}");
        }
    }
}

#[test]
fn i5_rooms_of_other_sizes() {
    let file = fixed("i5");
    let runs = runs_named(&file, "I5-rooms-of-other-sizes");
    let expected = [
        stored(1, 0),
        stored(2, 0),
        expecting(4, 20250331, 100_005),
        stored(1, 0),
        stored(0, 4),
    ];
    assert_eq!(runs[0].answers(true), expected);
    let lengths: Vec<u64> = runs.iter().map(|run| run.length).collect();
    assert_eq!(lengths, [9_120, 9_120, 9_360, 39_840, 127_680]);
    let theirs: [&[u64]; 5] = [&[], &[24], &[0, 24], &[0, 23], &[0]];
    let theirs = theirs.map(|refusals| refusals.iter().copied().collect());
    assert_eq!(refusals_of_theirs(&runs), theirs);
    let last = runs[3].named(true).last().unwrap();
    assert_eq!((last.entries, last.answer), (ENTRIES, stored(0, 4)));
}

/// The zone in which the neighbour of a run differs.
fn zone_of_neighbour(run: &Run) -> usize {
    let keys: BTreeSet<Vec<u8>> = run.named(false).flat_map(Delivery::keys).collect();
    let keys: Vec<&Vec<u8>> = keys.iter().collect();
    assert_eq!(keys.len(), 1);
    zone_apart(run.key, keys[0]).unwrap()
}

/// The two letters: a delivery named as hers is written as any other, and a run ends with her key, how
/// many of her statements are held and a hash over them alone.
#[test]
fn letters_by_hand_are_read_back() {
    let path = path("by-hand.neighbours");
    let record = |code: &str, account: &str| {
        let key = format!("12345    00010EUR2 {account}  ");
        let amount = "0000000010000{";
        format!("{code}{key}310325{:50}{amount}{:16}", "", "")
    };
    let of = |account: &str| [record("01", account), record("07", account)].concat();
    let (hers, theirs) = (of("0001234567A"), of("0001234567B"));
    let mut series = Series::new("hand");
    series.perform(Operation::Journal {
        length: TABLE + 480,
    });
    series.perform(Operation::Open);
    series.perform(Operation::Deliver {
        line_end: 0,
        file: theirs.as_bytes(),
    });
    series.deliver_hers(0, hers.as_bytes());
    series.account(b"1234500010EUR20001234567A");
    series.account(b"1234500010EUR20001234567C");
    let mut cases = Cases::create(&path, NEIGHBOURS, 3, 1).unwrap();
    add_series(&mut cases, &series.end()).unwrap();
    cases.finish().unwrap();
    let mut journal = vec![b' '; TABLE + 480];
    let entry = |account: &str, line| {
        format!("1234500010EUR2{account}310325310325{line:06}0002").into_bytes()
    };
    journal[..47].copy_from_slice(&entry("0001234567B", 0));
    journal[60..107].copy_from_slice(&entry("0001234567A", 2));
    journal[TABLE..].copy_from_slice([theirs, hers.clone()].concat().as_bytes());
    let named = [
        &b"H\0\0\0\0\0\0\0\0\xF0\0\0\0"[..],
        hers.as_bytes(),
        b"\0\0\0\0\0\0\0\0\0\x01\0\0\0\0\0\0\0\0\0\0\0",
        b"\0\0\0\0\0\0\0\0\0\0\0\0\0\0\0\0",
        &fnv(&journal).to_le_bytes(),
    ];
    let ends = [
        &b"X\x19\0\0\x001234500010EUR20001234567A\x01\0\0\0"[..],
        &fnv(hers.as_bytes()).to_le_bytes(),
        b"X\x19\0\0\x001234500010EUR20001234567C\0\0\0\0",
        &fnv(b"").to_le_bytes(),
    ];
    let file = std::fs::read(&path).unwrap();
    assert!(file.starts_with(b"CHNEIGHB\x03\0\0\0\0\0\0\0\x01\0\0\0\0\0\0\0\x04\0\0\0hand"));
    let named = named.concat();
    assert!(file.windows(named.len()).any(|window| window == named));
    assert!(file.ends_with(&ends.concat()));
}

/// The command writes the same file, another seed another one, and mistakes in the call end with 2.
#[test]
fn replay_neighbours_command() {
    same_by_command("replay-neighbours", replay_neighbours);
    let generated = |seed: u64| {
        let path = path(&format!("seed-{seed}.neighbours"));
        replay_neighbours(seed, 3, &path).unwrap();
        std::fs::read(&path).unwrap()
    };
    let (one, two) = (generated(1), generated(2));
    assert!(one[16..] != two[16..]);
    mistaken(&[
        &["replay-neighbours", "1", "10"],
        &["replay-neighbours", "1", "x", "no such file"],
        &["replay-neighbours", "1", "0", "no such directory/file"],
    ]);
}
