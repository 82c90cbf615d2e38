//! Generated nights against what is known of them by how they were made.
//!
//! What a journal holds is read out of its entries by this test's own code.

mod runs;
mod zeros;

use std::collections::{BTreeMap, BTreeSet};
use std::path::Path;

use oracle::journal::is_sound;
use oracle::night::{found_line_end, night, Fate, Incoming, Night};
use oracle::night_cases::{night_case, Chain, Known, NightCase};
use oracle::nights::{expected, nights};
use oracle::read::statements;
use runs::{mistaken, oracle, path};
use zeros::signed;

const SEED: u64 = 31;
const NIGHTS: usize = 400;
const TABLE: usize = 7_680;

/// What a night may try, and how often it does at least.
const KINDS: [(&str, usize); 50] = [
    ("accounts-together", 60),
    ("almost-ignored-name", 60),
    ("changed-month", 10),
    ("corrected", 20),
    ("corrected-beside-coming", 20),
    ("corrected-beside-held", 20),
    ("corrected-beside-new", 20),
    ("corrected-beside-single-day", 40),
    ("cut-alone", 20),
    ("cut-and-whole", 60),
    ("cut-between-records", 30),
    ("cut-between-statements", 20),
    ("cut-inside-a-record", 30),
    ("damaged", 60),
    ("damaged-month", 20),
    ("dormant-account", 15),
    ("dormant-second-round", 10),
    ("empty-file", 20),
    ("empty-night", 15),
    ("entries-full", 20),
    ("first-month-behind", 30),
    ("first-month-stuck", 10),
    ("first-month-stuck-for-ever", 10),
    ("first-night", 20),
    ("gap-inside", 15),
    ("held-though-full", 40),
    ("hold-each-other", 10),
    ("ignored-name", 60),
    ("known-account", 60),
    ("lines-full", 20),
    ("month-closes-early", 15),
    ("month-missing", 20),
    ("month-passed-over", 20),
    ("new-account", 60),
    ("older", 20),
    ("other-balance", 20),
    ("retry-of-held", 20),
    ("retry-other-line-end", 40),
    ("retry-other-zero", 20),
    ("retry-overlap", 20),
    ("retry-same-bytes", 40),
    ("second-round", 15),
    ("several-months", 60),
    ("statement-too-long", 10),
    ("third-round", 15),
    ("too-many-records", 10),
    ("turn-of-century", 40),
    ("wrong-line-end", 15),
    ("wrong-order-alone", 15),
    ("wrong-order-mended", 15),
];

fn all_nights() -> impl Iterator<Item = (NightCase, Night)> {
    (0..NIGHTS).map(|index| {
        let case = night_case(SEED, index);
        let night = night(&case.journal, &case.incoming);
        (case, night)
    })
}

fn digits(bytes: &[u8]) -> usize {
    std::str::from_utf8(bytes).unwrap().parse().unwrap()
}

/// Keys and bodies in the order of the entries.
fn held(journal: &[u8]) -> Vec<(&[u8], &[u8])> {
    let entries = journal[..TABLE].chunks(60);
    let used = entries.take_while(|entry| entry.iter().any(|&byte| byte != b' '));
    let held = used.map(|entry| {
        let first = TABLE + 120 * digits(&entry[37..43]);
        let length = 120 * digits(&entry[43..47]);
        (&entry[..25], &journal[first..first + length])
    });
    held.collect()
}

/// Old and new balance date of each, YYYYMMDD, as its body says.
fn dates(body: &[u8]) -> [u32; 2] {
    let last = body.len() - 120;
    [34, last + 34].map(|at| {
        let [day, month, year] = [at, at + 2, at + 4].map(|at| digits(&body[at..at + 2]));
        let century = if year < 80 { 2_000 } else { 1_900 };
        (10_000 * (century + year) + 100 * month + day) as u32
    })
}

/// Whether a journal holds a statement with these records.
fn holds(journal: &[u8], body: &[u8]) -> bool {
    held(journal).iter().any(|(_, other)| *other == body)
}

/// What a chain holds in the end, given room: the records of each statement as they are stored.
fn stored(chain: &Chain) -> Vec<Vec<u8>> {
    let statements = chain.end.iter().map(|&month| &chain.statements[month]);
    let bodies = statements.map(|one| one.records.concat());
    bodies.map(|body| signed(0, &body, b'{')).collect()
}

/// What a journal holds of a chain's account.
fn bodies(journal: &[u8], chain: &Chain) -> Vec<Vec<u8>> {
    let key = chain.key.bytes();
    let entries = held(journal).into_iter();
    let bodies = entries.filter(|(other, _)| *other == key);
    bodies.map(|(_, body)| body.to_vec()).collect()
}

/// What is known of each account is held, once each and in order, and nothing else of it. Without
/// room for all it is the beginning of that. Nothing is known of accounts alone that a file has
/// another statement of.
#[test]
fn chains_are_held() {
    let (mut whole, mut parts, mut unknown) = ([0; 2], 0, 0);
    for (case, night) in all_nights() {
        for chain in &case.chains {
            let (found, known) = (bodies(&night.journal, chain), stored(chain));
            match chain.known {
                Known::Not => {
                    assert!(case.tries.contains("changed-month"));
                    unknown += 1;
                    continue;
                }
                Known::ByStory => whole[0] += usize::from(case.enough),
                Known::ByFiles => whole[1] += usize::from(case.enough),
            }
            assert!(found.len() >= chain.held && known.starts_with(&found));
            assert!(!case.enough || found == known, "{:?}", case.tries);
            parts += usize::from(found.len() < known.len());
        }
    }
    assert!(whole[0] > 300 && whole[1] > 60, "{whole:?}");
    assert!(parts > 60, "{parts}");
    assert!(unknown < 50, "{unknown}");
}

/// How the chains end: whole, with less than comes, with a month left out, or not begun; in the first
/// round or later.
#[test]
fn chains_end_in_every_way() {
    let (mut all, mut some, mut none) = (0, 0, 0);
    let (mut with_a_gap, mut in_later_rounds) = (0, 0);
    for (case, night) in all_nights().filter(|(case, _)| case.enough) {
        for chain in &case.chains {
            match chain.end.len() {
                0 => none += 1,
                end if end < chain.statements.len() => some += 1,
                _ => all += 1,
            }
            let left_out = |two: &[usize]| two[0] + 1 < two[1];
            with_a_gap += usize::from(chain.end.windows(2).any(left_out));
            in_later_rounds += usize::from(night.rounds.get(1) > Some(&0));
        }
    }
    assert!(all > 250 && some > 40 && none > 40, "{all} {some} {none}");
    assert!(with_a_gap > 15, "{with_a_gap}");
    assert!(in_later_rounds > 100, "{in_later_rounds}");
}

/// The account, the old date and the new date of each statement that a journal holds.
fn periods(journal: &[u8]) -> Vec<(Vec<u8>, u32, u32)> {
    let periods = held(journal).into_iter().map(|(key, body)| {
        let head = &statements(0, body).unwrap()[0].head;
        (key.to_vec(), head.old_date, head.new_date)
    });
    periods.collect()
}

/// Whether a statement that begins on that day is too early for an account of which these are held.
fn is_too_early(held: &[(Vec<u8>, u32, u32)], key: &[u8], date: u32) -> bool {
    held.iter()
        .any(|(other, _, new)| other == key && date < *new)
}

/// Whether the file waits on after the night.
fn waits(fate: &Fate) -> bool {
    matches!(fate, Fate::Left(_) | Fate::HeldBack)
}

/// Whether the delivery refuses it with 22 and it waits no more.
fn comes_too_late(fate: &Fate) -> bool {
    matches!(fate, Fate::Refused(refusal) if refusal.number == 22)
}

/// A statement of a file: its account, its old date, its first record, and its records as they are
/// stored.
struct Sent {
    key: Vec<u8>,
    date: u32,
    record: u64,
    body: Vec<u8>,
}

/// The statements of an accepted file.
fn sent(file: &Incoming) -> Vec<Sent> {
    let line_end = found_line_end(&file.bytes);
    let line = 120 + line_end as usize;
    let statements = statements(line_end, &file.bytes).unwrap().into_iter();
    let sent = statements.map(|one| {
        let part = &file.bytes[one.place.first..one.place.first + one.place.length];
        let records: Vec<&[u8]> = part.chunks(line).map(|line| &line[..120]).collect();
        Sent {
            key: one.head.key.bytes(),
            date: one.head.old_date,
            record: (one.place.first / line) as u64 + 1,
            body: signed(0, &records.concat(), b'{'),
        }
    });
    sent.collect()
}

/// No file that is left, or that comes too late, has a statement that the night passed over: one that
/// is not held, could have been stored before by its date, and no longer can. The exception is one
/// that begins within the period of another that was stored: of the two only one can be. This is so
/// of every account, whatever is known of it and however little room there is.
#[test]
fn nothing_that_waits_is_passed_over() {
    let (mut still_wait, mut too_early, mut within) = (0, 0, 0);
    for (case, night) in all_nights() {
        let (before, after) = (periods(&case.journal), periods(&night.journal));
        let stored = &after[before.len()..];
        for file in &case.incoming {
            let not_stored = |fate: &Fate| waits(fate) || comes_too_late(fate);
            if !night.fates.get(&file.name).map_or(false, not_stored) {
                continue;
            }
            for Sent {
                key, date, body, ..
            } in sent(file)
            {
                let is_within = |(other, old, new): &(Vec<u8>, u32, u32)| {
                    *other == key && (*old..*new).contains(&date)
                };
                if holds(&night.journal, &body) {
                    continue;
                } else if is_too_early(&before, &key, date) {
                    too_early += 1;
                } else if !is_too_early(&after, &key, date) {
                    still_wait += 1;
                } else {
                    assert!(stored.iter().any(is_within), "{:?}", case.tries);
                    within += 1;
                }
            }
        }
    }
    assert!(
        still_wait > 150 && too_early > 20,
        "{still_wait} {too_early}"
    );
    assert!(within < 20, "{within}");
}

/// The latest new date that is held of an account.
fn last_date(held: &[(Vec<u8>, u32, u32)], key: &[u8]) -> Option<u32> {
    let of_account = held.iter().filter(|(other, ..)| other == key);
    of_account.map(|&(_, _, new)| new).max()
}

/// Files are refused with 22 exactly if nothing of them can be stored any more: each statement is
/// held, or begins before the last new date of its account. What of another file can still be stored
/// waits on, whatever its refusal.
#[test]
fn what_comes_too_late_is_refused() {
    let (mut refused, mut left) = (0, 0);
    for (case, night) in all_nights() {
        let periods = periods(&night.journal);
        let never_stored = |one: Sent| {
            holds(&night.journal, &one.body) || is_too_early(&periods, &one.key, one.date)
        };
        for file in &case.incoming {
            match night.fates.get(&file.name) {
                Some(fate) if comes_too_late(fate) => {
                    assert!(sent(file).into_iter().all(never_stored));
                    refused += 1;
                }
                Some(fate) if waits(fate) => {
                    assert!(!sent(file).into_iter().all(never_stored));
                    left += 1;
                }
                _ => {}
            }
        }
    }
    assert!(refused > 100 && left > 250, "{refused} {left}");
}

/// Files that come too late have one statement or several; some do so from the first, some since the
/// night.
#[test]
fn files_come_too_late_in_every_way() {
    let (mut of_one, mut of_several, mut since_the_night) = (0, 0, 0);
    for (case, night) in all_nights() {
        let before = periods(&case.journal);
        for file in &case.incoming {
            if night.fates.get(&file.name).map_or(false, comes_too_late) {
                let sent = sent(file);
                of_one += usize::from(sent.len() == 1);
                of_several += usize::from(sent.len() > 1);
                since_the_night += usize::from(sent.iter().any(|one| {
                    let held = holds(&case.journal, &one.body);
                    !held && !is_too_early(&before, &one.key, one.date)
                }));
            }
        }
    }
    assert!(of_one > 50 && of_several > 40, "{of_one} {of_several}");
    assert!(since_the_night > 10, "{since_the_night}");
}

/// Whether a statement begins before one of its account that stands in front of it.
fn is_backwards(sent: &[Sent]) -> bool {
    let is_after = |one: &Sent, other: &Sent| one.key == other.key && one.date > other.date;
    (0..sent.len()).any(|at| sent[..at].iter().any(|one| is_after(one, &sent[at])))
}

/// What is refused with 22 and left has its months in the wrong order, where nothing is held of the
/// account and where something is; or it begins before the last new date of its account, on it or
/// after it.
#[test]
fn files_are_left_in_every_way() {
    let mut wrong_order = [0; 2];
    let (mut before, mut on, mut after) = (0, 0, 0);
    for (case, night) in all_nights() {
        let periods = periods(&night.journal);
        for file in &case.incoming {
            let record = match night.fates.get(&file.name) {
                Some(Fate::Left(refusal)) if refusal.number == 22 => refusal.record,
                _ => continue,
            };
            let sent = sent(file);
            let refused = sent.iter().find(|one| one.record == record).unwrap();
            match last_date(&periods, &refused.key) {
                None => wrong_order[0] += usize::from(is_backwards(&sent)),
                Some(last) if refused.date < last => before += 1,
                Some(_) if is_backwards(&sent) => wrong_order[1] += 1,
                Some(last) if refused.date == last => on += 1,
                Some(_) => after += 1,
            }
        }
    }
    assert!(
        wrong_order.iter().all(|&count| count > 10),
        "{wrong_order:?}"
    );
    assert!(
        before > 40 && on > 10 && after > 30,
        "{before} {on} {after}"
    );
}

/// The earliest old balance date of each account in the files that are taken and accepted.
fn earliest(case: &NightCase, night: &Night) -> BTreeMap<Vec<u8>, u32> {
    let mut dates = BTreeMap::new();
    let taken = |file: &&Incoming| !night.ignored.contains(&file.name);
    for file in case.incoming.iter().filter(taken) {
        let line_end = found_line_end(&file.bytes);
        for statement in statements(line_end, &file.bytes).unwrap_or_default() {
            let date = statement.head.old_date;
            let first = dates.entry(statement.head.key.bytes()).or_insert(date);
            *first = date.min(*first);
        }
    }
    dates
}

/// An account of which nothing was held begins with the earliest date that waits, or not at all.
/// This is so of every account, whatever is known of it and however little room there is.
#[test]
fn accounts_begin_with_their_earliest() {
    let (mut begin, mut wait) = (0, 0);
    for (case, night) in all_nights() {
        let held_keys = |journal: &[u8]| -> BTreeSet<Vec<u8>> {
            let keys = held(journal).into_iter();
            keys.map(|(key, _)| key.to_vec()).collect()
        };
        let (before, after) = (held_keys(&case.journal), held_keys(&night.journal));
        let mut begun = BTreeMap::new();
        for (key, date) in earliest(&case, &night) {
            if after.contains(&key) && !before.contains(&key) {
                begun.insert(key, date);
            } else {
                wait += usize::from(!before.contains(&key));
            }
        }
        begin += begun.len();
        let said = night.begun.iter().map(|one| (one.key.clone(), one.date));
        assert_eq!(said.collect::<BTreeMap<_, _>>(), begun);
    }
    assert!(begin > 200 && wait > 80, "{begin} {wait}");
}

/// Days that are skipped are those between the last new date of an account and a later old date of
/// what was stored behind it.
#[test]
fn days_are_skipped() {
    let mut skipped = 0;
    for (case, night) in all_nights() {
        let before = held(&case.journal).len();
        let mut last = BTreeMap::new();
        let mut expected = Vec::new();
        for (index, (key, body)) in held(&night.journal).into_iter().enumerate() {
            let [old, new] = dates(body);
            match last.insert(key, new) {
                Some(end) if index >= before && end != old => {
                    expected.push((key.to_vec(), end, old))
                }
                _ => {}
            }
        }
        skipped += expected.len();
        let said = night.skipped.iter();
        let said = said.map(|one| (one.key.clone(), one.from, one.to));
        assert_eq!(said.collect::<Vec<_>>(), expected);
    }
    assert!(skipped > 60, "{skipped}");
}

/// With what is left alone, one more night changes nothing, and each file is left as it was.
#[test]
fn what_is_left_stays() {
    for (case, before) in all_nights() {
        let mut left = case.incoming;
        left.retain(|file| before.fates.get(&file.name).map_or(false, waits));
        let after = night(&before.journal, &left);
        assert!(after.journal == before.journal);
        assert!(after.fates.len() == left.len() && after.rounds.iter().all(|&done| done == 0));
        assert!(after
            .fates
            .iter()
            .all(|(name, fate)| before.fates[name] == *fate));
    }
}

/// The journal is sound before and after, and keeps what it held, in its place.
#[test]
fn journals_are_sound() {
    for (case, night) in all_nights() {
        assert!(is_sound(&case.journal) && is_sound(&night.journal));
        assert_eq!(case.journal.len(), night.journal.len());
        assert!(held(&night.journal).starts_with(&held(&case.journal)));
    }
}

/// The names in the lists of a night, each list by its own name.
fn lists(night: &Night) -> BTreeMap<&'static str, Vec<String>> {
    let lists = expected(night).into_iter().map(|(list, text)| {
        assert!(text.is_empty() || text.ends_with('\n'));
        (list, text.lines().map(str::to_string).collect())
    });
    lists.collect()
}

/// Every file that waits is in one list, and the lists are in the order of bytes.
#[test]
fn every_file_ends_in_one_place() {
    for (case, night) in all_nights() {
        let lists = lists(&night);
        let mut all = Vec::new();
        for list in ["done", "refused", "left", "ignored"] {
            assert!(lists[list]
                .windows(2)
                .all(|two| two[0].as_bytes() < two[1].as_bytes()));
            all.extend(lists[list].clone());
        }
        let mut names: Vec<String> = case.incoming.into_iter().map(|file| file.name).collect();
        names.sort_unstable();
        all.sort_unstable();
        assert_eq!(all, names);
        assert!(names.windows(2).all(|two| two[0] != two[1]));
    }
}

/// What is not taken has the names that are not, and only that.
#[test]
fn ignored_names() {
    for (_, night) in all_nights() {
        let unfinished = |name: &String| {
            let ends = [".part", ".tmp", ".filepart", "~"];
            name.starts_with('.') || ends.iter().any(|end| name.ends_with(end))
        };
        assert!(night.ignored.iter().all(unfinished));
        assert!(!night.fates.keys().any(unfinished));
    }
}

/// The totals and the status say what the lists say, and as many statements were stored as the
/// journal has more.
#[test]
fn totals_and_status() {
    for (case, night) in all_nights() {
        let lists = lists(&night);
        let [done, refused, left] = ["done", "refused", "left"].map(|list| lists[list].len());
        let stored = held(&night.journal).len() - held(&case.journal).len();
        let begins = format!("done {done}, refused {refused}, left {left}, stored {stored}, held ");
        assert!(lists["totals"][0].starts_with(&begins));
        assert_eq!(night.rounds.iter().sum::<usize>(), done);
        let status = match (left, refused) {
            (0, 0) => "0",
            (0, _) => "1",
            _ => "4",
        };
        assert_eq!(lists["status"], [status]);
    }
}

/// Every kind of night occurs, and each often enough.
#[test]
fn every_kind_occurs() {
    let mut counts: BTreeMap<&str, usize> = BTreeMap::new();
    for (case, _) in all_nights() {
        for what in case.tries {
            *counts.entry(what).or_default() += 1;
        }
    }
    let known: BTreeSet<&str> = KINDS.iter().map(|(kind, _)| *kind).collect();
    assert_eq!(counts.keys().copied().collect::<BTreeSet<_>>(), known);
    for (kind, least) in KINDS {
        assert!(counts[kind] >= least, "{kind} {}", counts[kind]);
    }
}

/// Every refusal of a file occurs but 1, and each that leaves it, 22 with either end; files that are
/// held back, files that are held, rounds after the first, accounts that begin.
#[test]
fn every_end_occurs() {
    let [mut refused, mut left] = [(); 2].map(|()| BTreeMap::<u32, usize>::new());
    let (mut held, mut mixed, mut held_back, mut later_rounds, mut begun) = (0, 0, 0, [0; 2], 0);
    for (_, night) in all_nights() {
        for fate in night.fates.values() {
            match fate {
                Fate::Done(done) if done.stored > 0 => mixed += usize::from(done.held > 0),
                Fate::Done(done) => held += usize::from(done.held > 0),
                Fate::Refused(refusal) => *refused.entry(refusal.number).or_default() += 1,
                Fate::Left(refusal) => *left.entry(refusal.number).or_default() += 1,
                Fate::HeldBack => held_back += 1,
            }
        }
        for (later, count) in later_rounds.iter_mut().enumerate() {
            *count += usize::from(night.rounds.get(later + 1) > Some(&0));
        }
        begun += night.begun.len();
    }
    let numbers = |counts: &BTreeMap<u32, usize>| counts.keys().copied().collect::<Vec<_>>();
    assert_eq!(numbers(&refused), (2..=15).chain([22]).collect::<Vec<_>>());
    assert_eq!(numbers(&left), [22, 23, 24]);
    let often = |counts: &BTreeMap<u32, usize>| counts.values().all(|&count| count >= 10);
    assert!(often(&refused) && often(&left), "{refused:?} {left:?}");
    assert!(held > 150 && mixed > 30, "{held} {mixed}");
    assert!(held_back > 60, "{held_back}");
    assert!(
        later_rounds[0] > 40 && later_rounds[1] > 10,
        "{later_rounds:?}"
    );
    assert!(begun > 200, "{begun}");
}

/// The folders of a command, each file by its path.
fn contents(directory: &Path) -> BTreeMap<String, Vec<u8>> {
    let mut found = BTreeMap::new();
    for entry in std::fs::read_dir(directory).unwrap() {
        let path = entry.unwrap().path();
        if path.is_dir() {
            found.extend(contents(&path));
            found.insert(format!("{}/", path.display()), Vec::new());
        } else {
            let bytes = std::fs::read(&path).unwrap();
            found.insert(path.display().to_string(), bytes);
        }
    }
    found
}

/// A folder that is not there.
fn fresh(name: &str) -> std::path::PathBuf {
    let directory = path(name);
    if directory.exists() {
        std::fs::remove_dir_all(&directory).unwrap();
    }
    directory
}

/// Each folder has the journals, the files that wait and what is expected, and nothing else.
#[test]
fn nights_are_written() {
    let directory = fresh("nights");
    nights(SEED, 12, &directory).unwrap();
    let mut found = contents(&directory);
    for index in 0..12 {
        let folder = directory.join(format!("{index:03}"));
        let case = night_case(SEED, index);
        let night = night(&case.journal, &case.incoming);
        let mut take = |name: &str| {
            let path = folder.join(name).display().to_string();
            found.remove(&path).unwrap_or_else(|| panic!("{path}"))
        };
        assert!(take("journal") == case.journal);
        assert!(take("expected.journal") == night.journal);
        for file in &case.incoming {
            assert!(take(&format!("incoming/{}", file.name)) == file.bytes);
        }
        for (name, text) in expected(&night) {
            assert_eq!(take(&format!("expected.{name}")), text.as_bytes());
        }
        take("incoming/");
        take("");
    }
    assert!(found.is_empty());
}

/// The same seed gives the same bytes, another one others; a folder that is there is not written.
#[test]
fn nights_command() {
    let (one, two, other) = (fresh("nights-1"), fresh("nights-2"), fresh("nights-3"));
    let mut lines = Vec::new();
    for (seed, directory) in [("8", &one), ("8", &two), ("9", &other)] {
        let output = oracle(&["nights", seed, "8", directory.to_str().unwrap()]);
        assert_eq!(output.status.code(), Some(0));
        lines.push(output.stdout);
    }
    let bytes = |directory: &Path| {
        let all = contents(directory).into_iter();
        let from = directory.display().to_string().len();
        all.map(|(path, bytes)| (path[from..].to_string(), bytes))
            .collect::<Vec<_>>()
    };
    assert!(bytes(&one) == bytes(&two) && lines[0] == lines[1]);
    assert!(bytes(&one) != bytes(&other) && lines[0] != lines[2]);
    let there = one.to_str().unwrap();
    mistaken(&[
        &["nights", "8", "1", there],
        &["nights", "x", "1", there],
        &["nights", "8", there],
    ]);
}
