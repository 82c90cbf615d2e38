//! Filled journals and damages of them. Each damage says whether it leaves the journal sound.
//!
//! The journals are laid out here a second time, on purpose: nothing of `journal` is called.

use super::accounts::{apart, relabelled, twin, with_zeros, Account, Zone};
use super::script::TABLE;
use crate::damage::other_byte;
use crate::record::{is_nil, put, write_amount, write_date, CREDIT_ZERO, DEBIT_ZERO, RECORD};
use crate::rng::Rng;
use crate::valid::{complement, Key, Statement};

/// Bytes of an entry.
const ENTRY: usize = 60;
/// Positions of an entry's zones.
const ENTRY_ZONES: [(&str, usize, usize); 10] = [
    ("bank", 1, 5),
    ("branch", 6, 10),
    ("currency", 11, 13),
    ("decimals", 14, 14),
    ("account", 15, 25),
    ("old-date", 26, 31),
    ("new-date", 32, 37),
    ("first-line", 38, 43),
    ("records", 44, 47),
    ("blank", 48, 60),
];

/// Where a zero stands in a text of `debit_zeros`: a record of its first statement, from 0, and a
/// position. Label, reference, information, and there also the place of an amount.
const ZEROS_IN_TEXTS: [(usize, usize); 5] = [(1, 49), (1, 66), (1, 105), (2, 49), (2, 91)];

/// Bytes to be put at an offset, which counts from 0.
type Edit<'a> = (usize, &'a [u8]);

/// A journal that was filled and then changed.
pub struct Damage {
    pub name: String,
    /// The whole journal after the damage.
    pub bytes: Vec<u8>,
    pub sound: bool,
}

/// A journal that holds a list of statements, and damages of it.
pub struct Scene {
    pub list: Vec<Statement>,
    pub lines: usize,
    /// The whole journal before any damage.
    pub bytes: Vec<u8>,
    pub damages: Vec<Damage>,
}

/// All scenes of a seed, for a test that compares what they say.
pub fn scenes(seed: u64) -> Vec<Scene> {
    let mut rng = Rng::new(seed);
    let makers = [
        unused_parts,
        entries,
        bodies,
        places,
        order,
        exchanged,
        twice,
        one_bank,
        strange_bytes,
        debit_zeros,
    ];
    makers.into_iter().map(|make| make(&mut rng)).collect()
}

impl Scene {
    fn new(list: Vec<Statement>, spare_lines: usize) -> Scene {
        let used: usize = list.iter().map(|statement| statement.records.len()).sum();
        let lines = used + spare_lines;
        Scene {
            bytes: lay_out(&list, lines),
            list,
            lines,
            damages: Vec::new(),
        }
    }

    /// A journal that holds another list instead.
    fn other_list(&mut self, name: &str, sound: bool, list: &[Statement]) {
        let bytes = lay_out(list, self.lines);
        self.add(name, sound, bytes);
    }

    /// Some bytes put somewhere; the offset counts from 0.
    fn put(&mut self, name: &str, sound: bool, offset: usize, bytes: &[u8]) {
        self.put_all(name, sound, &[(offset, bytes)]);
    }

    fn put_all(&mut self, name: &str, sound: bool, edits: &[Edit]) {
        let mut journal = self.bytes.clone();
        for &(offset, bytes) in edits {
            put(&mut journal, offset + 1, bytes);
        }
        self.add(name, sound, journal);
    }

    fn add(&mut self, name: &str, sound: bool, bytes: Vec<u8>) {
        self.damages.push(Damage {
            name: name.to_string(),
            bytes,
            sound,
        });
    }

    /// The offset of the first line of a statement of the list; its index counts from 0.
    fn body(&self, index: usize) -> usize {
        TABLE + RECORD * first_line(&self.list, index)
    }

    /// The bytes at some place.
    fn part(&self, offset: usize, length: usize) -> Vec<u8> {
        self.bytes[offset..offset + length].to_vec()
    }
}

/// The offset of an entry; its index and the positions in it count from 0 and 1.
fn at(index: usize, position: usize) -> usize {
    ENTRY * index + position - 1
}

fn first_line(list: &[Statement], index: usize) -> usize {
    list[..index].iter().map(|held| held.records.len()).sum()
}

/// The journal that holds the list.
fn lay_out(list: &[Statement], lines: usize) -> Vec<u8> {
    let mut journal = vec![b' '; TABLE + RECORD * lines];
    for (index, statement) in list.iter().enumerate() {
        let line = first_line(list, index);
        let entry = entry(statement, line);
        put(&mut journal, at(index, 1) + 1, &entry);
        let records = with_zeros(statement, CREDIT_ZERO).records.concat();
        put(&mut journal, TABLE + RECORD * line + 1, &records);
    }
    journal
}

fn entry(statement: &Statement, line: usize) -> Vec<u8> {
    let mut entry = vec![b' '; ENTRY];
    put(&mut entry, 1, &statement.key.bytes());
    put(&mut entry, 26, &write_date(statement.old.day));
    put(&mut entry, 32, &write_date(statement.new.day));
    put(&mut entry, 38, format!("{line:06}").as_bytes());
    let records = statement.records.len();
    put(&mut entry, 44, format!("{records:04}").as_bytes());
    entry
}

/// Two statements of one account with one of another between, each of four records.
fn three(rng: &mut Rng) -> [Statement; 3] {
    let (mut one, mut two) = (Account::new(rng), Account::new(rng));
    [
        one.next_plain(rng),
        two.next_plain(rng),
        one.next_plain(rng),
    ]
}

/// A byte that is not blank in an entry or line that is not used.
pub fn unused_parts(rng: &mut Rng) -> Scene {
    let list = three(rng);
    let mut scene = Scene::new(list.to_vec(), 3);
    let used = scene.body(2) + 4 * RECORD;
    for index in [3, 4, 127] {
        for position in [1, 44, 60] {
            let name = format!("unused-entry-{}-position-{position}", index + 1);
            let byte = rng.pick(b"X0.\x1F!");
            scene.put(&name, false, at(index, position), &[byte]);
        }
    }
    for (line, offset) in [("first", used), ("last", used + 2 * RECORD)] {
        for position in [1, 60, 120] {
            let name = format!("unused-line-{line}-position-{position}");
            let byte = rng.pick(b"X0.\x1F!");
            scene.put(&name, false, offset + position - 1, &[byte]);
        }
    }
    // What looks used: a whole entry, a whole line.
    let entry = scene.part(at(2, 1), ENTRY);
    scene.put("entry-repeated", false, at(3, 1), &entry);
    let line = scene.part(used - RECORD, RECORD);
    scene.put("line-repeated", false, used, &line);
    scene
}

/// Each zone of a used entry: another byte of its class, a strange one, a blank.
pub fn entries(rng: &mut Rng) -> Scene {
    let list = three(rng);
    let mut scene = Scene::new(list.to_vec(), 2);
    for (zone, first, last) in ENTRY_ZONES {
        let index = rng.index(3);
        let position = first + rng.index(last - first + 1);
        let offset = at(index, position);
        let byte = scene.bytes[offset];
        let name = |what: &str| format!("entry-{}-{zone}-{what}", index + 1);
        let other = other_byte(rng, byte);
        scene.put(&name("other"), false, offset, &[other]);
        scene.put(&name("strange"), false, offset, b"~");
        if byte != b' ' {
            scene.put(&name("blank"), false, offset, b" ");
        }
        // The ends of the zone too.
        for position in [first, last] {
            let offset = at(2, position);
            let other = other_byte(rng, scene.bytes[offset]);
            let name = format!("entry-3-{zone}-position-{position}");
            scene.put(&name, false, offset, &[other]);
        }
    }
    scene
}

/// Bytes of the bodies: wrong ones, and some that leave a right statement behind.
pub fn bodies(rng: &mut Rng) -> Scene {
    let mut list = three(rng);
    // The amounts below have room.
    let key = list[1].key.clone();
    let mut single = Account::of(rng, key);
    single.last.value %= 1_000_000;
    list[1] = single.next_plain(rng);
    let mut scene = Scene::new(list.to_vec(), 1);
    add_wrong_bytes(rng, &mut scene);
    add_free_bytes(rng, &mut scene);
    add_balances(&mut scene);
    add_dates(&mut scene);
    scene
}

/// Reserved zones, keys, codes and dates of each record code.
fn add_wrong_bytes(rng: &mut Rng, scene: &mut Scene) {
    let names = ["01", "04", "05", "07"];
    for (line, name) in names.into_iter().enumerate() {
        let start = scene.body(rng.index(3)) + RECORD * line;
        scene.put(&format!("{name}-code"), false, start + 1, b"9");
        scene.put(&format!("{name}-reserved"), false, start + 20, b"X");
        let bank = other_byte(rng, scene.bytes[start + 2]);
        scene.put(&format!("{name}-bank"), false, start + 2, &[bank]);
        let account = other_byte(rng, scene.bytes[start + 31]);
        scene.put(&format!("{name}-account"), false, start + 31, &[account]);
        scene.put(&format!("{name}-date"), false, start + 34, b"00");
        scene.put(&format!("{name}-line-end"), false, start + 119, b"\n");
        scene.put(&format!("{name}-last"), false, start + 119, b"\x7F");
    }
}

/// Label, reference and value date of a 04, information of a 05: another statement, still sound.
fn add_free_bytes(rng: &mut Rng, scene: &mut Scene) {
    for index in 0..3 {
        let movement = scene.body(index) + RECORD;
        let complement = movement + RECORD;
        let is_mmo = &scene.bytes[complement + 45..complement + 48] == b"MMO";
        let label = movement + 48 + rng.index(31);
        let reference = movement + 104 + rng.index(16);
        for (name, offset) in [("label", label), ("reference", reference)] {
            let other = other_byte(rng, scene.bytes[offset]);
            scene.put(&format!("{name}-{}", index + 1), true, offset, &[other]);
        }
        let name = format!("value-date-{}", index + 1);
        scene.put(&name, true, movement + 42, b"290280");
        // The last digit of an MMO's amount is free as well.
        let free = if is_mmo { 65 } else { 48 + rng.index(70) };
        let other = other_byte(rng, scene.bytes[complement + free]);
        let name = format!("information-{}", index + 1);
        scene.put(&name, true, complement + free, &[other]);
    }
}

/// One balance alone is a wrong sum; both together matter only where a chain breaks.
fn add_balances(scene: &mut Scene) {
    for index in 0..3 {
        let statement = scene.list[index].clone();
        let shift = if statement.old.value > 0 {
            -10_000
        } else {
            10_000
        };
        let old = write_amount(statement.old.value + shift);
        let new = write_amount(statement.new.value + shift);
        let old_at = scene.body(index) + 90;
        let new_at = old_at + 3 * RECORD;
        let name = |what: &str| format!("{what}-balance-{}", index + 1);
        scene.put(&name("old"), false, old_at, &old);
        scene.put(&name("new"), false, new_at, &new);
        let both: [Edit; 2] = [(old_at, &old), (new_at, &new)];
        scene.put_all(&name("either"), index == 1, &both);
    }
}

/// Other dates, in the body alone, in the entry alone, in both.
fn add_dates(scene: &mut Scene) {
    add_longer_periods(scene);
    add_shorter_periods(scene);
}

/// A day longer at either end. Where that is inside a chain, the chain breaks.
fn add_longer_periods(scene: &mut Scene) {
    for index in 0..3 {
        let statement = scene.list[index].clone();
        let old = write_date(statement.old.day - 1);
        let new = write_date(statement.new.day + 1);
        let old_at = scene.body(index) + 34;
        let new_at = old_at + 3 * RECORD;
        let name = |what: &str| format!("{what}-{}", index + 1);
        scene.put(&name("old-date-of-body"), false, old_at, &old);
        scene.put(&name("old-date-of-entry"), false, at(index, 26), &old);
        scene.put(&name("new-date-of-body"), false, new_at, &new);
        scene.put(&name("new-date-of-entry"), false, at(index, 32), &new);
        // The chain of the first account goes from entry 1 to entry 3.
        let both: [Edit; 2] = [(old_at, &old), (at(index, 26), &old)];
        scene.put_all(&name("old-dates"), index != 2, &both);
        let both: [Edit; 2] = [(new_at, &new), (at(index, 32), &new)];
        scene.put_all(&name("new-dates"), index != 0, &both);
    }
}

/// A day shorter at either end, the movement booked at the other end. Inside a chain there is a day
/// between then, and the chain goes on.
fn add_shorter_periods(scene: &mut Scene) {
    for index in 0..3 {
        let statement = scene.list[index].clone();
        let [first, last] = [statement.old.day, statement.new.day].map(write_date);
        let later = write_date(statement.old.day + 1);
        let earlier = write_date(statement.new.day - 1);
        let lines = [0, 1, 2, 3].map(|line| scene.body(index) + RECORD * line + 34);
        let name = |what: &str| format!("{what}-{}", index + 1);
        let body: [Edit; 3] = [(lines[0], &later), (lines[1], &last), (lines[2], &last)];
        scene.put_all(&name("later-old-date-of-body"), false, &body);
        let entry = (at(index, 26), &later[..]);
        scene.put_all(&name("later-old-date-of-entry"), false, &[entry]);
        let both = [&body[..], &[entry]].concat();
        scene.put_all(&name("later-old-dates"), true, &both);
        let body: [Edit; 3] = [(lines[1], &first), (lines[2], &first), (lines[3], &earlier)];
        let entry = (at(index, 32), &earlier[..]);
        let both = [&body[..], &[entry]].concat();
        scene.put_all(&name("earlier-new-dates"), true, &both);
    }
}

/// Two statements of one account, each of four records.
fn two_of_one(rng: &mut Rng) -> Scene {
    let mut account = Account::new(rng);
    let list = vec![account.next_plain(rng), account.next_plain(rng)];
    Scene::new(list, 5)
}

/// Wrong first lines and numbers of records.
pub fn places(rng: &mut Rng) -> Scene {
    let mut scene = two_of_one(rng);
    let first_lines: [(usize, &[u8]); 9] = [
        (0, b"000001"),
        (0, b"      "),
        (0, b"00000 "),
        (1, b"000003"),
        (1, b"000005"),
        (1, b"000000"),
        (1, b"     4"),
        (1, b"+00004"),
        (1, b"00000D"),
    ];
    for (index, line) in first_lines {
        let name = format!("first-line-{}-{}", index + 1, line.escape_ascii());
        scene.put(&name, false, at(index, 38), line);
    }
    let numbers: [(usize, &[u8]); 12] = [
        (0, b"0003"),
        (0, b"0005"),
        (0, b"0008"),
        (0, b"0000"),
        (1, b"0003"),
        (1, b"0005"),
        (1, b"0000"),
        (1, b"0010"),
        (1, b"9999"),
        (1, b"   4"),
        (1, b"+004"),
        (1, b"000D"),
    ];
    for (index, number) in numbers {
        let name = format!("records-{}-{}", index + 1, number.escape_ascii());
        scene.put(&name, false, at(index, 44), number);
    }
    // Both entries agree with one another, not with the bodies.
    let cut: [Edit; 2] = [(at(0, 44), b"0003"), (at(1, 38), b"000003")];
    scene.put_all("first-cut-short", false, &cut);
    add_as_one(&mut scene);
    add_line_between(&mut scene);
    scene
}

/// Both statements as one entry: an accepted body, but of two statements.
fn add_as_one(scene: &mut Scene) {
    let new_date = scene.part(at(1, 32), 6);
    let edits: [Edit; 3] = [
        (at(0, 32), &new_date),
        (at(0, 44), b"0008"),
        (at(1, 1), &[b' '; ENTRY]),
    ];
    scene.put_all("two-as-one-entry", false, &edits);
    let with_second: [Edit; 2] = [(at(0, 32), &new_date), (at(0, 44), b"0008")];
    scene.put_all("two-as-one-entry-and-the-second", false, &with_second);
}

/// A blank line between the bodies, of which the second entry knows.
fn add_line_between(scene: &mut Scene) {
    let offset = scene.body(1);
    let body = scene.part(offset, 4 * RECORD);
    let edits: [Edit; 3] = [
        (offset, &[b' '; RECORD]),
        (offset + RECORD, &body),
        (at(1, 38), b"000005"),
    ];
    scene.put_all("line-between-bodies", false, &edits);
}

/// Entries in the wrong order, beyond a gap, repeated or missing.
pub fn order(rng: &mut Rng) -> Scene {
    let mut scene = two_of_one(rng);
    let (first, second) = (scene.part(at(0, 1), ENTRY), scene.part(at(1, 1), ENTRY));
    let blank = [b' '; ENTRY];
    let body = scene.body(1);
    scene.put("second-entry-blank", false, at(1, 1), &blank);
    scene.put("second-body-blank", false, body, &[b' '; 4 * RECORD]);
    scene.put("first-entry-blank", false, at(0, 1), &blank);
    scene.put("last-line-blank", false, body + 3 * RECORD, &[b' '; RECORD]);
    scene.put("second-entry-is-the-first", false, at(1, 1), &first);
    let exchanged: [Edit; 2] = [(at(0, 1), &second), (at(1, 1), &first)];
    scene.put_all("entries-exchanged", false, &exchanged);
    let gap: [Edit; 2] = [(at(1, 1), &blank), (at(2, 1), &second)];
    scene.put_all("gap", false, &gap);
    let large_gap: [Edit; 2] = [(at(1, 1), &blank), (at(127, 1), &second)];
    scene.put_all("gap-to-the-last", false, &large_gap);
    // The second statement gone altogether.
    let gone: [Edit; 2] = [(at(1, 1), &blank), (body, &[b' '; 4 * RECORD])];
    scene.put_all("only-the-first", true, &gone);
    scene
}

/// Whole statements exchanged: of one account the chain breaks, of two it does not.
pub fn exchanged(rng: &mut Rng) -> Scene {
    let list = three(rng);
    let [first, other, second] = &list;
    let lists = [
        ("exchanged-of-two-accounts", true, [other, first, second]),
        ("exchanged-of-one-account", false, [second, other, first]),
        ("same-statement-twice", false, [first, first, second]),
        ("same-statement-at-both-ends", false, [first, other, first]),
    ];
    let mut scene = Scene::new(list.to_vec(), 1);
    for (name, sound, list) in lists {
        scene.other_list(name, sound, &list.map(Clone::clone));
    }
    scene
}

/// Two empty periods that differ in a label. Both follow; made equal, they are one twice.
pub fn twice(rng: &mut Rng) -> Scene {
    let account = Account::new(rng);
    let there_and_back = if account.last.value > 0 { -5 } else { 5 };
    let movements = [(there_and_back, 0), (-there_and_back, 0)];
    let first = account.empty_period(rng, &movements);
    let second = relabelled(rng, &first);
    let third = relabelled(rng, &second);
    let mut scene = Scene::new(vec![first.clone(), second.clone()], 2);
    scene.other_list("equal-twice", false, &[first.clone(), first.clone()]);
    scene.other_list(
        "equal-twice-the-second",
        false,
        &[second.clone(), second.clone()],
    );
    scene.other_list("exchanged-empty-periods", true, &[second.clone(), first]);
    scene.other_list("third-empty-period", true, &[third, second]);
    scene
}

/// Accounts of one bank whose statements chain across the accounts. Moved to another of the
/// accounts, the third statement follows or it does not.
pub fn one_bank(rng: &mut Rng) -> Scene {
    let mut one = Account::new(rng);
    let two = apart(rng, &one.key, Zone::Account);
    let three = apart(rng, &two, Zone::Branch);
    let chain = [
        one.next_plain(rng),
        one.next_plain(rng),
        one.next_plain(rng),
    ];
    let list = |keys: [&Key; 3]| -> Vec<Statement> {
        let twins = chain.iter().zip(keys);
        twins.map(|(statement, key)| twin(statement, key)).collect()
    };
    let mut scene = Scene::new(list([&one.key, &two, &three]), 2);
    scene.other_list(
        "chain-of-the-bank-only",
        false,
        &list([&one.key, &two, &one.key]),
    );
    scene.other_list("chain-of-the-second", true, &list([&one.key, &two, &two]));
    scene.other_list("chain-of-one", true, &list([&two, &two, &two]));
    // A day too early, and a day later with what is booked.
    let mut early = list([&one.key, &two, &two]);
    early[2].old.day -= 1;
    let day = write_date(early[2].old.day);
    put(&mut early[2].records[0], 35, &day);
    scene.other_list("chain-broken-by-a-day", false, &early);
    let mut late = list([&one.key, &two, &two]);
    late[2].old.day += 1;
    let [first, last] = [late[2].old.day, late[2].new.day].map(write_date);
    for (record, date) in late[2]
        .records
        .iter_mut()
        .zip([&first, &last, &last, &last])
    {
        put(record, 35, date);
    }
    scene.other_list("chain-with-a-day-between", true, &late);
    scene
}

/// NUL and FF, which no journal holds, in every kind of place.
pub fn strange_bytes(rng: &mut Rng) -> Scene {
    let list = three(rng);
    let mut scene = Scene::new(list.to_vec(), 1);
    let movement = scene.body(1) + RECORD;
    let last = scene.bytes.len() - 1;
    let offsets = [
        at(0, 1),
        at(0, 14),
        at(1, 26),
        at(1, 38),
        at(1, 44),
        at(1, 47),
        at(2, 60),
        at(3, 1),
        at(3, 44),
        at(127, 60),
        scene.body(0),
        movement + 48,
        movement + 90,
        movement + 119,
        last - 119,
        last,
    ];
    for byte in [0x00, 0xFF] {
        for offset in offsets {
            let name = format!("byte-{byte:02x}-at-{offset}");
            scene.put(&name, false, offset, &[byte]);
        }
        let name = format!("entry-of-{byte:02x}");
        scene.put(&name, false, at(3, 1), &[byte; ENTRY]);
    }
    scene
}

/// Debit zeros in the bodies, each of which the check accepts. In an amount none is sound, in a
/// text each is.
pub fn debit_zeros(rng: &mut Rng) -> Scene {
    let (mut nil, mut other) = (Account::at_nil(rng), Account::new(rng));
    other.last.value = 1 + rng.below(5_000) as i64;
    let mut list = vec![nil.next_to_nil(rng), other.next_to_nil(rng)];
    list.push(nil.next_quiet(rng));
    list.push(nil.empty_period(rng, &[]));
    // A text of a zero in each place that takes one: the journal has it with a credit.
    let records = &mut list[0].records;
    let complement = complement(rng, &records[1]);
    records.insert(2, complement);
    for (record, position) in ZEROS_IN_TEXTS {
        put(&mut records[record], position, CREDIT_ZERO);
    }
    let mut scene = Scene::new(list, 3);
    add_debit_zeros(&mut scene);
    for (record, position) in ZEROS_IN_TEXTS {
        let name = format!("text-{}-{position}", record + 1);
        let offset = scene.body(0) + RECORD * record + position - 1;
        scene.put(&name, true, offset, DEBIT_ZERO);
    }
    scene
}

/// In each amount of nothing by itself, in all, and in a statement that is held twice so.
fn add_debit_zeros(scene: &mut Scene) {
    let lines = scene.bytes[TABLE..].chunks_exact(RECORD).enumerate();
    let nil = lines.filter(|(_, line)| is_nil(line));
    let signs: Vec<usize> = nil.map(|(line, _)| TABLE + RECORD * line + 103).collect();
    for &offset in &signs {
        let name = format!("debit-zero-{}", (offset - TABLE) / RECORD + 1);
        scene.put(&name, false, offset, b"}");
    }
    let all: Vec<Edit> = signs.iter().map(|&offset| (offset, &b"}"[..])).collect();
    scene.put_all("debit-zeros", false, &all);
    let mut twice = scene.list.clone();
    twice.extend_from_within(3..);
    let mut journal = lay_out(&twice, scene.lines);
    let second = TABLE + RECORD * first_line(&twice, 4);
    put(&mut journal, second + 104, b"}");
    scene.add("held-twice-with-either-zero", false, journal);
}
