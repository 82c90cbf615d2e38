//! A series of operations on a journal, recorded with the answer of each call.

use std::collections::BTreeSet;
use std::io;

use crate::answers::Numbers;
use crate::case_file::put_bytes;
use crate::check::RECORD;
use crate::contents::{listed, ROW};
use crate::delivery::{deliver, Expected};
use crate::failure::failure;
use crate::journal::{entry, held, open, used, Used, ENTRIES, ENTRY, TABLE};
use crate::read::Refusal;
use crate::series::{operations, Operation};

/// A series that is run while it is written. Only what is exported is in it: the sound test and
/// the newest statement are left out. After the first call on a changed journal questions are put
/// in: what its entries say, and how much of it is used.
pub struct Series {
    pub name: String,
    journal: Vec<u8>,
    /// Pokes one after another, not written yet: the first offset and the bytes.
    pokes: (u64, Vec<u8>),
    operations: u32,
    bytes: Vec<u8>,
    answers: Vec<Numbers>,
    /// Whether the journal was asked since it last changed.
    asked: bool,
}

impl Series {
    pub fn new(name: impl Into<String>) -> Series {
        Series {
            name: name.into(),
            journal: Vec::new(),
            pokes: (0, Vec::new()),
            operations: 0,
            bytes: Vec::new(),
            answers: Vec::new(),
            asked: false,
        }
    }

    /// A series that stands in its text form.
    pub fn of(name: &str, text: &[u8]) -> io::Result<Series> {
        let mut series = Series::new(name);
        for operation in operations(text).map_err(failure)? {
            series.perform(operation);
        }
        Ok(series.end())
    }

    /// Performs one operation and writes it with its answer.
    pub fn perform(&mut self, operation: Operation) {
        match operation {
            Operation::Journal { length } => self.buffer(length),
            Operation::Open => self.open(),
            Operation::Entry { number } => self.entry(number),
            Operation::Poke { offset, byte } => self.poke(offset, &[byte]),
            Operation::Deliver { line_end, file } => self.deliver(b'D', line_end, file),
            Operation::Sound | Operation::Newest { .. } => {}
        }
    }

    fn buffer(&mut self, length: usize) {
        self.begin(b'J');
        self.number(length as u64);
        self.journal = vec![b'.'; length];
        self.asked = false;
    }

    fn open(&mut self) {
        self.begin(b'O');
        let answer = open(&mut self.journal);
        if answer.is_ok() {
            self.asked = false;
        }
        self.answer_on_journal(answer.map(|()| [0; 3]));
        self.ask();
    }

    fn entry(&mut self, number: u64) {
        self.begin(b'E');
        self.number(number);
        let answer = entry(&self.journal, number);
        self.answer_on_journal(answer.map(|place| {
            let records = place.length / RECORD;
            let first_line = (place.first - TABLE) / RECORD;
            [records as u64, first_line as u64, 0]
        }));
        self.ask();
    }

    /// A delivery that is named as one account's: as any other, under a letter of its own.
    pub fn deliver_hers(&mut self, line_end: u64, file: &[u8]) {
        self.deliver(b'H', line_end, file);
    }

    fn deliver(&mut self, letter: u8, line_end: u64, file: &[u8]) {
        self.begin(letter);
        self.number(line_end);
        put_bytes(&mut self.bytes, file);
        let answer = deliver(&mut self.journal, line_end, file);
        if answer.map_or(false, |done| done.stored > 0) {
            self.asked = false;
        }
        let expected = answer.map_or_else(|refused| refused.expected, |_| Expected::default());
        let answer = answer.map_err(|refused| refused.refusal);
        self.answer(answer.map(|done| [done.stored, done.held, 0]));
        self.expected(expected);
        self.hash();
        self.ask();
    }

    /// The questions for a journal that has changed: entries around those used and far out, rows
    /// around the right length. How much is used comes last, as its hash stands for all of them.
    fn ask(&mut self) {
        if self.asked {
            return;
        }
        let last = self.entries_used();
        let between = 1 + u64::from(self.operations) % last.max(1);
        let numbers = [0, 1, between, last, last + 1, 128, 129, u64::MAX];
        for number in BTreeSet::from(numbers) {
            self.listed(number, ROW);
        }
        for (number, row) in [(last, 0), (last, 40), (last, 60), (last + 1, 40)] {
            self.listed(number, row);
        }
        self.used();
    }

    /// How many entries, from the first on, do not say that they are unused.
    fn entries_used(&self) -> u64 {
        let entries = self.journal.chunks_exact(ENTRY).take(ENTRIES);
        entries.take_while(|entry| entry[43] != b' ').count() as u64
    }

    /// What an entry says, in a row of so many bytes.
    pub fn listed(&mut self, number: u64, row: usize) {
        self.begin(b'L');
        self.number(number);
        self.number(row as u64);
        let mut row = vec![0; row];
        let answer = listed(&self.journal, number, &mut row);
        self.answer(answer.map(|found| [found.records as u64, found.first_line as u64, 0]));
        let put = if answer.is_ok() { &row[..ROW] } else { b"" };
        put_bytes(&mut self.bytes, put);
    }

    /// How much of the journal is used.
    pub fn used(&mut self) {
        self.begin(b'U');
        let answer = used(&self.journal);
        self.answer_on_journal(answer.map(|used| {
            let Used {
                statements,
                lines_taken,
                lines,
            } = used;
            [statements, lines_taken, lines].map(|number| number as u64)
        }));
        self.asked = true;
    }

    /// What the journal holds of an account: how many statements, and a hash over their bodies one
    /// after another, in the order of the table.
    pub fn account(&mut self, key: &[u8]) {
        let mut list = held(&self.journal).expect("a journal of deliveries alone is sound");
        list.retain(|statement| statement.key == key);
        self.begin(b'X');
        put_bytes(&mut self.bytes, key);
        let count = u32::try_from(list.len()).expect("a table has 128 entries");
        self.bytes.extend(count.to_le_bytes());
        let bodies: Vec<&[u8]> = list.iter().map(|one| &one.records[..]).collect();
        self.number(fnv(&bodies.concat()));
    }

    /// Puts bytes into the journal; those outside it are left out.
    pub fn poke(&mut self, offset: u64, bytes: &[u8]) {
        let (first, pending) = &self.pokes;
        if first.checked_add(pending.len() as u64) != Some(offset) {
            self.end_pokes();
            self.pokes.0 = offset;
        }
        self.pokes.1.extend(bytes);
        self.asked = false;
        let places = (offset as usize..self.journal.len()).zip(bytes);
        for (place, &byte) in places {
            self.journal[place] = byte;
        }
    }

    fn end_pokes(&mut self) {
        let (offset, bytes) = std::mem::take(&mut self.pokes);
        if !bytes.is_empty() {
            self.operations += 1;
            self.bytes.push(b'P');
            self.number(offset);
            put_bytes(&mut self.bytes, &bytes);
        }
    }

    fn begin(&mut self, letter: u8) {
        self.end_pokes();
        self.operations += 1;
        self.bytes.push(letter);
    }

    fn number(&mut self, number: u64) {
        self.bytes.extend(number.to_le_bytes());
    }

    fn answer(&mut self, answer: Result<[u64; 3], Refusal>) {
        let answer = Numbers::of_call(answer);
        self.answers.push(answer);
        answer.put(&mut self.bytes);
    }

    /// The answer, then the hash.
    fn answer_on_journal(&mut self, answer: Result<[u64; 3], Refusal>) {
        self.answer(answer);
        self.hash();
    }

    /// A hash over the journal as the call leaves it.
    fn hash(&mut self) {
        let hash = fnv(&self.journal);
        self.number(hash);
    }

    /// Date and balance. A debit stands in two's complement.
    fn expected(&mut self, expected: Expected) {
        self.number(u64::from(expected.date));
        let balance = i64::try_from(expected.balance).expect("a balance has 14 digits");
        self.bytes.extend(balance.to_le_bytes());
    }

    /// The whole series. Its journal, which may be large, is let go.
    pub fn end(mut self) -> Series {
        self.end_pokes();
        self.journal = Vec::new();
        self
    }

    /// The series without its name: the number of operations, then the operations.
    pub fn body(&self) -> Vec<u8> {
        [&self.operations.to_le_bytes(), &self.bytes[..]].concat()
    }

    /// The refusal in each of the answers or 0.
    pub fn numbers(&self) -> Vec<u32> {
        self.answers.iter().map(|answer| answer.number).collect()
    }
}

/// FNV-1a of 64 bits.
pub fn fnv(bytes: &[u8]) -> u64 {
    let step = |hash: u64, &byte: &u8| (hash ^ u64::from(byte)).wrapping_mul(0x100_0000_01B3);
    bytes.iter().fold(0xCBF2_9CE4_8422_2325, step)
}
