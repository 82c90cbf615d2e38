//! A series while it is written, operation by operation.

use super::accounts::file;
use crate::record::RECORD;
use crate::rng::Rng;
use crate::series::Operation;
use crate::valid::{Key, Statement};

/// Bytes of the table of contents.
pub const TABLE: usize = 7_680;

/// A series and what it tries.
#[derive(Clone)]
pub struct SeriesCase {
    pub name: &'static str,
    pub bytes: Vec<u8>,
}

/// Writes a series of its kind.
pub type Make = fn(&mut Rng, &mut Script);

/// Writes a series that has no seed.
pub type Write = fn(&mut Script);

impl SeriesCase {
    /// A series without a seed, by its name.
    pub fn fixed((name, write): (&'static str, Write)) -> SeriesCase {
        let mut script = Script::default();
        write(&mut script);
        SeriesCase {
            name,
            bytes: script.bytes,
        }
    }
}

/// A series that grows.
#[derive(Default)]
pub struct Script {
    pub bytes: Vec<u8>,
}

impl Script {
    fn push(&mut self, operation: Operation) {
        self.bytes.append(&mut operation.bytes());
    }

    /// A buffer of dots.
    pub fn buffer(&mut self, length: usize) {
        self.push(Operation::Journal { length });
    }

    /// A fresh journal with so many body lines.
    pub fn fresh(&mut self, lines: usize) {
        self.buffer(TABLE + RECORD * lines);
        self.open();
    }

    pub fn open(&mut self) {
        self.push(Operation::Open);
    }

    pub fn sound(&mut self) {
        self.push(Operation::Sound);
    }

    pub fn entries(&mut self, numbers: &[u64]) {
        for &number in numbers {
            self.push(Operation::Entry { number });
        }
    }

    pub fn poke(&mut self, offset: usize, byte: u8) {
        let offset = offset as u64;
        self.push(Operation::Poke { offset, byte });
    }

    /// Pokes wherever the second journal differs from the first.
    pub fn change(&mut self, from: &[u8], to: &[u8]) {
        for (offset, (old, new)) in from.iter().zip(to).enumerate() {
            if old != new {
                self.poke(offset, *new);
            }
        }
    }

    pub fn deliver(&mut self, line_end: u64, statements: &[&Statement]) {
        self.deliver_bytes(line_end, &file(line_end, statements));
    }

    pub fn deliver_bytes(&mut self, line_end: u64, file: &[u8]) {
        self.push(Operation::Deliver { line_end, file });
    }

    pub fn newest(&mut self, line_end: u64, key: &Key, statements: &[&Statement]) {
        self.newest_bytes(line_end, &key.bytes(), &file(line_end, statements));
    }

    pub fn newest_bytes(&mut self, line_end: u64, key: &[u8], file: &[u8]) {
        self.push(Operation::Newest {
            line_end,
            key,
            file,
        });
    }
}
