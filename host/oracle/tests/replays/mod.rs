//! The files for a replay, for both tests that read them back by code of their own.

use std::io;
use std::path::Path;

use crate::runs::{oracle, path};

/// What is left of a file.
pub struct Reader<'a>(pub &'a [u8]);

impl<'a> Reader<'a> {
    pub fn take(&mut self, length: usize) -> &'a [u8] {
        let (taken, rest) = self.0.split_at(length);
        self.0 = rest;
        taken
    }

    /// A number, low byte first.
    pub fn number(&mut self, width: usize) -> u64 {
        let bytes = self.take(width).iter().rev();
        bytes.fold(0, |number, &byte| number << 8 | u64::from(byte))
    }

    pub fn bytes(&mut self) -> &'a [u8] {
        let length = self.number(4) as usize;
        self.take(length)
    }

    /// The number of cases, after the mark and the seed.
    pub fn cases(&mut self, mark: &[u8], seed: u64) -> u64 {
        assert_eq!(self.take(8), mark);
        assert_eq!(self.number(8), seed);
        self.number(8)
    }
}

/// The command writes the same file as the call and says the same line.
pub fn same_by_command(verb: &str, call: fn(u64, u64, &Path) -> io::Result<String>) {
    let by_call = path(&format!("call.{verb}"));
    let by_command = path(&format!("command.{verb}"));
    let line = call(6, 10, &by_call).unwrap();
    let output = oracle(&[verb, "6", "10", by_command.to_str().unwrap()]);
    assert_eq!(output.status.code(), Some(0));
    assert_eq!(output.stdout, format!("{line}\n").as_bytes());
    assert!(std::fs::read(&by_call).unwrap() == std::fs::read(&by_command).unwrap());
}
