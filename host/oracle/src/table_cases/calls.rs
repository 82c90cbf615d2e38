//! What a case calls, with the lengths of what it lends.

use crate::check::RECORD;
use crate::values::Values;
use crate::writer::COMPLEMENT;

pub struct TableCase {
    pub name: String,
    pub call: Call,
}

/// What a case calls, with the lengths of what it lends.
pub enum Call {
    /// The movements of statement k into a table of so many rows.
    Read {
        line_end: u64,
        file: Vec<u8>,
        k: u64,
        rows: usize,
    },
    /// Values written to so many bytes.
    Write { values: Values, bytes: usize },
    /// Statement k read into a table, and written from it.
    Trip {
        line_end: u64,
        file: Vec<u8>,
        k: u64,
    },
}

/// The length of the statement where the values are right.
pub fn statement_bytes(values: &Values) -> usize {
    (2 + values.rows.len() + values.complements.len() / COMPLEMENT) * RECORD
}

/// A case that reads.
pub fn reading(name: String, line_end: u64, file: Vec<u8>, k: u64, rows: usize) -> TableCase {
    let call = Call::Read {
        line_end,
        file,
        k,
        rows,
    };
    TableCase { name, call }
}
