//! Hand-built files. Nothing of the generators is used here.

use oracle::check::{check, Answer};

/// The records of a file, without line ends.
#[derive(Clone)]
pub struct Sheet(pub Vec<Vec<u8>>);

impl Sheet {
    /// The same with bytes put at a position of a record; both count from 1.
    pub fn set(mut self, record: usize, position: usize, bytes: &[u8]) -> Sheet {
        let line = &mut self.0[record - 1];
        line[position - 1..position - 1 + bytes.len()].copy_from_slice(bytes);
        self
    }

    /// The same with a record put in, to be the one of that number.
    pub fn with(mut self, record: usize, line: Vec<u8>) -> Sheet {
        self.0.insert(record - 1, line);
        self
    }

    /// The same without a record.
    pub fn without(mut self, record: usize) -> Sheet {
        self.0.remove(record - 1);
        self
    }

    /// The same, with the records of another behind.
    pub fn then(mut self, mut other: Sheet) -> Sheet {
        self.0.append(&mut other.0);
        self
    }

    /// Only the first records.
    pub fn first(mut self, records: usize) -> Sheet {
        self.0.truncate(records);
        self
    }

    /// All bytes, with a line end after each record.
    pub fn bytes(&self, line_end: &[u8]) -> Vec<u8> {
        let lines = self.0.iter().map(|record| [record, line_end].concat());
        lines.collect::<Vec<_>>().concat()
    }

    /// The answer without line ends.
    pub fn answer(&self) -> Answer {
        check(0, &self.bytes(b""))
    }
}

pub fn accepted(statements: u64, movements: u64, complements: u64) -> Answer {
    Answer::Accepted {
        statements,
        movements,
        complements,
    }
}

pub fn refused(number: u32, record: u64) -> Answer {
    Answer::Refused { number, record }
}

/// An 01 or 07 of the worked account.
pub fn balance(code: &str, date: &str, amount: &str) -> Vec<u8> {
    let record = format!(
        "{code}12345    00010EUR2 0001234567A  {date}{:50}{amount}{:16}",
        "", ""
    );
    checked(record)
}

/// A 04 of the worked account, its free zones blank.
pub fn movement(operation: &str, booking: &str, value: &str, amount: &str) -> Vec<u8> {
    let record = format!(
        "0412345    00010EUR2 0001234567A{operation}{booking}  {value}{:31}  000000000{amount}{:16}",
        "", ""
    );
    checked(record)
}

/// A 05 of the worked account.
pub fn complement(operation: &str, booking: &str, qualifier: &str, information: &str) -> Vec<u8> {
    let record = format!(
        "0512345    00010EUR2 0001234567A{operation}{booking}     {qualifier}{information:70}  "
    );
    checked(record)
}

fn checked(record: String) -> Vec<u8> {
    assert_eq!(record.len(), 120, "{record}");
    record.into_bytes()
}

/// The worked statement: 1 old balance, 2 and 3 movements, 4 new balance.
pub fn worked() -> Sheet {
    Sheet(vec![
        balance("01", "310125", "0000000010000{"),
        movement("05", "050225", "060225", "0000000002505{"),
        movement("08", "070225", "070225", "0000000000421P"),
        balance("07", "280225", "0000000012083C"),
    ])
}

pub const MMO: &str = "USD200000000002700";

/// The worked statement with complements of its first movement: 3 LIB, 4 MMO, 5 NPY; then
/// 6 the second movement, 7 new balance.
pub fn with_complements() -> Sheet {
    worked()
        .with(3, complement("05", "050225", "LIB", "VIREMENT RECU"))
        .with(4, complement("05", "050225", "MMO", MMO))
        .with(5, complement("05", "050225", "NPY", "UN CLIENT"))
}

/// A statement without movements.
pub fn empty_statement() -> Sheet {
    Sheet(vec![
        balance("01", "310125", "0000000010000{"),
        balance("07", "280225", "0000000010000{"),
    ])
}

/// A statement without movements, of that account, from one date to another.
pub fn period(account: &[u8; 11], old: &str, new: &str) -> Sheet {
    let records = vec![
        balance("01", old, "0000000010000{"),
        balance("07", new, "0000000010000{"),
    ];
    Sheet(records).set(1, 22, account).set(2, 22, account)
}

/// A statement of so many records whose last is the 07.
pub fn long_statement(records: usize) -> Sheet {
    let mut lines = vec![movement("05", "050225", "050225", "0000000000000{"); records - 2];
    lines.insert(0, balance("01", "310125", "0000000010000{"));
    lines.push(balance("07", "280225", "0000000010000{"));
    Sheet(lines)
}
