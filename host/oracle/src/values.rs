//! The values of a statement as a caller holds them: owned, of fixed widths, any bytes and any
//! numbers. What no record can hold can stand here too.

use crate::read;

#[derive(Clone, Copy, Debug, PartialEq, Eq)]
pub struct Key {
    pub bank: [u8; 5],
    pub branch: [u8; 5],
    pub currency: [u8; 3],
    pub decimals: u8,
    pub account: [u8; 11],
}

/// Dates are numbers YYYYMMDD here and below.
#[derive(Clone, Copy, Debug, PartialEq, Eq)]
pub struct Head {
    pub key: Key,
    pub old_date: u32,
    pub old_balance: i64,
    pub new_date: u32,
    pub new_balance: i64,
}

/// A movement, a row of a lent table.
#[derive(Clone, Copy, Debug, PartialEq, Eq)]
pub struct Row {
    pub internal: [u8; 4],
    pub code: [u8; 2],
    pub booked: u32,
    pub reject: [u8; 2],
    pub value: u32,
    pub label: [u8; 31],
    pub entry: u32,
    pub exempt: u8,
    pub unavailable: u8,
    pub amount: i64,
    pub reference: [u8; 16],
    pub complements: u64,
}

/// All that a statement says: its head, its movements, and the 73 bytes of each complement.
#[derive(Clone, Debug, PartialEq, Eq)]
pub struct Values {
    pub head: Head,
    pub rows: Vec<Row>,
    pub complements: Vec<u8>,
}

impl Values {
    /// The values of a statement that was read.
    pub fn of(statement: &read::Statement) -> Values {
        let movements = &statement.movements;
        let complements = movements.iter().flat_map(|movement| &movement.complements);
        Values {
            head: Head::of(&statement.head),
            rows: movements.iter().map(|m| Row::of(&m.row)).collect(),
            complements: complements.copied().flatten().copied().collect(),
        }
    }
}

impl Head {
    pub fn of(head: &read::Head) -> Head {
        Head {
            key: Key {
                bank: fixed(head.key.bank),
                branch: fixed(head.key.branch),
                currency: fixed(head.key.currency),
                decimals: head.key.decimals,
                account: fixed(head.key.account),
            },
            old_date: head.old_date,
            old_balance: narrow(head.old_balance),
            new_date: head.new_date,
            new_balance: narrow(head.new_balance),
        }
    }
}

impl Row {
    pub fn of(row: &read::Row) -> Row {
        Row {
            internal: fixed(row.internal),
            code: fixed(row.code),
            booked: row.booked,
            reject: fixed(row.reject),
            value: row.value,
            label: fixed(row.label),
            entry: u32::try_from(row.entry).expect("seven digits"),
            exempt: row.exempt,
            unavailable: row.unavailable,
            amount: narrow(row.amount),
            reference: fixed(row.reference),
            complements: row.complements,
        }
    }
}

fn fixed<const WIDTH: usize>(zone: &[u8]) -> [u8; WIDTH] {
    zone.try_into().expect("a zone has its width")
}

fn narrow(amount: i128) -> i64 {
    i64::try_from(amount).expect("an amount has 14 digits")
}
