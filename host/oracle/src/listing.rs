//! The listing program: what it prints for given standard input, to the byte.

use crate::read::{statements, Refusal, Row, Statement};
use crate::show::text;

/// The longest input that is listed.
pub const MOST_BYTES: usize = 65_340;
/// The line-end number of its input.
const LF: u64 = 1;

/// The whole standard output, LF after each line.
pub fn listing(input: &[u8]) -> String {
    if input.len() > MOST_BYTES {
        return "TROP LONG\n".to_string();
    }
    match statements(LF, input) {
        Ok(statements) => list(&statements),
        Err(Refusal { number, record }) => format!("REFUS {number} {record}\n"),
    }
}

fn list(statements: &[Statement]) -> String {
    let mut out = String::new();
    for statement in statements {
        out += &statement_line(statement);
        for movement in &statement.movements {
            out += &movement_line(&movement.row);
        }
    }
    out + &format!("OK {}\n", statements.len())
}

/// The account comes before the currency here, unlike in the key.
fn statement_line(statement: &Statement) -> String {
    let head = statement.head;
    format!(
        "S {} {} {} {} {} {} {} {} {} {}\n",
        text(head.key.bank),
        text(head.key.branch),
        text(head.key.account),
        text(head.key.currency),
        text(&[head.key.decimals]),
        date(head.old_date),
        head.old_balance,
        statement.movements.len(),
        date(head.new_date),
        head.new_balance
    )
}

fn movement_line(row: &Row) -> String {
    format!(
        "M {} {} {} {}\n",
        date(row.booked),
        date(row.value),
        text(row.code),
        row.amount
    )
}

/// A date YYYYMMDD as YYYY-MM-DD.
fn date(number: u32) -> String {
    let (year, month, day) = (number / 10_000, number / 100 % 100, number % 100);
    format!("{year:04}-{month:02}-{day:02}")
}
