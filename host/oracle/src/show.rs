//! What the readers answer, as the command prints it.
//!
//! An accepted file holds permitted bytes only, so its zones are printed as they are.

use crate::read::{statements, Head, Place, Refusal, Row, Statement};

/// The line of a reader's answer.
pub fn line<T>(answer: Result<T, Refusal>, show: impl Fn(T) -> String) -> String {
    match answer {
        Ok(value) => show(value),
        Err(refusal) => refusal_line(refusal),
    }
}

pub fn refusal_line(refusal: Refusal) -> String {
    format!("refused {} {}", refusal.number, refusal.record)
}

pub fn place_line(place: Place) -> String {
    place_fields(place).join("|")
}

pub fn head_line((head, movements): (Head, u64)) -> String {
    head_fields(head, movements).join("|")
}

pub fn row_line(row: Row) -> String {
    row_fields(row).join("|")
}

pub fn complement_line(complement: &[u8]) -> String {
    text(complement)
}

/// Everything in an accepted file: an S line a statement, an M line a movement, a C line a
/// complement. One line for a refused file.
pub fn readings(line_end: u64, file: &[u8]) -> Vec<String> {
    match statements(line_end, file) {
        Ok(statements) => statements.iter().flat_map(statement_lines).collect(),
        Err(refusal) => vec![refusal_line(refusal)],
    }
}

fn statement_lines(statement: &Statement) -> Vec<String> {
    let mut fields = place_fields(statement.place);
    fields.extend(head_fields(
        statement.head,
        statement.movements.len() as u64,
    ));
    let mut lines = vec![format!("S {}", fields.join(" "))];
    for movement in &statement.movements {
        lines.push(format!("M {}", row_line(movement.row)));
        for complement in &movement.complements {
            lines.push(format!("C {}", complement_line(complement)));
        }
    }
    lines
}

fn place_fields(place: Place) -> Vec<String> {
    vec![place.first.to_string(), place.length.to_string()]
}

fn head_fields(head: Head, movements: u64) -> Vec<String> {
    vec![
        text(head.key.bank),
        text(head.key.branch),
        text(head.key.currency),
        text(&[head.key.decimals]),
        text(head.key.account),
        head.old_date.to_string(),
        head.old_balance.to_string(),
        head.new_date.to_string(),
        head.new_balance.to_string(),
        movements.to_string(),
    ]
}

fn row_fields(row: Row) -> Vec<String> {
    vec![
        text(row.internal),
        text(row.code),
        row.booked.to_string(),
        text(row.reject),
        row.value.to_string(),
        text(row.label),
        row.entry.to_string(),
        text(&[row.exempt]),
        text(&[row.unavailable]),
        row.amount.to_string(),
        text(row.reference),
        row.complements.to_string(),
    ]
}

/// Permitted bytes as text.
pub fn text(bytes: &[u8]) -> String {
    bytes.iter().copied().map(char::from).collect()
}
