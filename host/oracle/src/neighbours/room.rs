//! How much room a journal has, and how much of it deliveries take.

use super::Delivery;
use crate::check::RECORD;
use crate::delivery::{deliver, to_be_held};
use crate::journal::{open, used, ENTRIES, TABLE};

/// Entries and body lines.
#[derive(Clone, Copy, Default, PartialEq)]
pub struct Room {
    pub entries: usize,
    pub lines: usize,
}

impl Room {
    /// What is left in a journal.
    pub fn left_in(journal: &[u8]) -> Room {
        let used = used(journal).expect("a journal of deliveries alone is sound");
        Room {
            entries: ENTRIES - used.statements,
            lines: used.lines - used.lines_taken,
        }
    }

    /// What a file takes while it is judged: its statements one by one, up to the first that is
    /// refused. One that is refused there needs that much room too, or it would be refused for room.
    pub fn to_judge(journal: &[u8], delivery: &Delivery) -> Room {
        let mut journal = journal.to_vec();
        let before = Room::left_in(&journal);
        let statements = to_be_held(delivery.line_end, &delivery.file).unwrap_or_default();
        for statement in statements {
            if deliver(&mut journal, 0, &statement.records).is_err() {
                break;
            }
        }
        before.without(Room::left_in(&journal))
    }

    /// Nothing where the other is more.
    pub fn without(self, other: Room) -> Room {
        Room {
            entries: self.entries.saturating_sub(other.entries),
            lines: self.lines.saturating_sub(other.lines),
        }
    }

    pub fn and(self, other: Room) -> Room {
        Room {
            entries: self.entries + other.entries,
            lines: self.lines + other.lines,
        }
    }

    /// Enough for either.
    pub fn or(self, other: Room) -> Room {
        Room {
            entries: self.entries.max(other.entries),
            lines: self.lines.max(other.lines),
        }
    }

    pub fn is_enough_for(self, other: Room) -> bool {
        self.or(other) == self
    }
}

/// A journal of so many lines, opened.
pub fn opened(lines: usize) -> Vec<u8> {
    let mut journal = vec![b'.'; TABLE + RECORD * lines];
    open(&mut journal).expect("a right length");
    journal
}
