//! Journals that are not sound, or hardly: all later refusals come at once, so that the order shows.

use super::questions::{Book, Question, Span};
use super::statements::worked_key;
use crate::journal::{ENTRY, TABLE};
use crate::record::RECORD;
use crate::rng::Rng;
use crate::series_cases::scenes;

/// A right span and an empty one.
const SPANS: [Span; 2] = [(20_250_205, 20_250_206), (20_250_206, 20_250_205)];

pub fn unsound(rng: &mut Rng) -> Vec<Book> {
    let mut books = damaged(rng);
    books.extend(lengths());
    books.extend(one_byte_throughout());
    books
}

/// Each damage of the filled journals. Some leave a journal sound.
fn damaged(rng: &mut Rng) -> Vec<Book> {
    let mut books = Vec::new();
    for scene in scenes(rng.bits()) {
        let key = scene.list[0].key.bytes();
        for damage in scene.damages {
            books.push(asked(&damage.name, damage.bytes, &key));
        }
    }
    books
}

/// Every call, with each fault that it may have.
fn asked(name: &str, journal: Vec<u8>, key: &[u8]) -> Book {
    let mut book = Book::new(journal);
    let unknown = [b'0'; 25];
    book.faults_at_once(name, [key, &unknown], SPANS);
    let entries = vec![0, 1, 2, 3, 4, 128, 129, u64::MAX];
    book.add(name, Question::Balances(entries));
    book
}

/// Blank journals of lengths around the shortest and the longest.
fn lengths() -> Vec<Book> {
    let longest = TABLE + 100_000 * RECORD;
    let mut lengths = vec![0, 1, ENTRY, RECORD, longest - 1, longest, longest + 1];
    lengths.extend([longest + RECORD, longest + 2 * RECORD]);
    lengths.extend([TABLE - RECORD, TABLE - 1, TABLE, TABLE + 1, TABLE + ENTRY]);
    lengths.extend([TABLE + RECORD - 1, TABLE + RECORD, TABLE + RECORD + 1]);
    let book = |length: usize| {
        let name = format!("blank-{length}");
        asked(&name, vec![b' '; length], &worked_key().bytes())
    };
    lengths.into_iter().map(book).collect()
}

/// Journals of one byte throughout.
fn one_byte_throughout() -> Vec<Book> {
    let book = |byte: u8| {
        let name = format!("all-{byte}");
        asked(&name, vec![byte; TABLE + 3 * RECORD], &[byte; 25])
    };
    [0, b'0', b'9', b'.', 0xFF].map(book).into()
}
