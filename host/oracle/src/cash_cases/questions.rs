//! What cases ask, and about which journal.

/// A journal and the cases about it, in turn.
pub struct Book {
    pub journal: Vec<u8>,
    pub cases: Vec<CashCase>,
}

pub struct CashCase {
    pub name: String,
    pub question: Question,
}

pub enum Question {
    /// The balance in value day by day, into a table of so many numbers.
    Position {
        key: Vec<u8>,
        first: u64,
        last: u64,
        rows: usize,
    },
    /// The new balances of these entries.
    Balances(Vec<u64>),
    /// Days, each with the number of days to go from it. They ask no journal.
    Days(Vec<(u64, u64)>),
}

/// First and last day.
pub type Span = (u64, u64);

impl Book {
    pub fn new(journal: Vec<u8>) -> Book {
        Book {
            journal,
            cases: Vec::new(),
        }
    }

    pub fn add(&mut self, name: impl Into<String>, question: Question) {
        let name = name.into();
        self.cases.push(CashCase { name, question });
    }

    pub fn position(&mut self, name: &str, key: &[u8], (first, last): Span, rows: usize) {
        let question = Question::Position {
            key: key.to_vec(),
            first,
            last,
            rows,
        };
        self.add(name, question);
    }

    /// Every choice of a known or an unknown key, a right or a wrong span, and a table that is long
    /// enough or short.
    pub fn faults_at_once(&mut self, name: &str, keys: [&[u8]; 2], spans: [Span; 2]) {
        for (key_word, key) in ["known", "unknown"].into_iter().zip(keys) {
            for (span_word, span) in ["right", "wrong"].into_iter().zip(spans) {
                for rows in [400, 0] {
                    let name = format!("{name}-{key_word}-key-{span_word}-span-{rows}-rows");
                    self.position(&name, key, span, rows);
                }
            }
        }
    }
}
