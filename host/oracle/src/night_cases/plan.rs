//! A night while it is made.

use std::collections::BTreeSet;
use std::ops::Range;

use super::months::{Habits, Months};
use super::names::{almost_ignored, new_name};
use crate::cash_cases::statements::on;
use crate::rng::Rng;
use crate::series_cases::accounts::{apart, file, ZONES};
use crate::valid::{key, Key, Statement};

/// Whence it is known how an account ends.
#[derive(Clone, Copy, Debug, PartialEq, Eq, PartialOrd, Ord)]
pub enum Known {
    /// Its story tells.
    ByStory,
    /// A file of its story is cut. How it ends follows from the files.
    ByFiles,
    /// A file has another statement in the place of one of its own. Names may decide.
    Not,
}

/// An account's statements in a row: the first are held before the night, of the others most come
/// in it.
pub struct Chain {
    pub key: Key,
    pub statements: Vec<Statement>,
    /// How many of them are held before.
    pub held: usize,
    /// The month of the first.
    pub from: usize,
    /// The story it belongs to. Accounts of one story stand in the same files.
    pub story: usize,
    /// Those that the journal holds in the end, given room, as far as it is known: their indices in
    /// the row, from 0.
    pub end: Vec<usize>,
    pub known: Known,
}

/// A file that waits, and the statements that it is made of.
#[derive(Clone)]
pub struct Letter {
    pub name: String,
    pub line_end: u64,
    pub statements: Vec<Statement>,
    pub bytes: Vec<u8>,
    /// The story that it belongs to, if it may be sent again, cut or damaged.
    pub story: Option<usize>,
}

/// What waits, what is held before, what is tried.
pub struct Plan {
    months: Months,
    /// Whether no account of a story has statements that are held before.
    pub first_night: bool,
    pub chains: Vec<Chain>,
    pub letters: Vec<Letter>,
    pub tries: BTreeSet<&'static str>,
    pub used_names: BTreeSet<String>,
    /// How many stories there are; the last one is being made.
    pub stories: usize,
    /// The latest day that a chain may reach.
    pub last_day: u64,
}

impl Plan {
    pub fn new(rng: &mut Rng) -> Plan {
        let months = Months::new(rng);
        Plan {
            last_day: months.last(),
            months,
            first_night: rng.one_in(4),
            chains: Vec::new(),
            letters: Vec::new(),
            tries: BTreeSet::new(),
            used_names: BTreeSet::new(),
            stories: 0,
        }
    }

    pub fn tries(&mut self, what: &'static str) {
        self.tries.insert(what);
    }

    /// The months of most stories in this night, or others.
    pub fn months(&mut self, rng: &mut Rng) -> Months {
        let months = if rng.one_in(3) {
            Months::new(rng)
        } else {
            self.months.clone()
        };
        self.last_day = self.last_day.max(months.last());
        months
    }

    /// How many statements of an account are held before: up to so many.
    pub fn some_held(&self, rng: &mut Rng, most: usize) -> usize {
        if self.first_night {
            0
        } else {
            rng.index(most + 1)
        }
    }

    /// An account with statements for a row of months, the first of them held. Gives its index.
    pub fn chain(
        &mut self,
        rng: &mut Rng,
        months: &Months,
        range: Range<usize>,
        held: usize,
    ) -> usize {
        let habits = Habits::some(rng);
        self.chain_of(rng, months, range, held, habits)
    }

    /// The same with given habits.
    pub fn chain_of(
        &mut self,
        rng: &mut Rng,
        months: &Months,
        range: Range<usize>,
        held: usize,
        habits: Habits,
    ) -> usize {
        let key = self.new_key(rng);
        let from = range.start;
        let statements = months.statements(rng, &key, range, habits);
        let turn = on("010100");
        if statements
            .iter()
            .any(|one| one.old.day < turn && turn <= one.new.day)
        {
            self.tries("turn-of-century");
        }
        self.chains.push(Chain {
            end: (0..statements.len()).collect(),
            statements,
            key,
            held,
            from,
            story: self.stories,
            known: Known::ByStory,
        });
        self.chains.len() - 1
    }

    /// A key that no other account has; often it is one zone apart from another.
    fn new_key(&self, rng: &mut Rng) -> Key {
        loop {
            let new = match self.chains.last() {
                Some(last) if rng.one_in(2) => {
                    let zone = rng.pick(&ZONES);
                    apart(rng, &last.key, zone)
                }
                _ => key(rng),
            };
            if self.chains.iter().all(|one| one.key.bytes() != new.bytes()) {
                return new;
            }
        }
    }

    /// The journal holds so many of an account's statements in the end, the first ones.
    pub fn ends_after(&mut self, chain: usize, statements: usize) {
        self.chains[chain].end = (0..statements).collect();
    }

    /// A month of an account does not come. Where it sums to nothing the next one follows without
    /// it, and the journal holds all but that month in the end; else what is before it. Gives
    /// whether it is passed over.
    pub fn leave_out(&mut self, chain: usize, month: usize) -> bool {
        let statement = self.month(chain, month);
        let missing = month - self.chains[chain].from;
        let passed_over = statement.old.value == statement.new.value;
        if passed_over {
            self.tries("month-passed-over");
            self.chains[chain].end.retain(|&held| held != missing);
        } else {
            self.ends_after(chain, missing);
        }
        passed_over
    }

    /// The statement of an account for a month.
    pub fn month(&self, chain: usize, month: usize) -> Statement {
        let chain = &self.chains[chain];
        chain.statements[month - chain.from].clone()
    }

    /// From now on no more than that is known of the accounts of a story.
    pub fn know_less(&mut self, story: Option<usize>, known: Known) {
        for chain in &mut self.chains {
            if Some(chain.story) == story {
                chain.known = known.max(chain.known);
            }
        }
    }

    /// A name for one more file.
    fn name(&mut self, rng: &mut Rng) -> String {
        let name = if rng.one_in(8) {
            self.tries("almost-ignored-name");
            almost_ignored(rng, &self.used_names)
        } else {
            new_name(rng, &self.used_names)
        };
        self.used_names.insert(name.clone());
        name
    }

    /// A file of statements, with some line end.
    pub fn send(&mut self, rng: &mut Rng, statements: Vec<Statement>, story: Option<usize>) {
        let line_end = rng.below(3);
        self.send_with(rng, line_end, statements, story);
    }

    /// The same with a given line end.
    pub fn send_with(
        &mut self,
        rng: &mut Rng,
        line_end: u64,
        statements: Vec<Statement>,
        story: Option<usize>,
    ) {
        let bytes = file(line_end, &statements.iter().collect::<Vec<_>>());
        let name = self.name(rng);
        self.letters.push(Letter {
            name,
            line_end,
            statements,
            bytes,
            story,
        });
    }

    /// A file of any bytes.
    pub fn send_bytes(&mut self, rng: &mut Rng, bytes: Vec<u8>) {
        let name = self.name(rng);
        self.letters.push(Letter {
            name,
            line_end: 0,
            statements: Vec::new(),
            bytes,
            story: None,
        });
    }

    /// Gives the letters from that one on their names anew, the last name to the first.
    pub fn name_backwards(&mut self, first: usize) {
        let letters = &mut self.letters[first..];
        let mut names: Vec<String> = letters.iter().map(|one| one.name.clone()).collect();
        names.sort_unstable();
        for (letter, name) in letters.iter_mut().zip(names.into_iter().rev()) {
            letter.name = name;
        }
    }

    /// A letter that may be sent again, cut or damaged.
    pub fn some_letter(&self, rng: &mut Rng) -> Option<usize> {
        let fit = |index: &usize| self.letters[*index].story.is_some();
        let places: Vec<usize> = (0..self.letters.len()).filter(fit).collect();
        if places.is_empty() {
            None
        } else {
            Some(rng.pick(&places))
        }
    }
}
