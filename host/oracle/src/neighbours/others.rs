//! What neighbours send before, between and after the deliveries of one account.
//!
//! None of it takes the room that she still needs. A file that would is left out.

use super::hers::Hers;
use super::room::{opened, Room};
use super::walk::{Sent, Walk};
use super::{Delivery, Run};
use crate::damage::Recipe;
use crate::delivery::{deliver, TABLE_FULL, TOO_FEW_LINES};
use crate::journal::ENTRIES;
use crate::rng::Rng;
use crate::series_cases::accounts::{apart, twin, Account, ZONES};
use crate::valid::{key, Key, Statement};
use crate::write::shuffle;

/// No neighbour, and just enough room or more.
pub fn none(rng: &mut Rng, hers: &Hers) -> Run {
    Run {
        lines: hers.needs[0].lines + rng.pick(&[0, 0, 1, 50]),
        between: vec![Vec::new(); hers.sent.len() + 1],
    }
}

/// Neighbours in a journal with little more than the room that she needs, or with much more.
pub fn some(rng: &mut Rng, list: &[Recipe], hers: &Hers) -> Run {
    let more_lines = match rng.below(2) {
        0 => rng.index(12),
        _ => 30 + rng.index(90),
    };
    let mut street = Street::new(rng, list, hers, more_lines);
    street.run(rng, |street, rng, index| {
        let count = rng.index(5);
        let deliveries = (0..count).filter_map(|_| street.something(rng, index));
        deliveries.collect()
    })
}

/// Few neighbours, which at some time leave her no more entries than she needs, or few more. Before
/// her last two deliveries, which need none, they take all.
pub fn crowd(rng: &mut Rng, list: &[Recipe], hers: &Hers) -> Run {
    let full = hers.sent.len() - 2;
    let begins = rng.index(full);
    let mut street = Street::new(rng, list, hers, 2 * ENTRIES + 8);
    street.run(rng, |street, rng, index| {
        let mut deliveries = Vec::new();
        if index == begins || index == full {
            let spared = if index == full { 0 } else { rng.index(4) };
            let others = street.entries_but(rng, index, spared);
            deliveries.extend(street.delivered(others, index));
        }
        if rng.one_in(2) {
            deliveries.extend(street.something(rng, index));
        }
        if index == full || rng.one_in(4) {
            let sent = street.entry_too_many(rng);
            deliveries.extend(sent.and_then(|sent| street.delivered(sent, index)));
        }
        deliveries
    })
}

/// A journal with neighbours around one account.
struct Street<'a> {
    list: &'a [Recipe],
    hers: &'a Hers,
    journal: Vec<u8>,
    lines: usize,
    walk: Walk,
    /// A neighbour that also sends what she sends, but for the key, and how many of her files it has
    /// sent. Where there are several it sends nothing else.
    twin: Key,
    twin_sent: usize,
}

impl<'a> Street<'a> {
    /// With so many lines more than she needs.
    fn new(rng: &mut Rng, list: &'a [Recipe], hers: &'a Hers, more_lines: usize) -> Street<'a> {
        let lines = hers.needs[0].lines + more_lines;
        let mut keys = keys_around(rng, &hers.key);
        let twin = keys[0].clone();
        if keys.len() > 1 {
            keys.remove(0);
        }
        let accounts = keys.into_iter().map(|key| around(rng, hers, key));
        Street {
            list,
            hers,
            journal: opened(lines),
            lines,
            walk: Walk::new(accounts.collect()),
            twin,
            twin_sent: 0,
        }
    }

    /// Her deliveries in turn. What neighbours send before each of them, and after the last, is made
    /// while the journal stands there.
    fn run(
        &mut self,
        rng: &mut Rng,
        neighbours: impl Fn(&mut Street, &mut Rng, usize) -> Vec<Delivery>,
    ) -> Run {
        let mut between = Vec::new();
        for index in 0..=self.hers.sent.len() {
            between.push(neighbours(self, rng, index));
            if let Some(next) = self.hers.sent.get(index) {
                self.deliver_hers(&next.delivery);
            }
        }
        Run {
            lines: self.lines,
            between,
        }
    }

    /// Her delivery. It has room, and a refusal for another reason leaves the journal as it is.
    fn deliver_hers(&mut self, Delivery { line_end, file }: &Delivery) {
        let answer = deliver(&mut self.journal, *line_end, file);
        let number = answer.map_or_else(|refused| refused.refusal.number, |_| 0);
        assert!(![TABLE_FULL, TOO_FEW_LINES].contains(&number));
    }

    /// A file of some neighbour before her delivery of that index. None where it was left out.
    fn something(&mut self, rng: &mut Rng, index: usize) -> Option<Delivery> {
        let sent = match rng.below(10) {
            0 | 1 => self.as_she_does(rng),
            2 => self.her_bytes(rng, index),
            3 => self.line_too_many(rng),
            4 => self.lines_but_hers(rng, index),
            _ => Some(self.walk.next(rng, self.list)),
        };
        self.delivered(sent?, index)
    }

    /// Delivers a file, unless it takes room that she still needs.
    fn delivered(&mut self, sent: Sent, index: usize) -> Option<Delivery> {
        let Delivery { line_end, file } = &sent.delivery;
        let mut journal = self.journal.clone();
        if deliver(&mut journal, *line_end, file).is_ok() {
            let left = Room::left_in(&journal);
            if !left.is_enough_for(self.hers.needs[index]) {
                return None;
            }
            self.walk.go_on(&journal, &sent);
            self.journal = journal;
        }
        Some(sent.delivery)
    }

    /// Her files in turn, each statement with another key; now and then any of them.
    fn as_she_does(&mut self, rng: &mut Rng) -> Option<Sent> {
        let number = match rng.below(4) {
            0 => rng.index(self.hers.sent.len()),
            _ => self.twin_sent % self.hers.sent.len(),
        };
        self.twin_sent += 1;
        let theirs = |one: &Statement| twin(one, &self.twin);
        let statements = self.hers.sent[number].statements.iter().map(theirs);
        let statements: Vec<Statement> = statements.collect();
        (!statements.is_empty()).then(|| Sent::of(rng, statements))
    }

    /// A file of hers with a damage for which the check refuses it: the next one or any, now and then
    /// with a statement of a neighbour behind.
    fn her_bytes(&self, rng: &mut Rng, index: usize) -> Option<Sent> {
        let any = rng.index(self.hers.sent.len());
        let next = self.hers.sent.get(index).filter(|_| !rng.one_in(3));
        let mut statements = next.unwrap_or(&self.hers.sent[any]).statements.clone();
        if rng.one_in(4) {
            statements.push(self.walk.some_account(rng).next(rng));
        }
        (!statements.is_empty()).then(|| Sent::damaged(rng, self.list, &statements))
    }

    /// A statement of one line more than is left, if that is not many.
    fn line_too_many(&self, rng: &mut Rng) -> Option<Sent> {
        let lines = Room::left_in(&self.journal).lines + 1;
        self.one_of_lines(rng, lines)
    }

    /// A statement of as many lines as she does not need, if those are not many.
    fn lines_but_hers(&self, rng: &mut Rng, index: usize) -> Option<Sent> {
        let spare = Room::left_in(&self.journal).without(self.hers.needs[index]);
        self.one_of_lines(rng, spare.lines)
    }

    fn one_of_lines(&self, rng: &mut Rng, lines: usize) -> Option<Sent> {
        let mut account = self.walk.some_account(rng);
        let few = (2..40).contains(&lines);
        few.then(|| {
            let statement = account.next_of(rng, lines);
            Sent::of(rng, vec![statement])
        })
    }

    /// Statements for as many entries as she does not need, but for some that are spared.
    fn entries_but(&self, rng: &mut Rng, index: usize, spared: usize) -> Sent {
        let spare = Room::left_in(&self.journal).without(self.hers.needs[index]);
        let count = spare.entries.min(spare.lines / 2).saturating_sub(spared);
        self.quiet_ones(rng, count)
    }

    /// One statement more than there are entries left, if those are not many.
    fn entry_too_many(&self, rng: &mut Rng) -> Option<Sent> {
        let left = Room::left_in(&self.journal);
        let count = left.entries + 1;
        let few = count <= 20 && left.lines >= 2 * count;
        few.then(|| self.quiet_ones(rng, count))
    }

    /// So many statements of two records, of all accounts in turn.
    fn quiet_ones(&self, rng: &mut Rng, count: usize) -> Sent {
        let mut accounts = self.walk.accounts.clone();
        let number = accounts.len();
        let statements = (0..count).map(|turn| accounts[turn % number].next_quiet(rng));
        let statements = statements.collect();
        Sent::of(rng, statements)
    }
}

/// Keys of one to five neighbours. Most differ from hers in one zone, each in another one.
fn keys_around(rng: &mut Rng, hers: &Key) -> Vec<Key> {
    let mut zones = ZONES;
    shuffle(rng, &mut zones);
    let count = 1 + rng.index(ZONES.len());
    let near = |zone| match rng.below(5) {
        0 => key(rng),
        _ => apart(rng, hers, zone),
    };
    zones.into_iter().take(count).map(near).collect()
}

/// A neighbour that begins as she does, or anywhere.
fn around(rng: &mut Rng, hers: &Hers, key: Key) -> Account {
    match rng.below(3) {
        0 => Account {
            key,
            last: hers.begins,
        },
        _ => Account::of(rng, key),
    }
}
