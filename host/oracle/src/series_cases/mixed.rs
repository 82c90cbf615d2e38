//! Series at random.

use super::accounts::{apart, Account, ZONES};
use super::damaged::play_journals;
use super::deliveries::overlap;
use super::scenes;
use super::script::{Script, TABLE};
use crate::damage::{pick, recipes};
use crate::rng::Rng;
use crate::valid::Statement;
use crate::write::small_damaged_case;

const ENOUGH_BYTES: usize = 70_000;

/// A filled journal with one to three bytes changed anywhere, mostly where it is used.
pub fn random_damages(rng: &mut Rng, script: &mut Script) {
    let scene = scenes::one_bank(rng);
    let damaged: Vec<Vec<u8>> = (0..40).map(|_| random_damage(rng, &scene.bytes)).collect();
    let damaged: Vec<&[u8]> = damaged.iter().map(Vec::as_slice).collect();
    play_journals(rng, script, &scene, &damaged);
}

fn random_damage(rng: &mut Rng, journal: &[u8]) -> Vec<u8> {
    let mut bytes = journal.to_vec();
    for _ in 0..1 + rng.index(3) {
        let offset = match rng.below(4) {
            0 => rng.index(bytes.len()),
            1 => rng.index(4 * 60),
            _ => TABLE + rng.index(bytes.len() - TABLE),
        };
        bytes[offset] = match rng.below(4) {
            0 => rng.byte(0, 255),
            1 => rng.byte(b'0', b'9'),
            2 => b' ',
            _ => bytes[offset] ^ 1,
        };
    }
    bytes
}

/// All operations in any order on a journal of some size.
pub fn mixed(rng: &mut Rng, script: &mut Script) {
    let lines = rng.pick(&[5, 30, 100, 300, 482]);
    script.fresh(lines);
    let mut walk = Walk::new(rng);
    while script.bytes.len() < ENOUGH_BYTES && !rng.one_in(60) {
        walk.step(rng, script, lines);
    }
    script.sound();
}

/// What a random series goes along with.
struct Walk {
    accounts: Vec<Account>,
    sent: Vec<Statement>,
}

impl Walk {
    /// Three accounts, the third near the first.
    fn new(rng: &mut Rng) -> Walk {
        let (one, two) = (Account::new(rng), Account::new(rng));
        let zone = rng.pick(&ZONES);
        let near = apart(rng, &one.key, zone);
        let three = Account::of(rng, near);
        Walk {
            accounts: vec![one, two, three],
            sent: Vec::new(),
        }
    }

    fn step(&mut self, rng: &mut Rng, script: &mut Script, lines: usize) {
        let line_end = rng.below(3);
        match rng.below(16) {
            0..=5 => {
                let file = overlap(rng, &mut self.accounts, &mut self.sent);
                script.deliver(line_end, &file.iter().collect::<Vec<_>>());
            }
            6 | 7 => {
                let file = self.some_sent(rng);
                script.deliver(line_end, &file.iter().collect::<Vec<_>>());
            }
            8 => self.send_astray(rng, script),
            9 => send_damaged(rng, script),
            10..=12 => self.ask_newest(rng, script),
            13 => script.entries(&[rng.below(self.sent.len() as u64 + 3)]),
            14 => script.sound(),
            _ => self.spoil(rng, script, lines),
        }
    }

    /// Up to four that were sent before, one or the other twice.
    fn some_sent(&self, rng: &mut Rng) -> Vec<Statement> {
        let count = rng.index(5).min(self.sent.len());
        let mut one = || self.sent[rng.index(self.sent.len())].clone();
        (0..count).map(|_| one()).collect()
    }

    /// A statement that may follow and one that does not; neither is stored, so no account goes on.
    fn send_astray(&self, rng: &mut Rng, script: &mut Script) {
        let account = &self.accounts[rng.index(self.accounts.len())];
        let mut file = self.some_sent(rng);
        let days = rng.pick(&[-1, 0, 1, 3]);
        let money = rng.pick(&[0, 1]);
        file.push(account.astray(rng, days, money));
        file.push(account.astray(rng, -2, 2));
        script.deliver(rng.below(3), &file.iter().collect::<Vec<_>>());
    }

    /// With new statements in the file, which are not sent, or with some that were.
    fn ask_newest(&mut self, rng: &mut Rng, script: &mut Script) {
        let key = self.accounts[rng.index(self.accounts.len())].key.clone();
        let file = if rng.one_in(2) {
            overlap(rng, &mut self.accounts.clone(), &mut self.sent.clone())
        } else {
            self.some_sent(rng)
        };
        script.newest(rng.below(3), &key, &file.iter().collect::<Vec<_>>());
    }

    /// A byte changed and some calls; often the journal is opened again then.
    fn spoil(&mut self, rng: &mut Rng, script: &mut Script, lines: usize) {
        script.poke(rng.index(TABLE + 120 * lines), rng.byte(0, 255));
        script.sound();
        self.ask_newest(rng, script);
        script.deliver(
            rng.below(3),
            &self.some_sent(rng).iter().collect::<Vec<_>>(),
        );
        if rng.one_in(2) {
            script.open();
            self.sent.clear();
        }
    }
}

/// A damaged file, often refused by the check.
fn send_damaged(rng: &mut Rng, script: &mut Script) {
    let list = recipes();
    let recipe = pick(rng, &list);
    let number = rng.index(3);
    if let Some(case) = small_damaged_case(rng, recipe, number) {
        // A header has room for 19 digits.
        script.deliver_bytes(case.line_end.min(1 << 63), &case.bytes);
    }
}
