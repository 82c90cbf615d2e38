//! What accounts send: statements that follow, statements again, ones that do not follow, files that
//! the check refuses, files of no bytes.

use super::Delivery;
use crate::check::{check, Answer};
use crate::damage::{pick, Recipe};
use crate::hostile::{random_file, FAR_OUT};
use crate::journal::{held, last_of, Held};
use crate::record::{get, read_date, RECORD};
use crate::rng::Rng;
use crate::series_cases::accounts::{file, in_some_writing, relabelled, Account};
use crate::series_cases::overlap;
use crate::valid::{Balance, Statement};
use crate::worked_account::draft;

/// A delivery, and the statements of its file; none where the check refuses it.
#[derive(Clone)]
pub struct Sent {
    pub delivery: Delivery,
    pub statements: Vec<Statement>,
}

impl Sent {
    /// A file of these statements, with some line end.
    pub fn of(rng: &mut Rng, statements: Vec<Statement>) -> Sent {
        let line_end = rng.below(3);
        let file = file(line_end, &statements.iter().collect::<Vec<_>>());
        Sent {
            delivery: Delivery { line_end, file },
            statements,
        }
    }

    fn without_statements(line_end: u64, file: Vec<u8>) -> Sent {
        Sent {
            delivery: Delivery { line_end, file },
            statements: Vec::new(),
        }
    }

    /// A file of these statements with a damage for which the check refuses it.
    pub fn damaged(rng: &mut Rng, list: &[Recipe], statements: &[Statement]) -> Sent {
        let records: Vec<&[Vec<u8>]> = statements.iter().map(|one| &one.records[..]).collect();
        let records = records.concat();
        loop {
            let right = draft(&records, rng.below(3));
            let case = pick(rng, list).damage(rng, right);
            let refused =
                |line_end, file: &[u8]| matches!(check(line_end, file), Answer::Refused { .. });
            if let Some(case) = case.filter(|case| refused(case.line_end, &case.bytes)) {
                return Sent::without_statements(case.line_end, case.bytes);
            }
        }
    }

    /// No bytes, random ones, or a right file with a line-end number that there is not.
    fn nonsense(rng: &mut Rng, statements: Vec<Statement>) -> Sent {
        match rng.below(3) {
            0 => Sent::without_statements(rng.below(3), Vec::new()),
            1 => {
                let right = Sent::of(rng, statements).delivery;
                Sent::without_statements(rng.pick(&FAR_OUT), right.file)
            }
            _ => {
                let random = random_file(rng);
                Sent::without_statements(random.line_end, random.bytes)
            }
        }
    }
}

/// Accounts along their way.
pub struct Walk {
    pub accounts: Vec<Account>,
    /// The statements of files that were delivered.
    delivered: Vec<Statement>,
    /// Statements that were left out while the balance stayed. They come too late.
    left_out: Vec<Statement>,
}

impl Walk {
    pub fn new(accounts: Vec<Account>) -> Walk {
        Walk {
            accounts,
            delivered: Vec::new(),
            left_out: Vec::new(),
        }
    }

    /// Something to send. The accounts stay as they are until it is delivered.
    pub fn next(&mut self, rng: &mut Rng, list: &[Recipe]) -> Sent {
        let statements = match rng.below(20) {
            0..=6 => self.new_ones(rng),
            7..=9 => return self.again(rng),
            10 => self.passing_over(rng),
            11 => self.too_late(rng),
            12 | 13 => return self.astray(rng),
            14 => self.behind_new_ones(rng),
            15 => self.behind_a_gap(rng),
            16 => self.corrected(rng),
            17 | 18 => {
                let right = self.new_ones(rng);
                return Sent::damaged(rng, list, &right);
            }
            _ => {
                let right = self.new_ones(rng);
                return Sent::nonsense(rng, right);
            }
        };
        Sent::of(rng, statements)
    }

    /// One to three statements that were delivered, each in some writing. New ones where there are
    /// none.
    pub fn again(&self, rng: &mut Rng) -> Sent {
        let statements = match self.delivered.len() {
            0 => self.new_ones(rng),
            _ => (0..1 + rng.index(3)).map(|_| self.one_again(rng)).collect(),
        };
        Sent::of(rng, statements)
    }

    /// One that begins on an earlier day or with another balance.
    pub fn astray(&self, rng: &mut Rng) -> Sent {
        let mut file = self.in_front(rng);
        let account = self.some_account(rng);
        file.push(one_astray(rng, &account));
        Sent::of(rng, file)
    }

    /// A file was delivered: the accounts go on from what the journal holds now.
    pub fn go_on(&mut self, journal: &[u8], sent: &Sent) {
        let list = held(journal).expect("a journal of deliveries alone is sound");
        for account in &mut self.accounts {
            if let Some(last) = last_of(&list, &account.key.bytes()) {
                account.last = end_of(last);
            }
        }
        self.delivered.extend(sent.statements.iter().cloned());
    }

    /// Any of the accounts, to be led on without a delivery.
    pub fn some_account(&self, rng: &mut Rng) -> Account {
        self.accounts[rng.index(self.accounts.len())].clone()
    }

    /// New statements, and others again.
    fn new_ones(&self, rng: &mut Rng) -> Vec<Statement> {
        overlap(rng, &mut self.accounts.clone(), &mut self.delivered.clone())
    }

    fn one_again(&self, rng: &mut Rng) -> Statement {
        let index = rng.index(self.delivered.len());
        in_some_writing(rng, &self.delivered[index])
    }

    /// None or one that was delivered, to stand in front of others.
    fn in_front(&self, rng: &mut Rng) -> Vec<Statement> {
        let one = !self.delivered.is_empty() && rng.one_in(2);
        one.then(|| self.one_again(rng)).into_iter().collect()
    }

    /// A statement that passes over one by which the balance stays.
    fn passing_over(&mut self, rng: &mut Rng) -> Vec<Statement> {
        let mut account = self.some_account(rng);
        self.left_out.push(account.next_unchanged(rng));
        vec![account.next(rng)]
    }

    /// One that was passed over. New ones where there is none.
    fn too_late(&self, rng: &mut Rng) -> Vec<Statement> {
        if self.left_out.is_empty() {
            return self.new_ones(rng);
        }
        let mut file = self.in_front(rng);
        file.push(self.left_out[rng.index(self.left_out.len())].clone());
        file
    }

    /// One that does not follow behind new ones, and now and then one behind it that would have
    /// followed them.
    fn behind_new_ones(&self, rng: &mut Rng) -> Vec<Statement> {
        let mut accounts = self.accounts.clone();
        let mut file = overlap(rng, &mut accounts, &mut self.delivered.clone());
        let account = &mut accounts[rng.index(self.accounts.len())];
        file.push(one_astray(rng, account));
        if rng.one_in(3) {
            file.push(account.next(rng));
        }
        file
    }

    /// The second next one alone.
    fn behind_a_gap(&self, rng: &mut Rng) -> Vec<Statement> {
        let mut account = self.some_account(rng);
        account.next_plain(rng);
        vec![account.next(rng)]
    }

    /// Another statement of a period that was delivered. New ones where there is none.
    fn corrected(&self, rng: &mut Rng) -> Vec<Statement> {
        if self.delivered.is_empty() {
            return self.new_ones(rng);
        }
        let mut file = self.in_front(rng);
        let one = self.one_again(rng);
        file.push(relabelled(rng, &one));
        file
    }
}

fn one_astray(rng: &mut Rng, account: &Account) -> Statement {
    let (days, money) = rng.pick(&[(0, 1), (0, 10), (3, 1), (-1, 0), (-1, 1), (-31, 0)]);
    account.astray(rng, days, money)
}

/// The day and the balance with which a held statement ends.
fn end_of(last: &Held) -> Balance {
    let new = &last.records[last.records.len() - RECORD..];
    Balance {
        day: read_date(get(new, 35, 40)).expect("a date that exists"),
        value: i64::try_from(last.new_balance).expect("a balance has 14 digits"),
    }
}
