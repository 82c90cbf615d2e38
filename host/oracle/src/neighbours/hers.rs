//! What one account sends, and the room that it takes.

use super::room::{opened, Room};
use super::walk::{Sent, Walk};
use crate::damage::Recipe;
use crate::delivery::deliver;
use crate::rng::Rng;
use crate::series_cases::accounts::Account;
use crate::valid::{Balance, Key};

/// More than the deliveries of an account take.
const ENOUGH_LINES: usize = 600;

/// The deliveries of an account.
pub struct Hers {
    pub key: Key,
    /// What the account begins with.
    pub begins: Balance,
    pub sent: Vec<Sent>,
    /// The room that each delivery and those after it need so that none is refused for room; after
    /// the last there is none to need any.
    pub needs: Vec<Room>,
}

impl Hers {
    /// Five to ten deliveries. The last two need no room where something is held: a statement that
    /// does not follow, and statements again.
    pub fn new(rng: &mut Rng, list: &[Recipe]) -> Hers {
        let account = match rng.below(4) {
            0 => Account::at_nil(rng),
            _ => Account::new(rng),
        };
        let (key, begins) = (account.key.clone(), account.last);
        let mut walk = Walk::new(vec![account]);
        let mut journal = opened(ENOUGH_LINES);
        let (mut sent, mut taken) = (Vec::new(), Vec::new());
        let count = 5 + rng.index(6);
        for left in (0..count).rev() {
            let next = match left {
                0 => walk.again(rng),
                1 => walk.astray(rng),
                _ => walk.next(rng, list),
            };
            taken.push(taken_by(&mut walk, &mut journal, &next));
            sent.push(next);
        }
        Hers {
            key,
            begins,
            sent,
            needs: needs(&taken),
        }
    }
}

/// Delivers a file. Gives the room that it takes while it is judged, and the room that it takes then.
fn taken_by(walk: &mut Walk, journal: &mut [u8], sent: &Sent) -> (Room, Room) {
    let judged = Room::to_judge(journal, &sent.delivery);
    let before = Room::left_in(journal);
    if deliver(journal, sent.delivery.line_end, &sent.delivery.file).is_ok() {
        walk.go_on(journal, sent);
    }
    (judged, before.without(Room::left_in(journal)))
}

/// From the last to the first: room to judge it, and for what it stores beside what comes after it.
fn needs(taken: &[(Room, Room)]) -> Vec<Room> {
    let mut needs = vec![Room::default()];
    for &(judged, stored) in taken.iter().rev() {
        let after = needs[needs.len() - 1];
        needs.push(judged.or(stored.and(after)));
    }
    needs.reverse();
    needs
}
