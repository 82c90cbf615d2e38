//! Accounts whose statements come in the night.

use super::months::Habits;
use super::never::corrected;
use super::plan::Plan;
use crate::rng::Rng;
use crate::valid::Statement;
use crate::write::shuffle;

/// Makes the accounts of a story and sends their files.
type Make = fn(&mut Rng, &mut Plan);

/// The stories, how many accounts they have at most, and how common they are.
const STORIES: [(Make, usize, usize); 15] = [
    (known, 1, 8),
    (new, 1, 4),
    (dormant, 1, 3),
    (closing_early, 1, 3),
    (together, 3, 6),
    (astride, 3, 6),
    (dormant_astride, 3, 3),
    (behind, 3, 3),
    (stuck, 2, 3),
    (stuck_for_ever, 2, 3),
    (crossed, 2, 1),
    (gap_inside, 1, 1),
    (missing, 1, 4),
    (dormant_missing, 1, 2),
    (backwards, 1, 5),
];

/// Those of a first night.
const FIRST_STORIES: [(Make, usize, usize); 7] = [
    (new, 1, 5),
    (closing_early, 1, 2),
    (together, 3, 6),
    (behind, 3, 3),
    (crossed, 2, 1),
    (gap_inside, 1, 1),
    (backwards, 1, 3),
];

/// A night has one to three stories, of four accounts at most.
pub fn add(rng: &mut Rng, plan: &mut Plan) {
    for _ in 0..1 + rng.index(3) {
        let (make, accounts) = some_story(rng, plan.first_night);
        if plan.chains.len() + accounts <= 4 {
            plan.stories += 1;
            make(rng, plan);
        }
    }
}

/// A story and how many accounts it has at most.
fn some_story(rng: &mut Rng, first_night: bool) -> (Make, usize) {
    let stories: &[(Make, usize, usize)] = if first_night {
        &FIRST_STORIES
    } else {
        &STORIES
    };
    let list = stories
        .iter()
        .flat_map(|&(make, accounts, times)| vec![(make, accounts); times]);
    rng.pick(&list.collect::<Vec<_>>())
}

/// An account of which some months are held: the next ones come.
fn known(rng: &mut Rng, plan: &mut Plan) {
    plan.tries("known-account");
    let held = 1 + rng.index(3);
    let habits = Habits::some(rng);
    let first = plan.letters.len();
    one_account(rng, plan, held, habits);
    if rng.one_in(2) {
        plan.name_backwards(first);
    }
}

/// An account of which nothing is held. Its later months have the names that come first.
fn new(rng: &mut Rng, plan: &mut Plan) {
    plan.tries("new-account");
    let habits = Habits::some(rng);
    later_names_first(rng, plan, 0, habits);
}

/// An account of which some months are held and whose balance stays, so that each month follows each
/// earlier one. The later months have the names that come first.
fn dormant(rng: &mut Rng, plan: &mut Plan) {
    plan.tries("dormant-account");
    let held = 1 + rng.index(3);
    let habits = Habits::dormant(rng);
    later_names_first(rng, plan, held, habits);
}

/// An account whose months close days before the next one opens, known or new.
fn closing_early(rng: &mut Rng, plan: &mut Plan) {
    plan.tries("month-closes-early");
    let held = plan.some_held(rng, 2);
    let habits = Habits {
        closes_early: true,
        ..Habits::some(rng)
    };
    later_names_first(rng, plan, held, habits);
}

/// The months of one account, the last name for the first.
fn later_names_first(rng: &mut Rng, plan: &mut Plan, held: usize, habits: Habits) {
    let first = plan.letters.len();
    one_account(rng, plan, held, habits);
    plan.name_backwards(first);
}

/// Two to four months of an account come, in files of one month or of several.
fn one_account(rng: &mut Rng, plan: &mut Plan, held: usize, habits: Habits) {
    let months = plan.months(rng);
    let end = held + 2 + rng.index(3);
    let chain = plan.chain_of(rng, &months, 0..end, held, habits);
    let mut month = held;
    while month < end {
        let count = match rng.below(4) {
            0 => 2 + rng.index(2),
            _ => 1,
        };
        let next = end.min(month + count);
        if next > month + 1 {
            plan.tries("several-months");
        }
        let statements = (month..next).map(|m| plan.month(chain, m)).collect();
        plan.send(rng, statements, Some(plan.stories));
        month = next;
    }
}

/// Two or three accounts whose statements for a month stand in one file or in two.
fn together(rng: &mut Rng, plan: &mut Plan) {
    plan.tries("accounts-together");
    let months = plan.months(rng);
    let (first, end) = (3, 4 + rng.index(3));
    let mut chains = Vec::new();
    for _ in 0..2 + rng.index(2) {
        let held = plan.some_held(rng, 3);
        chains.push(plan.chain(rng, &months, first - held..end, held));
    }
    let letter = plan.letters.len();
    for month in first..end {
        shuffle(rng, &mut chains);
        let alone = if rng.one_in(4) { 1 } else { 0 };
        for chains in [&chains[..alone], &chains[alone..]] {
            let statements: Vec<Statement> =
                chains.iter().map(|&one| plan.month(one, month)).collect();
            if !statements.is_empty() {
                plan.send(rng, statements, Some(plan.stories));
            }
        }
    }
    if rng.one_in(2) {
        plan.name_backwards(letter);
    }
}

/// A file begins with an early month of one account and has a late month of another, whose month
/// between comes in a file that is later in the order. So there is a second round, or a third.
fn astride(rng: &mut Rng, plan: &mut Plan) {
    let files = 2 + rng.index(2);
    plan.tries(["second-round", "third-round"][files - 2]);
    in_steps(rng, plan, files, true, Habits::some);
}

/// The same with accounts whose balance stays: the late month would follow without the one between.
fn dormant_astride(rng: &mut Rng, plan: &mut Plan) {
    plan.tries("dormant-second-round");
    let files = 2 + rng.index(2);
    in_steps(rng, plan, files, true, Habits::dormant);
}

/// The same with other accounts of which nothing is held: the first month of each is the one that
/// comes in the later file.
fn behind(rng: &mut Rng, plan: &mut Plan) {
    plan.tries("first-month-behind");
    let files = 2 + rng.index(2);
    in_steps(rng, plan, files, false, Habits::some);
}

/// Files one after another, each with a month of its own account and the month after the next one's
/// own. Of the first account months are held, unless it is a first night; of the others where they
/// are known.
fn in_steps(
    rng: &mut Rng,
    plan: &mut Plan,
    files: usize,
    known: bool,
    some_habits: fn(&mut Rng) -> Habits,
) {
    let months = plan.months(rng);
    let first = 1 + rng.index(2);
    let mut chains = Vec::new();
    for step in 0..files {
        let own = first + step;
        let end = own + if step == 0 { 1 } else { 2 };
        let some_held = known || (step == 0 && !plan.first_night);
        let (begin, held) = if some_held { (0, own) } else { (own, 0) };
        let habits = some_habits(rng);
        chains.push(plan.chain_of(rng, &months, begin..end, held, habits));
    }
    for step in 0..files {
        let mut statements = vec![plan.month(chains[step], first + step)];
        if step + 1 < files {
            statements.push(plan.month(chains[step + 1], first + step + 2));
        }
        send_in_any_order(rng, plan, statements);
    }
}

/// One file of the story.
fn send_in_any_order(rng: &mut Rng, plan: &mut Plan, mut statements: Vec<Statement>) {
    shuffle(rng, &mut statements);
    plan.send(rng, statements, Some(plan.stories));
}

/// The first month of an account of which nothing is held stands in a file that waits for a month of
/// another account, and that does not come. So the account does not begin, though others of its
/// months come; unless the month that does not come is passed over.
fn stuck(rng: &mut Rng, plan: &mut Plan) {
    let months = plan.months(rng);
    let held = 1 + rng.index(2);
    let gap = held + rng.index(2);
    let known = plan.chain(rng, &months, 0..gap + 2, held);
    let new = plan.chain(rng, &months, gap..gap + 3, 0);
    for month in held..gap {
        let statement = plan.month(known, month);
        plan.send(rng, vec![statement], Some(plan.stories));
    }
    let both = vec![plan.month(new, gap), plan.month(known, gap + 1)];
    send_in_any_order(rng, plan, both);
    for month in [gap + 1, gap + 2] {
        let statement = plan.month(new, month);
        plan.send(rng, vec![statement], Some(plan.stories));
    }
    let passed_over = plan.leave_out(known, gap);
    if !passed_over {
        plan.tries("first-month-stuck");
        plan.ends_after(new, 0);
    }
}

/// The same with a corrected month of the other account: it can never be stored.
fn stuck_for_ever(rng: &mut Rng, plan: &mut Plan) {
    plan.tries("first-month-stuck-for-ever");
    let months = plan.months(rng);
    let held = 1 + rng.index(2);
    let known = plan.chain(rng, &months, 0..held + 1, held);
    let new = plan.chain(rng, &months, held..held + 3, 0);
    let month = plan.month(known, rng.index(held));
    let both = vec![corrected(rng, &month), plan.month(new, held)];
    send_in_any_order(rng, plan, both);
    for (chain, month) in [(new, held + 1), (known, held), (new, held + 2)] {
        let statement = plan.month(chain, month);
        plan.send(rng, vec![statement], Some(plan.stories));
    }
    plan.ends_after(new, 0);
}

/// Two files of two accounts. Each has the next month of the one and a later month of the other, so
/// that each waits for the other.
fn crossed(rng: &mut Rng, plan: &mut Plan) {
    plan.tries("hold-each-other");
    let months = plan.months(rng);
    let first = rng.index(3);
    let [one_held, other_held] = [0, 1].map(|more| plan.some_held(rng, first + more));
    let one = plan.chain(rng, &months, first - one_held..first + 2, one_held);
    let begin = first + 1 - other_held;
    let other = plan.chain(rng, &months, begin..first + 3, other_held);
    let early = vec![plan.month(one, first), plan.month(other, first + 2)];
    let late = vec![plan.month(one, first + 1), plan.month(other, first + 1)];
    for statements in [early, late] {
        send_in_any_order(rng, plan, statements);
    }
    plan.ends_after(one, one_held);
    plan.ends_after(other, other_held);
}

/// A file has two months of an account, another the month between. Each waits for the other.
fn gap_inside(rng: &mut Rng, plan: &mut Plan) {
    plan.tries("gap-inside");
    let months = plan.months(rng);
    let held = plan.some_held(rng, 1);
    let chain = plan.chain(rng, &months, 0..held + 3, held);
    let two = vec![plan.month(chain, held), plan.month(chain, held + 2)];
    plan.send(rng, two, Some(plan.stories));
    let between = plan.month(chain, held + 1);
    plan.send(rng, vec![between], Some(plan.stories));
    plan.ends_after(chain, held);
}

/// An account of which some months are held: one that follows does not come, later ones do. What
/// comes before the gap is stored; what comes after it where the gap is passed over.
fn missing(rng: &mut Rng, plan: &mut Plan) {
    let habits = Habits::busy(rng);
    without_a_month(rng, plan, habits);
}

/// The same with an account whose balance stays: the gap is passed over.
fn dormant_missing(rng: &mut Rng, plan: &mut Plan) {
    let habits = Habits::dormant(rng);
    without_a_month(rng, plan, habits);
}

/// The months of one account but one, the last name for the first.
fn without_a_month(rng: &mut Rng, plan: &mut Plan, habits: Habits) {
    let months = plan.months(rng);
    let held = 1 + rng.index(3);
    let gap = held + rng.index(2);
    let end = gap + 2 + rng.index(2);
    let chain = plan.chain_of(rng, &months, 0..end, held, habits);
    let first = plan.letters.len();
    for month in (held..end).filter(|&month| month != gap) {
        let statement = plan.month(chain, month);
        plan.send(rng, vec![statement], Some(plan.stories));
    }
    plan.name_backwards(first);
    let passed_over = plan.leave_out(chain, gap);
    if !passed_over {
        plan.tries("month-missing");
    }
}

/// A file has a month before the one that it follows. Where both come in other files too it is held
/// in the end; else nothing of it is stored.
fn backwards(rng: &mut Rng, plan: &mut Plan) {
    let months = plan.months(rng);
    let held = plan.some_held(rng, 2);
    let chain = plan.chain(rng, &months, 0..held + 2, held);
    let both = [plan.month(chain, held), plan.month(chain, held + 1)];
    let [earlier, later] = both.clone();
    plan.send(rng, vec![later, earlier], None);
    if rng.one_in(2) {
        plan.tries("wrong-order-alone");
        plan.ends_after(chain, held);
    } else {
        plan.tries("wrong-order-mended");
        for statement in both {
            plan.send(rng, vec![statement], Some(plan.stories));
        }
    }
}
