//! The generators and the check against each other.

mod zeros;

use oracle::check::{amount, check, date, Answer};
use oracle::damage::{giants, recipes, Recipe};
use oracle::hostile::random_file;
use oracle::record::{read_amount, read_date, write_amount, write_date, DAYS};
use oracle::rng::Rng;
use oracle::valid::{amount as any_amount, file, small_file};
use oracle::write::{damaged_case, valid_case};
use zeros::signed;

#[test]
fn valid_files_are_accepted() {
    let mut rng = Rng::new(1);
    for _ in 0..5_000 {
        let case = valid_case(&mut rng);
        assert_eq!(Some(check(case.line_end, &case.bytes)), case.expected);
    }
}

#[test]
fn files_have_the_size_asked_for() {
    let mut rng = Rng::new(2);
    for records in (0..400).filter(|&records| records != 1) {
        let draft = file(&mut rng, 0, records);
        assert_eq!(draft.lines.len(), records);
        assert!(draft.lines.iter().all(|line| line.len() == 120));
    }
}

/// Every recipe finds a place, and the check agrees with what it says.
#[test]
fn every_recipe_gets_the_answer_it_expects() {
    let mut rng = Rng::new(3);
    for recipe in recipes() {
        for _ in 0..30 {
            damage_until_it_fits(&mut rng, &recipe);
        }
    }
}

#[test]
fn every_giant_gets_the_answer_it_expects() {
    let mut rng = Rng::new(4);
    for recipe in giants() {
        damage_until_it_fits(&mut rng, &recipe);
    }
}

fn damage_until_it_fits(rng: &mut Rng, recipe: &Recipe) {
    for _ in 0..2_000 {
        let draft = small_file(rng);
        if let Some(case) = recipe.damage(rng, draft) {
            let answer = check(case.line_end, &case.bytes);
            assert_eq!(case.expected.unwrap_or(answer), answer, "{}", case.name);
            return;
        }
    }
    panic!("no place for {}", recipe.name);
}

/// 20,000 damaged files, among them each large one in turn, show every refusal from 1 to 15.
#[test]
fn damaged_files_show_every_refusal() {
    let mut rng = Rng::new(5);
    let (small, large) = (recipes(), giants());
    let mut accepted = 0;
    let mut refused = [0; 16];
    for number in 0..20_000 {
        let turn = number / 500 % large.len();
        let list = match number % 500 {
            0 => &large[turn..=turn],
            _ => &small[..],
        };
        let case = damaged_case(&mut rng, list);
        let answer = check(case.line_end, &case.bytes);
        assert_eq!(case.expected.unwrap_or(answer), answer, "{}", case.name);
        match answer {
            Answer::Accepted { .. } => accepted += 1,
            Answer::Refused { number, .. } => refused[number as usize] += 1,
        }
    }
    println!("accepted {accepted}");
    for (number, count) in refused.iter().enumerate().skip(1) {
        println!("refusal {number}: {count}");
        assert!(*count > 0, "refusal {number} does not occur");
    }
}

/// Whatever the bytes: the answer is that of the file with the other zeros.
#[test]
fn either_zero_gets_the_same_answer() {
    let mut rng = Rng::new(7);
    let list = recipes();
    let (mut accepted, mut refused) = (0, 0);
    for number in 0..20_000 {
        let case = match number % 8 {
            0 | 4 => valid_case(&mut rng),
            7 => random_file(&mut rng),
            _ => damaged_case(&mut rng, &list),
        };
        if case.line_end > 2 {
            continue;
        }
        let answer = check(case.line_end, &case.bytes);
        let [credits, debits] = [b'{', b'}'].map(|sign| signed(case.line_end, &case.bytes, sign));
        assert_eq!(check(case.line_end, &credits), answer, "{}", case.name);
        assert_eq!(check(case.line_end, &debits), answer, "{}", case.name);
        match answer {
            _ if credits == debits => {}
            Answer::Accepted { .. } => accepted += 1,
            Answer::Refused { .. } => refused += 1,
        }
    }
    assert!(accepted > 4_000 && refused > 4_000, "{accepted} {refused}");
}

#[test]
fn written_dates_are_read_back() {
    let mut before = 0;
    for day in 0..DAYS {
        let bytes = write_date(day);
        assert_eq!(read_date(&bytes), Some(day));
        let read = date(&bytes).unwrap();
        assert!(read > before);
        before = read;
    }
    assert_eq!(before, 20791231);
}

/// Of all a million, exactly the days from 1980 to 2079 exist.
#[test]
fn as_many_dates_exist_as_there_are_days() {
    let exist = |number: &u32| date(format!("{number:06}").as_bytes()).is_some();
    assert_eq!((0..1_000_000).filter(exist).count() as u64, DAYS);
}

#[test]
fn written_amounts_are_read_back() {
    let mut rng = Rng::new(6);
    for _ in 0..20_000 {
        let value = any_amount(&mut rng);
        let bytes = write_amount(value);
        assert_eq!(read_amount(&bytes), Some(value));
        assert_eq!(amount(&bytes), Some(i128::from(value)));
    }
}
