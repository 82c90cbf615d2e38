//! Writes cases with their expected answers: the corpus, the kept files, the large files.

use std::collections::BTreeSet;
use std::fs::File;
use std::io::{self, BufWriter, Write};
use std::path::Path;

use crate::check::{check, Answer};
use crate::damage::{case, families, giants, pick, recipes, Case, Claim, Recipe};
use crate::nil;
use crate::rng::Rng;
use crate::valid::{file, small_file, Draft};

/// Kept files are shorter than this.
pub const KEPT_BYTES: usize = 6 * 1024;
/// The seed of the large cases.
const BIG_SEED: u64 = 20_000;

/// The answer as the command prints it.
pub fn answer_text(answer: Answer) -> String {
    match answer {
        Answer::Accepted {
            statements,
            movements,
            complements,
        } => format!("accepted {statements} {movements} {complements}"),
        Answer::Refused { number, record } => format!("refused {number} {record}"),
    }
}

/// Writes a corpus file. For each case, all numbers 64 bits, low byte first:
/// line-end number, length, that many bytes, kind (0 accepted, 1 refused), a, b, c.
/// Accepted: a statements, b movements, c complements. Refused: a record, b number, c 0.
pub fn corpus(seed: u64, count: u64, path: &Path) -> io::Result<()> {
    let mut rng = Rng::new(seed);
    let list = recipes();
    let mut out = BufWriter::new(File::create(path)?);
    for number in 0..count {
        let case = match number % 3 {
            0 => valid_case(&mut rng),
            _ => damaged_case(&mut rng, &list),
        };
        write_corpus_case(&mut out, &case)?;
    }
    out.flush()
}

fn write_corpus_case(out: &mut impl Write, case: &Case) -> io::Result<()> {
    let answer = match check(case.line_end, &case.bytes) {
        Answer::Accepted {
            statements,
            movements,
            complements,
        } => [0, statements, movements, complements],
        Answer::Refused { number, record } => [1, record, u64::from(number), 0],
    };
    out.write_all(&case.line_end.to_le_bytes())?;
    out.write_all(&(case.bytes.len() as u64).to_le_bytes())?;
    out.write_all(&case.bytes)?;
    for value in answer {
        out.write_all(&value.to_le_bytes())?;
    }
    Ok(())
}

/// A valid file, small but for one in a hundred.
pub fn valid_case(rng: &mut Rng) -> Case {
    let draft = base(rng);
    case("valid", &draft, Claim::Accepted)
}

/// A damaged file, small but for one in a hundred.
pub fn damaged_case(rng: &mut Rng, list: &[Recipe]) -> Case {
    damaged_from(rng, list, base)
}

/// A file of that kind, damaged. A recipe may have no place in a file; another file is tried then.
pub fn damaged_from(rng: &mut Rng, list: &[Recipe], base: fn(&mut Rng) -> Draft) -> Case {
    let recipe = pick(rng, list);
    loop {
        let draft = base(rng);
        if let Some(case) = recipe.damage(rng, draft) {
            return case;
        }
    }
}

fn base(rng: &mut Rng) -> Draft {
    if rng.one_in(100) {
        let line_end = rng.below(3);
        let records = 2 + rng.index(1_999);
        file(rng, line_end, records)
    } else {
        small_file(rng)
    }
}

/// Writes small cases to a directory and lists them: valid ones, then the recipes, one of each
/// family in turn. Gives the lines of the listing.
pub fn kept(seed: u64, count: usize, directory: &Path) -> io::Result<Vec<String>> {
    let mut rng = Rng::new(seed);
    let mut cases = Vec::new();
    for number in 0..count / 8 {
        cases.push(small_valid_case(&mut rng, number));
    }
    let list = recipes();
    let mut in_turn = one_of_each_family(&mut rng, &list).into_iter().cycle();
    while cases.len() < count {
        if let Some(recipe) = in_turn.next() {
            cases.extend(small_damaged_case(&mut rng, recipe, cases.len()));
        }
    }
    warn_of_gaps(&cases);
    write_cases(directory, &cases)
}

/// The first recipe of each family, then one more of each, and so on. The first is always the
/// same, so that every refusal is shown; the others come in an order of the seed.
pub fn one_of_each_family<'a>(rng: &mut Rng, list: &'a [Recipe]) -> Vec<&'a Recipe> {
    let mut families = families(list);
    for family in &mut families {
        shuffle(rng, &mut family[1..]);
    }
    let longest = families.iter().map(Vec::len).max().unwrap_or(0);
    (0..longest)
        .flat_map(|round| families.iter().filter_map(move |family| family.get(round)))
        .copied()
        .collect()
}

/// Puts items in any order.
pub fn shuffle<T>(rng: &mut Rng, items: &mut [T]) {
    for last in (1..items.len()).rev() {
        items.swap(last, rng.index(last + 1));
    }
}

/// The valid files run through all sizes that fit and through the line ends.
fn small_valid_case(rng: &mut Rng, number: usize) -> Case {
    let records = match number {
        0 => 0,
        1 => 2,
        _ => 2 + rng.index(40),
    };
    let draft = file(rng, number as u64 % 3, records);
    case(&format!("valid-{records}-records"), &draft, Claim::Accepted)
}

/// Nothing for a damage that needs a larger file.
pub fn small_damaged_case(rng: &mut Rng, recipe: &Recipe, number: usize) -> Option<Case> {
    const TRIES: usize = 200;
    for attempt in 0..TRIES {
        let line_end = (number + attempt) as u64 % 3;
        let records = 2 + rng.index(24);
        let draft = file(rng, line_end, records);
        let case = recipe.damage(rng, draft);
        if let Some(case) = case.filter(|case| case.bytes.len() < KEPT_BYTES) {
            return Some(case);
        }
    }
    None
}

/// Says which refusals and line ends the cases do not show.
fn warn_of_gaps(cases: &[Case]) {
    let shown: BTreeSet<String> = cases
        .iter()
        .map(|case| match check(case.line_end, &case.bytes) {
            Answer::Accepted { .. } => format!("accepted with line end {}", case.line_end),
            Answer::Refused { number, .. } => format!("refusal {number}"),
        })
        .collect();
    // 3 and 15 need a large file.
    let refusals = (1..=14).filter(|&number| number != 3);
    let wanted = refusals
        .map(|number| format!("refusal {number}"))
        .chain((0..3).map(|number| format!("accepted with line end {number}")));
    for gap in wanted.filter(|wanted| !shown.contains(wanted)) {
        eprintln!("not shown: {gap}");
    }
}

/// Writes the large cases to a directory and lists them.
pub fn big(directory: &Path) -> io::Result<Vec<String>> {
    let mut rng = Rng::new(BIG_SEED);
    let mut cases = Vec::new();
    for (number, recipe) in giants().iter().enumerate() {
        let mut line_end = number as u64 % 3;
        loop {
            let draft = file(&mut rng, line_end, 0);
            if let Some(case) = recipe.damage(&mut rng, draft) {
                cases.push(case);
                break;
            }
            line_end = (line_end + 1) % 3;
        }
    }
    write_cases(directory, &cases)
}

/// Writes the vectors of amounts of nothing to a directory and lists them.
pub fn nil_files(directory: &Path) -> io::Result<Vec<String>> {
    write_cases(directory, &nil::kept())
}

/// Writes each case as NNN.cfonb. A listing line has four columns with tabs between: file name,
/// line-end number, expected answer, what it tries.
fn write_cases(directory: &Path, cases: &[Case]) -> io::Result<Vec<String>> {
    std::fs::create_dir_all(directory)?;
    let mut listing = Vec::new();
    for (number, case) in cases.iter().enumerate() {
        let file_name = format!("{:03}.cfonb", number + 1);
        std::fs::write(directory.join(&file_name), &case.bytes)?;
        let answer = answer_text(check(case.line_end, &case.bytes));
        listing.push(format!(
            "{file_name}\t{}\t{answer}\t{}",
            case.line_end, case.name
        ));
    }
    Ok(listing)
}
