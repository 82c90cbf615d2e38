//! A damage with its name and what it expects, and the case that comes of it.

use crate::check::Answer;
use crate::record::code;
use crate::rng::Rng;
use crate::valid::Draft;

/// What a recipe expects of the check.
#[derive(Clone, Copy)]
pub enum Claim {
    /// Number of refusal and record, which counts from 1.
    Refused(u32, usize),
    /// Accepted, with the counts of its record codes.
    Accepted,
    /// The recipe does not say.
    Unsaid,
}

/// A damage; gives nothing where the file has no place for it.
type Apply = Box<dyn Fn(&mut Rng, &mut Draft) -> Option<Claim>>;

/// A named damage.
pub struct Recipe {
    pub family: &'static str,
    pub name: String,
    pub(super) apply: Apply,
}

/// A file for the check, with the answer its recipe expects, if it says one.
pub struct Case {
    pub name: String,
    pub line_end: u64,
    pub bytes: Vec<u8>,
    pub expected: Option<Answer>,
}

impl Recipe {
    /// Damages a file, if it has a place for this damage.
    pub fn damage(&self, rng: &mut Rng, mut draft: Draft) -> Option<Case> {
        let claim = (self.apply)(rng, &mut draft)?;
        Some(case(&self.name, &draft, claim))
    }
}

/// The case of a file and what is said of it.
pub fn case(name: &str, draft: &Draft, claim: Claim) -> Case {
    Case {
        name: name.to_string(),
        line_end: draft.line_end,
        bytes: draft.bytes(),
        expected: expected(draft, claim),
    }
}

fn expected(draft: &Draft, claim: Claim) -> Option<Answer> {
    let count = |wanted: &[u8]| {
        draft
            .lines
            .iter()
            .filter(|line| code(line) == wanted)
            .count()
    };
    match claim {
        Claim::Refused(number, record) => Some(Answer::Refused {
            number,
            record: record as u64,
        }),
        Claim::Accepted => Some(Answer::Accepted {
            statements: count(b"01") as u64,
            movements: count(b"04") as u64,
            complements: count(b"05") as u64,
        }),
        Claim::Unsaid => None,
    }
}

/// Adds a recipe.
pub fn add(
    list: &mut Vec<Recipe>,
    family: &'static str,
    name: impl Into<String>,
    apply: impl Fn(&mut Rng, &mut Draft) -> Option<Claim> + 'static,
) {
    list.push(Recipe {
        family,
        name: name.into(),
        apply: Box::new(apply),
    });
}

/// One of the recipes: first a family, then one of it, so that no family outweighs the others.
pub fn pick<'a>(rng: &mut Rng, list: &'a [Recipe]) -> &'a Recipe {
    let families = families(list);
    let family = &families[rng.index(families.len())];
    family[rng.index(family.len())]
}

/// The recipes by family, in the order of the list.
pub fn families(list: &[Recipe]) -> Vec<Vec<&Recipe>> {
    let mut families: Vec<Vec<&Recipe>> = Vec::new();
    for recipe in list {
        match families.last_mut() {
            Some(last) if last[0].family == recipe.family => last.push(recipe),
            _ => families.push(vec![recipe]),
        }
    }
    families
}
