//! Seeded damages of valid files. Each recipe says what it expects where that is plain from
//! the damage itself, so that the check is tried against a second opinion.

mod bytes;
mod form;
mod giant;
mod lines;
mod nil;
mod pairs;
mod places;
mod random;
mod recipe;
mod values;
mod zones;

pub use bytes::other_byte;
pub use giant::giants;
pub use recipe::{case, families, pick, Case, Claim, Recipe};

/// All recipes for small files, family by family.
pub fn recipes() -> Vec<Recipe> {
    let mut list = Vec::new();
    form::add(&mut list);
    places::add(&mut list);
    zones::add(&mut list);
    values::add(&mut list);
    nil::add(&mut list);
    pairs::add(&mut list);
    random::add(&mut list);
    list
}
