//! One account among neighbours, for a replay: runs over the same deliveries of hers, with those of
//! neighbours between them, from freshly opened journals of several lengths.
//!
//! A delivery is named as hers or as a neighbour's. Where the check accepts its file, all of its
//! statements are hers or none is. None of her answers is 23 or 24.

mod hers;
mod others;
mod room;
mod walk;

use std::io;
use std::path::Path;

use crate::case_file::Cases;
use crate::check::RECORD;
use crate::damage::{recipes, Recipe};
use crate::isolation;
use crate::journal::TABLE;
use crate::recorded::Series;
use crate::replay::add_series;
use crate::rng::Rng;
use crate::series::Operation;
use hers::Hers;

/// The first bytes of the file.
pub const NEIGHBOURS: &[u8; 8] = b"CHNEIGHB";

/// A file and its line-end number.
#[derive(Clone)]
pub struct Delivery {
    pub line_end: u64,
    pub file: Vec<u8>,
}

/// A journal of so many lines, and what neighbours deliver to it.
pub struct Run {
    pub lines: usize,
    /// Before each delivery of hers, and after the last.
    pub between: Vec<Vec<Delivery>>,
}

/// Runs over the same deliveries of one account. In the first run they are alone.
pub struct Group {
    pub name: String,
    /// Her key, as in an entry.
    pub key: Vec<u8>,
    pub hers: Vec<Delivery>,
    pub runs: Vec<Run>,
}

impl Group {
    /// All runs one after another, with the answer of each call.
    fn recorded(&self) -> Series {
        let mut series = Series::new(&self.name);
        for run in &self.runs {
            self.record(run, &mut series);
        }
        series.end()
    }

    fn record(&self, run: &Run, series: &mut Series) {
        let length = TABLE + RECORD * run.lines;
        series.perform(Operation::Journal { length });
        series.perform(Operation::Open);
        let mut hers = self.hers.iter();
        for deliveries in &run.between {
            for Delivery { line_end, file } in deliveries {
                let line_end = *line_end;
                series.perform(Operation::Deliver { line_end, file });
            }
            if let Some(Delivery { line_end, file }) = hers.next() {
                series.deliver_hers(*line_end, file);
            }
        }
        series.account(&self.key);
    }
}

/// Writes the fixed groups and so many generated ones. Gives a line that says what they are.
pub fn replay_neighbours(seed: u64, count: u64, path: &Path) -> io::Result<String> {
    let mut rng = Rng::new(seed);
    let list = recipes();
    let fixed = isolation::groups();
    let mut cases = Cases::create(path, NEIGHBOURS, seed, fixed.len() as u64 + count)?;
    let mut runs = 0;
    for group in &fixed {
        runs += group.runs.len();
        add_series(&mut cases, &group.recorded())?;
    }
    for _ in 0..count {
        let group = generated(&mut rng, &list);
        runs += group.runs.len();
        add_series(&mut cases, &group.recorded())?;
    }
    let tally = cases.finish()?;
    Ok(format!(
        "neighbours: seed {seed}, {} fixed, {count} generated, {runs} runs: {}",
        fixed.len(),
        tally.words()
    ))
}

/// What one account sends, alone and then among neighbours in two to five ways. Now and then one of
/// them fills the table; that takes long.
fn generated(rng: &mut Rng, list: &[Recipe]) -> Group {
    let hers = Hers::new(rng, list);
    let mut runs = vec![others::none(rng, &hers)];
    if rng.one_in(20) {
        runs.push(others::crowd(rng, list, &hers));
    }
    for _ in 0..2 + rng.index(3) {
        runs.push(others::some(rng, list, &hers));
    }
    Group {
        name: "generated".to_string(),
        key: hers.key.bytes(),
        hers: hers.sent.into_iter().map(|sent| sent.delivery).collect(),
        runs,
    }
}
