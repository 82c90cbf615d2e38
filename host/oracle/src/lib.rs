//! An independent check, reader and writer of bank-statement files and a journal of them, with
//! seeded generators of test files.
//!
//! Written from the paper's rules alone. `check` holds the rules of a file, `writer` those of the
//! values of a statement, `journal`, `contents` and `delivery` those of the journal, `cash` those
//! of the balance in value; `read`, `listing`, `series` and `night` stand on them. Everything else makes
//! files, values and series to try them on, and what it makes does not hang on a rule.

pub mod answers;
pub mod case_file;
pub mod cash;
pub mod cash_cases;
pub mod check;
pub mod contents;
pub mod damage;
pub mod delivery;
pub mod expected;
pub mod failure;
pub mod hostile;
pub mod hostile_entries;
pub mod hostile_series;
pub mod isolation;
pub mod journal;
pub mod listing;
pub mod listing_cases;
pub mod month_ends;
pub mod neighbours;
pub mod night;
pub mod night_cases;
pub mod nights;
pub mod nil;
pub mod read;
pub mod record;
pub mod recorded;
pub mod replay;
pub mod rng;
pub mod samples;
pub mod series;
pub mod series_cases;
pub mod show;
pub mod table_cases;
pub mod valid;
pub mod values;
mod worked_account;
pub mod write;
pub mod writer;
