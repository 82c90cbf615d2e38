//! Hand-built files with answers derived from the text.

#[path = "../asked/mod.rs"]
mod asked;
mod cash;
mod command;
mod common;
mod contents;
mod delivery;
mod earliest;
mod expected;
mod isolation;
mod journal;
mod listing;
mod month_ends;
mod newest;
mod night;
mod nil;
#[path = "../outcomes/mod.rs"]
mod outcomes;
mod readers;
mod readings;
mod series;
mod shelf;
mod worked;
mod writer;
