//! The command run as a program, for the tests that do so.

use std::path::PathBuf;
use std::process::{Command, Output};

pub fn path(name: &str) -> PathBuf {
    PathBuf::from(env!("CARGO_TARGET_TMPDIR")).join(name)
}

/// Runs the command.
pub fn oracle(arguments: &[&str]) -> Output {
    let mut command = Command::new(env!("CARGO_BIN_EXE_oracle"));
    command.args(arguments).output().unwrap()
}

/// Each mistake in the call ends with 2.
pub fn mistaken(calls: &[&[&str]]) {
    for arguments in calls {
        assert_eq!(oracle(arguments).status.code(), Some(2));
    }
}
