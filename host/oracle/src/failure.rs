//! An error in words. The older compilers that this builds with have no shorter way to make one.

use std::io::{Error, ErrorKind};

pub fn failure(words: impl Into<String>) -> Error {
    Error::new(ErrorKind::Other, words.into())
}
