//! A binary file of cases with their answers. Numbers stand low byte first.

use std::fs::File;
use std::io::{self, BufWriter, Write};
use std::path::Path;

use crate::answers::Tally;

/// A file of cases that grows.
pub struct Cases {
    out: BufWriter<File>,
    tally: Tally,
}

impl Cases {
    /// Begins a file of so many cases, which are to follow.
    pub fn create(path: &Path, mark: &[u8; 8], seed: u64, count: u64) -> io::Result<Cases> {
        let mut out = BufWriter::new(File::create(path)?);
        out.write_all(mark)?;
        out.write_all(&seed.to_le_bytes())?;
        out.write_all(&count.to_le_bytes())?;
        Ok(Cases {
            out,
            tally: Tally::default(),
        })
    }

    /// A case that stands in its bytes, with the refusal in each of its answers or 0.
    pub fn add(&mut self, name: &str, body: &[u8], numbers: &[u32]) -> io::Result<()> {
        numbers.iter().for_each(|&number| self.tally.count(number));
        let mut head = Vec::new();
        put_bytes(&mut head, name.as_bytes());
        self.out.write_all(&head)?;
        self.out.write_all(body)
    }

    /// Ends the file. Gives the answers in it, counted.
    pub fn finish(mut self) -> io::Result<Tally> {
        self.out.flush()?;
        Ok(self.tally)
    }
}

/// Bytes with their length before them.
pub fn put_bytes(out: &mut Vec<u8>, bytes: &[u8]) {
    let length = u32::try_from(bytes.len()).expect("more than 4 GiB");
    out.extend(length.to_le_bytes());
    out.extend(bytes);
}
