//! The batch: records of a kind, a length and an input, as the oracle reads them.

use std::io::{self, BufWriter, Write};

pub struct Batch<W: Write> {
    out: BufWriter<W>,
    left: usize,
}

impl<W: Write> Batch<W> {
    pub fn new(out: W) -> Batch<W> {
        Batch { out: BufWriter::with_capacity(1 << 16, out), left: 0 }
    }

    /// Starts a share: the next `count` inputs are taken and any after them dropped.
    pub fn allow(&mut self, count: usize) {
        self.left = count;
    }

    pub fn full(&self) -> bool {
        self.left == 0
    }

    pub fn put(&mut self, kind: u8, input: &[u8]) -> io::Result<()> {
        if self.left == 0 {
            return Ok(());
        }
        self.left -= 1;
        self.out.write_all(&[kind])?;
        self.out.write_all(&(input.len() as u32).to_le_bytes())?;
        self.out.write_all(input)
    }

    pub fn flush(&mut self) -> io::Result<()> {
        self.out.flush()
    }
}
