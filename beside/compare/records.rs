//! Reading a batch and the answers to it, record by record.

use std::fs::File;
use std::io::{self, BufRead, BufReader, Read};

pub struct Batch(BufReader<File>);

pub struct Input {
    pub kind: u8,
    pub bytes: Vec<u8>,
}

impl Batch {
    pub fn open(path: &str) -> io::Result<Batch> {
        Ok(Batch(open(path)?))
    }

    /// The next input, or nothing at the end.
    pub fn next(&mut self) -> io::Result<Option<Input>> {
        let mut kind = [0; 1];
        if self.0.read(&mut kind)? == 0 {
            return Ok(None);
        }
        let mut length = [0; 4];
        self.0.read_exact(&mut length)?;
        let mut bytes = vec![0; u32::from_le_bytes(length) as usize];
        self.0.read_exact(&mut bytes)?;
        Ok(Some(Input { kind: kind[0], bytes }))
    }
}

pub struct Answers(BufReader<File>);

impl Answers {
    pub fn open(path: &str) -> io::Result<Answers> {
        Ok(Answers(open(path)?))
    }

    /// The lines of the next answer, without spaces at their ends; nothing if the answers end before the line `.` that closes it.
    pub fn next(&mut self) -> io::Result<Option<Vec<String>>> {
        let mut lines = Vec::new();
        loop {
            let mut line = Vec::new();
            if self.0.read_until(b'\n', &mut line)? == 0 {
                return Ok(None);
            }
            let text = String::from_utf8_lossy(&line).trim_end().to_string();
            if text == "." {
                return Ok(Some(lines));
            }
            lines.push(text);
        }
    }

    /// Whether nothing is left.
    pub fn ended(&mut self) -> io::Result<bool> {
        Ok(self.0.fill_buf()?.is_empty())
    }
}

fn open(path: &str) -> io::Result<BufReader<File>> {
    let file = File::open(path).map_err(|error| io::Error::new(error.kind(), format!("{}: {}", path, error)))?;
    Ok(BufReader::with_capacity(1 << 16, file))
}
