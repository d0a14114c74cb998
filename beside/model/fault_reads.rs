//! Single reads and their refusals, written from documents 01 and 02 without the code.
//!
//! One function here is one read in the sense of request 3, except `looks_at`, which is a look and
//! never refuses. A read that is refused leaves the place where the read began, so that place is
//! the offset the refusal carries.

#[derive(Clone, Copy, Debug, PartialEq)]
pub enum Refusal {
    /// A refusal that carries nothing, by its number.
    Numbered(u32),
    /// 16, cut short, at this offset.
    Cut(usize),
    /// 17, wrong mark, at this offset.
    Mark(usize),
}

#[derive(Clone, Copy, Debug, PartialEq)]
pub enum Order {
    Little,
    Big,
}

/// A place in `bytes`. Offsets count from the start of `bytes` even where the reading began
/// later, so a catalogue read inside a file is refused with its place in the file.
pub struct Reader<'a> {
    bytes: &'a [u8],
    at: usize,
}

impl<'a> Reader<'a> {
    /// `at` must not lie past the end of `bytes`.
    pub fn new(bytes: &'a [u8], at: usize) -> Reader<'a> {
        Reader { bytes, at }
    }

    pub fn at(&self) -> usize {
        self.at
    }

    pub fn looks_at(&self, mark: &[u8]) -> bool {
        self.rest().starts_with(mark)
    }

    /// So many bytes, whatever they are.
    pub fn run(&mut self, length: u64) -> Result<&'a [u8], Refusal> {
        let rest = self.rest();
        if length > rest.len() as u64 {
            return Err(Refusal::Cut(self.at));
        }
        let run = &rest[..length as usize];
        self.at += run.len();
        Ok(run)
    }

    pub fn mark(&mut self, mark: &[u8]) -> Result<(), Refusal> {
        if self.rest().len() >= mark.len() && !self.looks_at(mark) {
            return Err(Refusal::Mark(self.at));
        }
        self.run(mark.len() as u64).map(|_| ())
    }

    /// A mark of one byte, one of two, with what each of them means.
    pub fn either<T>(&mut self, first: (&[u8; 1], T), second: (&[u8; 1], T)) -> Result<T, Refusal> {
        let (mark, meaning) = if self.looks_at(first.0) {
            first
        } else {
            second
        };
        self.mark(mark).map(|_| meaning)
    }

    /// An unsigned number of at most 8 bytes.
    pub fn number(&mut self, width: u64, order: Order) -> Result<u64, Refusal> {
        let add = |value: u64, byte: &u8| value << 8 | u64::from(*byte);
        let bytes = self.run(width)?;
        Ok(match order {
            Order::Little => bytes.iter().rev().fold(0, add),
            Order::Big => bytes.iter().fold(0, add),
        })
    }

    /// The bytes before the first `end`, which stays unread.
    pub fn run_to(&mut self, end: u8) -> Result<&'a [u8], Refusal> {
        let found = self.rest().iter().position(|byte| *byte == end);
        let length = found.ok_or(Refusal::Cut(self.at))?;
        self.run(length as u64)
    }

    /// The bytes of a string whose zero is read with it.
    pub fn string(&mut self) -> Result<&'a [u8], Refusal> {
        let string = self.run_to(0)?;
        self.run(1)?;
        Ok(string)
    }

    fn rest(&self) -> &'a [u8] {
        &self.bytes[self.at..]
    }
}
