//! Catalogues, good and damaged.

use crate::batch::Batch;
use crate::declarators;
use crate::random::Random;
use std::io::{self, Write};

/// Counts that no payload has the bytes for; a reader that reserves by the count asks for up to 96 GiB.
const LARGE: &[u64] = &[65535, 65536, 1 << 24, 1 << 28, 1 << 30, (1 << 31) - 1, 1 << 31, (1 << 32) - 2, (1 << 32) - 1];

#[derive(Default)]
pub struct Catalogue {
    pub names: Vec<Vec<u8>>,
    pub types: Vec<(Vec<u8>, u16)>,
    pub structs: Vec<(u16, Vec<(u16, u16)>)>,
}

/// A catalogue's bytes, and where its three counts, its five marks and the bytes of its padding stand.
pub struct Written {
    pub bytes: Vec<u8>,
    counts: Vec<usize>,
    marks: Vec<usize>,
    padding: Vec<usize>,
    big: bool,
}

pub fn write<W: Write>(random: &mut Random, count: usize, batch: &mut Batch<W>) -> io::Result<()> {
    batch.allow(count);
    while !batch.full() {
        let big = random.once_in(2);
        let mut written = Catalogue::any(random).written(big, random);
        if random.once_in(2) {
            written.damage(random);
        }
        // Some are asked in the order that they were not written in.
        let kind = if big != random.once_in(16) { b'c' } else { b'C' };
        batch.put(kind, &written.bytes)?;
    }
    Ok(())
}

impl Catalogue {
    pub fn any(random: &mut Random) -> Catalogue {
        let most = if random.once_in(40) { 40 } else { 6 };
        let (names, types, structs) = (random.below(most), random.below(most), random.below(most));
        Catalogue {
            names: (0..names).map(|_| name(random)).collect(),
            types: (0..types).map(|_| (type_name(random), small(random))).collect(),
            structs: (0..structs).map(|_| record(random, names, types)).collect(),
        }
    }

    pub fn written(&self, big: bool, random: &mut Random) -> Written {
        let mut out = Written { bytes: Vec::new(), counts: Vec::new(), marks: Vec::new(), padding: Vec::new(), big };
        out.mark(b"SDNA");
        out.mark(b"NAME");
        out.count(self.names.len());
        out.strings(self.names.iter(), random);
        out.mark(b"TYPE");
        out.count(self.types.len());
        out.strings(self.types.iter().map(|(name, _)| name), random);
        out.mark(b"TLEN");
        for (_, size) in &self.types {
            out.short(*size);
        }
        let padding = random.bytes(self.types.len() % 2 * 2);
        out.pad(&padding);
        out.mark(b"STRC");
        out.count(self.structs.len());
        for (kind, fields) in &self.structs {
            out.record(*kind, fields);
        }
        if random.once_in(3) {
            let after = random.below(9);
            out.bytes.extend(random.bytes(after));
        }
        out
    }
}

/// Declarators mostly, any bytes but zeros, and nothing.
fn name(random: &mut Random) -> Vec<u8> {
    let mut name = match random.below(8) {
        0 => Vec::new(),
        1 => declarators::any(random),
        2 => {
            let length = random.below(6);
            random.bytes(length)
        }
        3 => random.pick(&["*next", "é", "\u{fffd}", "a\u{301}", "日本[2]"]).as_bytes().to_vec(),
        _ => random.pick(&["x", "*next", "mat[4][4]", "(*f)()", "id", "*m[3]", "size"]).as_bytes().to_vec(),
    };
    name.retain(|&byte| byte != 0);
    name
}

fn type_name(random: &mut Random) -> Vec<u8> {
    if random.once_in(6) {
        return name(random);
    }
    random.pick(&["int", "char", "float", "Object", "ID", "void", "Mesh", "", "ListBase"]).as_bytes().to_vec()
}

fn small(random: &mut Random) -> u16 {
    random.of_bits(16) as u16
}

/// A struct whose numbers are in the lists mostly, and beyond them at times: no reader checks that.
fn record(random: &mut Random, names: usize, types: usize) -> (u16, Vec<(u16, u16)>) {
    let fields = random.below(5);
    let kind = index(random, types);
    (kind, (0..fields).map(|_| (index(random, types), index(random, names))).collect())
}

fn index(random: &mut Random, rows: usize) -> u16 {
    if rows == 0 || random.once_in(10) {
        return small(random);
    }
    random.below(rows) as u16
}

impl Written {
    fn mark(&mut self, mark: &[u8; 4]) {
        self.marks.push(self.bytes.len());
        self.bytes.extend_from_slice(mark);
    }

    fn count(&mut self, count: usize) {
        self.counts.push(self.bytes.len());
        let number = self.spelled(count as u32);
        self.bytes.extend_from_slice(&number);
    }

    fn spelled(&self, number: u32) -> [u8; 4] {
        if self.big {
            number.to_be_bytes()
        } else {
            number.to_le_bytes()
        }
    }

    fn short(&mut self, number: u16) {
        let bytes = if self.big { number.to_be_bytes() } else { number.to_le_bytes() };
        self.bytes.extend_from_slice(&bytes);
    }

    /// Zero-ended strings and, after all of them, padding with any bytes.
    fn strings<'a>(&mut self, strings: impl Iterator<Item = &'a Vec<u8>>, random: &mut Random) {
        let start = self.bytes.len();
        for string in strings {
            self.bytes.extend_from_slice(string);
            self.bytes.push(0);
        }
        let padding = (4 - (self.bytes.len() - start) % 4) % 4;
        let zeros = random.once_in(2);
        let padding: Vec<u8> = (0..padding).map(|_| if zeros { 0 } else { random.byte() }).collect();
        self.pad(&padding);
    }

    fn pad(&mut self, padding: &[u8]) {
        let start = self.bytes.len();
        self.bytes.extend_from_slice(padding);
        self.padding.extend(start..self.bytes.len());
    }

    fn record(&mut self, kind: u16, fields: &[(u16, u16)]) {
        self.short(kind);
        self.short(fields.len() as u16);
        for (kind, name) in fields {
            self.short(*kind);
            self.short(*name);
        }
    }

    /// One damage. Not each of them is a fault: a changed size or a changed byte of padding is read as well as before.
    pub fn damage(&mut self, random: &mut Random) {
        let length = self.bytes.len();
        match random.below(8) {
            0 => self.bytes.truncate(random.below(length)),
            1 => self.bytes.truncate(length - 1 - random.below(length.min(8))),
            2 => drop(self.bytes.remove(random.below(length))),
            3 => self.bytes.insert(random.below(length), 0),
            4 => self.damage_mark(random),
            5 | 6 => self.damage_count(random),
            _ => {
                let at = random.below(length);
                self.bytes[at] = random.byte();
            }
        }
    }

    /// Ends early: within a mark, a count or padding, or anywhere. At times the last byte that is left is another, so that the beginning
    /// of a mark may be a wrong one.
    pub fn cut(&mut self, random: &mut Random) {
        let at = match random.below(5) {
            0 => self.marks[random.below(self.marks.len())] + random.below(4),
            1 => self.counts[random.below(self.counts.len())] + random.below(4),
            2 if !self.padding.is_empty() => self.padding[random.below(self.padding.len())],
            _ => random.below(self.bytes.len()),
        };
        self.bytes.truncate(at);
        if let Some(byte) = self.bytes.last_mut().filter(|_| random.once_in(4)) {
            *byte ^= 1 << random.below(8);
        }
    }

    fn damage_mark(&mut self, random: &mut Random) {
        let at = self.marks[random.below(self.marks.len())] + random.below(4);
        self.bytes[at] ^= 1 << random.below(8);
    }

    fn damage_count(&mut self, random: &mut Random) {
        let at = self.counts[random.below(self.counts.len())];
        let mut old = [0; 4];
        old.copy_from_slice(&self.bytes[at..at + 4]);
        let old = if self.big { u32::from_be_bytes(old) } else { u32::from_le_bytes(old) };
        let new = match random.below(4) {
            0 => old.wrapping_add(1),
            1 => old.wrapping_sub(1),
            2 => random.below(8) as u32,
            _ => random.number(LARGE) as u32,
        };
        let spelled = self.spelled(new);
        self.bytes[at..at + 4].copy_from_slice(&spelled);
    }
}
