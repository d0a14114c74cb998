//! Scenes: files that are read, in all eight forms.

use crate::batch::Batch;
use crate::catalogues::Catalogue;
use crate::random::Random;
use std::io::{self, Write};

/// The longest file that is made.
pub const LONGEST: usize = 8192;

#[derive(Clone, Copy)]
pub struct Form {
    pub new: bool,
    pub wide: bool,
    pub big: bool,
}

pub struct Block {
    pub code: [u8; 4],
    pub address: u64,
    pub index: u32,
    pub count: u64,
    pub payload: Vec<u8>,
    /// The size that is written, where it is another than the payload's length.
    pub size: Option<u64>,
}

pub struct Scene {
    pub form: Form,
    pub header: Vec<u8>,
    pub blocks: Vec<Block>,
    /// The end mark and what follows it.
    pub tail: Vec<u8>,
}

pub fn write<W: Write>(random: &mut Random, count: usize, batch: &mut Batch<W>) -> io::Result<()> {
    batch.allow(count);
    for number in 0..count {
        batch.put(b'F', &Scene::any(random, Form::numbered(number)).bytes())?;
    }
    Ok(())
}

impl Form {
    /// The form with a number modulo 8.
    pub fn numbered(number: usize) -> Form {
        Form { new: number & 1 != 0, wide: number & 2 != 0, big: number & 4 != 0 }
    }

    /// The header with these unchecked bytes, which a Legacy file does not have, and this version.
    pub fn header_of(self, unchecked: [[u8; 2]; 2], version: &[u8]) -> Vec<u8> {
        let size = [if self.wide { b'-' } else { b'_' }];
        let order = [if self.big { b'V' } else { b'v' }];
        if self.new {
            [b"BLENDER", &unchecked[0][..], &size, &unchecked[1], &order, version].concat()
        } else {
            [b"BLENDER", &size[..], &order, version].concat()
        }
    }

    pub fn header(self, random: &mut Random) -> Vec<u8> {
        let mut first = unchecked(random, b"17");
        // The byte after "BLENDER" tells the editions apart.
        if first[0] == b'_' || first[0] == b'-' {
            first[0] = b'1';
        }
        let second = unchecked(random, b"01");
        let version = version(random, if self.new { 4 } else { 3 });
        self.header_of([first, second], &version)
    }

    /// A number in the file's order.
    fn number(self, number: u64, width: usize) -> Vec<u8> {
        let mut bytes = number.to_le_bytes()[..width].to_vec();
        if self.big {
            bytes.reverse();
        }
        bytes
    }

    pub fn pointer(self, address: u64) -> Vec<u8> {
        self.number(address, if self.wide { 8 } else { 4 })
    }
}

fn unchecked(random: &mut Random, usual: &[u8; 2]) -> [u8; 2] {
    if random.once_in(4) {
        [random.byte(), random.byte()]
    } else {
        *usual
    }
}

fn version(random: &mut Random, width: usize) -> Vec<u8> {
    let digits = (0..width).map(|_| match random.below(16) {
        0 => random.byte(),
        1 => b"/:x "[random.below(4)],
        _ => b'0' + random.below(10) as u8,
    });
    digits.collect()
}

impl Block {
    pub fn any(random: &mut Random, form: Form) -> Block {
        let code = code(random);
        let principal = code[2] == 0 && code[3] == 0;
        let payload = if code == *b"DNA1" { dna(random, form) } else { payload(random) };
        let count = if principal { 1 } else { count(random, form) };
        Block { code, address: address(random, form), index: random.of_bits(32) as u32, count, payload, size: None }
    }

    pub fn dna1(random: &mut Random, form: Form) -> Block {
        let payload = dna(random, form);
        Block { code: *b"DNA1", payload, ..Block::any(random, form) }
    }

    fn write(&self, form: Form, out: &mut Vec<u8>) {
        let size = self.size.unwrap_or(self.payload.len() as u64);
        out.extend_from_slice(&self.code);
        if form.new {
            out.extend_from_slice(&self.index.to_le_bytes());
            out.extend(form.pointer(self.address));
            out.extend_from_slice(&size.to_le_bytes());
            out.extend_from_slice(&self.count.to_le_bytes());
        } else {
            out.extend(form.number(size, 4));
            out.extend(form.pointer(self.address));
            out.extend(form.number(u64::from(self.index), 4));
            out.extend(form.number(self.count, 4));
        }
        out.extend_from_slice(&self.payload);
    }
}

fn code(random: &mut Random) -> [u8; 4] {
    match random.below(16) {
        0 | 1 => *b"REND",
        2 | 3 => *b"TEST",
        4 | 5 => *b"GLOB",
        6..=8 => *b"DATA",
        9 | 10 => *b"DNA1",
        11 => [random.byte(), random.byte(), 0, 0],
        12 => *b"\0\0\0\0",
        13 => *b"LA\0\0",
        14 => *b"EN\0\0",
        _ => *b"OB\0\0",
    }
}

/// Any bytes; among them, at times, what would be an end mark or a block at a boundary.
fn payload(random: &mut Random) -> Vec<u8> {
    let most = if random.once_in(200) { 2000 } else { 40 };
    let length = random.below(most);
    let mut bytes = random.bytes(length);
    if random.once_in(4) {
        let at = random.below(length + 1);
        let inner: &[u8] = random.pick(&[b"ENDB", b"DNA1", b"DATA\0\0\0\0", b"ENDBENDB"]);
        bytes.splice(at..at, inner.iter().cloned());
    }
    bytes
}

fn dna(random: &mut Random, form: Form) -> Vec<u8> {
    if random.once_in(8) {
        return Catalogue::default().written(form.big, random).bytes;
    }
    Catalogue::any(random).written(form.big, random).bytes
}

fn count(random: &mut Random, form: Form) -> u64 {
    let bits = if form.new { 64 } else { 32 };
    match random.below(4) {
        0 => random.below(3) as u64,
        1 => random.of_bits(bits),
        _ => 1,
    }
}

/// An address that is not 0 and that the form can hold.
pub fn address(random: &mut Random, form: Form) -> u64 {
    let bits = if form.wide { 64 } else { 32 };
    match random.below(8) {
        0 | 1 => random.below(8) as u64 + 1,
        2 => u64::max_value() >> (64 - bits),
        // One bit: all bytes but one are 0.
        3 => 1 << random.below(bits),
        _ => random.of_bits(bits).max(1),
    }
}

impl Scene {
    pub fn any(random: &mut Random, form: Form) -> Scene {
        loop {
            let scene = Scene::of_any_length(random, form);
            if scene.bytes().len() <= LONGEST {
                return scene;
            }
        }
    }

    fn of_any_length(random: &mut Random, form: Form) -> Scene {
        let most = if random.once_in(200) { 80 } else { 6 };
        let mut blocks: Vec<Block> = (0..random.below(most)).map(|_| Block::any(random, form)).collect();
        blocks.push(Block::dna1(random, form));
        repeat_addresses(random, &mut blocks);
        Scene { form, header: form.header(random), blocks, tail: tail(random, form) }
    }

    pub fn bytes(&self) -> Vec<u8> {
        let mut bytes = self.header.clone();
        for block in &self.blocks {
            block.write(self.form, &mut bytes);
        }
        bytes.extend_from_slice(&self.tail);
        bytes
    }

    /// Where each block starts, and where the end mark stands.
    pub fn boundaries(&self) -> Vec<usize> {
        let mut bytes = self.header.clone();
        let mut list = vec![bytes.len()];
        for block in &self.blocks {
            block.write(self.form, &mut bytes);
            list.push(bytes.len());
        }
        list
    }
}

/// Blocks that share an address, of the same kind or of others.
fn repeat_addresses(random: &mut Random, blocks: &mut [Block]) {
    for at in 1..blocks.len() {
        if random.once_in(4) {
            blocks[at].address = blocks[random.below(at)].address;
        }
    }
}

/// The end mark, and at times bytes after it: any, or another block.
fn tail(random: &mut Random, form: Form) -> Vec<u8> {
    let mut tail = b"ENDB".to_vec();
    match random.below(4) {
        0 => {
            let after = random.below(24);
            tail.extend(random.bytes(after));
        }
        1 => Block::any(random, form).write(form, &mut tail),
        _ => {}
    }
    tail
}
