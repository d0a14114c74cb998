//! The search for an address, and the code of each block; and the search alone, as often as the library makes it through an index.

use crate::parsers::blend::{Block, RawBlend};
use crate::parsers::{Endianness, PointerSize};
use crate::refusal;
use crate::runtime::{code_of, search, PointerInfo};

/// `input` is 8 bytes of address, little-endian, and a whole file.
pub fn answer(input: &[u8], out: &mut String) {
    asked(input, out, found)
}

/// Through indexes of five numbers of buckets: the Rust has none, and finds the same each time.
pub fn index_answer(input: &[u8], out: &mut String) {
    asked(input, out, |mut blend, address, out| {
        as_asked(&mut blend);
        let words = words(&blend, address);
        (0..5).for_each(|_| line!(out, "{}", words));
    })
}

fn asked(input: &[u8], out: &mut String, tell: impl Fn(RawBlend, &[u8], &mut String)) {
    if input.len() < 8 {
        return line!(out, "bad-input");
    }
    let (address, file) = input.split_at(8);
    match RawBlend::from_data(file) {
        Ok(blend) => tell(blend, address, out),
        Err(error) => line!(out, "{}", refusal::line(&error, traced::file(file), file)),
    }
}

/// The search itself is over whole addresses; only reading the pointer follows the header. Put so, every address can be asked.
fn as_asked(blend: &mut RawBlend) {
    blend.header.pointer_size = PointerSize::Bits64;
    blend.header.endianness = Endianness::Little;
}

fn found(mut blend: RawBlend, address: &[u8], out: &mut String) {
    let narrow = in_form_of_file(&blend, address).map(|pointer| words(&blend, &pointer));
    as_asked(&mut blend);
    let wide = words(&blend, address);
    if narrow.map_or(false, |narrow| narrow != wide) {
        return line!(out, "oracle-inconsistent");
    }
    line!(out, "{}", wide);
    codes(blend, out)
}

/// The address as a pointer's bytes in the file's own form, if it is wide enough.
fn in_form_of_file(blend: &RawBlend, address: &[u8]) -> Option<Vec<u8>> {
    let (kept, cut) = address.split_at(blend.header.pointer_size.bytes_num());
    if cut.iter().any(|&byte| byte != 0) {
        return None;
    }
    let mut pointer = kept.to_vec();
    if let Endianness::Big = blend.header.endianness {
        pointer.reverse();
    }
    Some(pointer)
}

fn words(blend: &RawBlend, pointer: &[u8]) -> String {
    match search(blend, pointer) {
        PointerInfo::Null => "null".to_string(),
        PointerInfo::Invalid => "missing".to_string(),
        PointerInfo::Block(block) => format!("found {}", row_of(blend, block)),
    }
}

/// The Rust's blocks are the rows without the last, so a block's place among them is its row.
fn row_of(blend: &RawBlend, block: &Block) -> usize {
    let is_it = |other: &Block| std::ptr::eq(other, block);
    blend.blocks.iter().position(is_it).expect("a block of the file")
}

fn codes(blend: RawBlend, out: &mut String) {
    let RawBlend { mut blocks, dna, .. } = blend;
    blocks.push(Block::Dna(dna));
    for block in &blocks {
        match code_of(block) {
            Some(code) => line!(out, "code {:08x}", u32::from_be_bytes(code)),
            None => line!(out, "code none"),
        }
    }
}
