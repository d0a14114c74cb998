//! Reads a file by the Rust parsers, unchanged. What was read is not dropped, as the library's reader frees nothing.
//!
//! usage: rust load|read FILE, rust scene N [LENGTH]
//!   load   only loads the file. The difference of `read` to this in instructions is what reading costs
//!   read   also reads it, by RawBlend::from_data, and prints the numbers of blocks, names, types, structs and fields
//!   scene  writes a scene of N blocks, with payloads of LENGTH bytes (64), and a DNA1 to standard output

#[allow(warnings)]
#[path = "../oracle/parsers.rs"]
mod parsers;

use parsers::blend::RawBlend;
use std::io::Write;

fn main() {
    let words: Vec<String> = std::env::args().skip(1).collect();
    match words[0].as_str() {
        "scene" => scene(number(&words[1]), words.get(2).map_or(64, |length| number(length))),
        "read" => whole(loaded(&words[1])),
        // So that the printing is in both sides of a difference.
        _ => println!("{} {} {} {} {}", loaded(&words[1]).len(), 0, 0, 0, 0),
    }
}

fn number(word: &str) -> u64 {
    word.parse().expect("a number")
}

fn loaded(path: &str) -> &'static [u8] {
    std::fs::read(path).expect("a file").leak()
}

fn whole(bytes: &[u8]) {
    let blend = RawBlend::from_data(bytes).unwrap_or_else(|_| panic!("refused"));
    let dna = &blend.dna;
    let fields: usize = dna.structs.iter().map(|s| s.fields.len()).sum();
    // The parser takes the last DNA1 out of its blocks.
    println!("{} {} {} {} {}", blend.blocks.len() + 1, dna.names.len(), dna.types.len(), dna.structs.len(), fields);
    std::mem::forget(blend);
}

/// DATA blocks with payloads of one length, and document 01's catalogue.
fn scene(blocks: u64, length: u64) {
    let mut bytes = b"BLENDER-v280".to_vec();
    for number in 0..blocks {
        bytes.extend_from_slice(b"DATA");
        bytes.extend_from_slice(&(length as u32).to_le_bytes());
        bytes.extend_from_slice(&(16 * (number + 1)).to_le_bytes());
        bytes.extend_from_slice(b"\x01\0\0\0\x01\0\0\0");
        bytes.resize(bytes.len() + length as usize, number as u8);
    }
    bytes.extend_from_slice(b"DNA1\x34\0\0\0\x08\0\0\0\0\0\0\0\0\0\0\0\x01\0\0\0");
    bytes.extend_from_slice(b"SDNANAME\x01\0\0\0x\0\0\0TYPE\x01\0\0\0int\0TLEN\x04\0\0\0STRC\x01\0\0\0\0\0\x01\0\0\0\0\0ENDB");
    std::io::stdout().write_all(&bytes).expect("output");
}
