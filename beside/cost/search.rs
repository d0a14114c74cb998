//! Looks addresses up by the Rust's `get_ptr`, unchanged. It is a program of its own, so that what is compiled for reading alone stays as it is.
//!
//! usage: search read|search FILE
//!   read    reads a file, by RawBlend::from_data
//!   search  as read, and then looks a thousand addresses of a generated scene up. The difference of this to `read` in instructions is what they cost
//! Both print the numbers of blocks, names, types, structs and fields, and the sum of the rows that were found.

#[allow(warnings)]
#[path = "../oracle/parsers.rs"]
mod parsers;
#[allow(warnings)]
#[path = "../oracle/runtime.rs"]
mod runtime;

use parsers::blend::{Block, RawBlend};
use runtime::PointerInfo;

fn main() {
    let words: Vec<String> = std::env::args().skip(1).collect();
    let bytes: &[u8] = std::fs::read(&words[1]).expect("a file").leak();
    let blend = RawBlend::from_data(bytes).unwrap_or_else(|_| panic!("refused"));
    let sum = if words[0] == "search" { looked_up(&blend) } else { 0 };
    let dna = &blend.dna;
    let fields: usize = dna.structs.iter().map(|s| s.fields.len()).sum();
    // The parser takes the last DNA1 out of its blocks.
    println!("{} {} {} {} {} {}", blend.blocks.len() + 1, dna.names.len(), dna.types.len(), dna.structs.len(), fields, sum);
    std::mem::forget(blend);
}

/// The addresses are those that `ours` asks for.
fn looked_up(blend: &RawBlend) -> u64 {
    let step = blend.blocks.len() as u64 / 1000;
    (0..1000).map(|i| row_of(runtime::search(blend, &(16 * (i * step + 1)).to_le_bytes()))).sum()
}

/// The Rust tells a block and not its number, which follows from its address in a generated scene.
fn row_of(found: PointerInfo) -> u64 {
    match found {
        PointerInfo::Block(Block::Subsidiary { memory_address, .. }) => memory_address.get() / 16 - 1,
        _ => 0,
    }
}
