//! Inputs for the oracle and for the side it is compared with.
//!
//! usage: inputs SEED COUNT [FILE ..] > batch
//!        inputs --indexed SEED COUNT > batch
//!
//! The second form writes searches for an address alone, which are made through an index. Of the first:
//!
//! COUNT inputs come from the seed alone; document 01's examples and the files that are given come before them. The shares, in hundredths of
//! COUNT:
//!
//! - 20, declarators: all short ones over `()*[]+-019a` (up to 4 bytes of 200,000, up to 5 of 1,000,000), then longer ones with several
//!   dimensions, numbers and products around 2^64, spaces, bytes that are not UTF-8.
//! - 8, headers: document 01's examples, every cut, each byte left out or written over, before blocks that are read and by themselves.
//! - 15, scenes that are read, an eighth in each form: blocks of all codes, several DNA1 blocks, catalogues of any names, sizes and
//!   padding, end marks inside payloads, bytes after the end mark.
//! - 22, damaged scenes: a byte changed, dropped or put in; a cut; wrong sizes, addresses, counts, codes, catalogues, ends.
//! - 4, a small scene in each form with each byte written over.
//! - 11, catalogues in either order, half of them damaged, with counts up to 2^32-1.
//! - 5, slices for primitive values.
//! - 6, searches for an address.
//! - 4, files, headers and catalogues that end early: a small scene in each form at every place, then any at the reads that are short.
//! - 5, function pointers by themselves: all short words over `(*)f[`, then every beginning of longer ones, and those with a character
//!   written over. All are UTF-8.

mod addresses;
mod batch;
mod catalogues;
mod cuts;
mod damage;
mod declarators;
mod edges;
mod functions;
mod given;
mod headers;
mod mutations;
mod random;
mod scenes;
mod values;

use batch::Batch;
use random::Random;
use std::io::{self, Stdout};

type Section = fn(&mut Random, usize, &mut Batch<Stdout>) -> io::Result<()>;

const SECTIONS: [(usize, Section); 10] = [
    (20, declarators::write),
    (8, headers::write),
    (15, scenes::write),
    (22, damage::write),
    (4, mutations::write),
    (11, catalogues::write),
    (5, values::write),
    (6, addresses::write),
    (4, cuts::write),
    (5, functions::write),
];

fn main() {
    let arguments: Vec<String> = std::env::args().skip(1).collect();
    let indexed = arguments.first().map_or(false, |word| word == "--indexed");
    let words = &arguments[indexed as usize..];
    let number = |at: usize| words.get(at).and_then(|text| text.parse::<u64>().ok());
    let outcome = match (number(0), number(1)) {
        (Some(seed), Some(count)) if indexed => run_indexed(seed, count as usize),
        (Some(seed), Some(count)) => run(seed, count as usize, &words[2..]),
        _ => Err(io::Error::new(io::ErrorKind::InvalidInput, "usage: inputs [--indexed] SEED COUNT [FILE ..] > batch")),
    };
    if let Err(error) = outcome {
        eprintln!("inputs: {}", error);
        std::process::exit(2);
    }
}

fn run_indexed(seed: u64, count: usize) -> io::Result<()> {
    let mut batch = Batch::new(io::stdout());
    addresses::write_indexed(&mut Random::new(seed), count, &mut batch)?;
    batch.flush()
}

fn run(seed: u64, count: usize, files: &[String]) -> io::Result<()> {
    eprintln!("seed {}", seed);
    let mut batch = Batch::new(io::stdout());
    edges::write(&mut batch)?;
    given::write(files, &mut batch)?;
    let (mut share, mut done) = (0, 0);
    for (number, (hundredths, section)) in SECTIONS.iter().enumerate() {
        // Each section has numbers of its own, so that a change of one leaves the others' inputs as they were.
        let mut random = Random::new(seed.wrapping_add((number as u64).wrapping_mul(0x5851_f42d_4c95_7f2d)));
        share += hundredths;
        section(&mut random, count * share / 100 - done, &mut batch)?;
        done = count * share / 100;
    }
    batch.flush()
}
