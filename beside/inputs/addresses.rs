//! Searches for an address in scenes, a few of which are damaged.

use crate::batch::Batch;
use crate::damage::damaged;
use crate::random::Random;
use crate::scenes::{address, Block, Form, Scene};
use std::io::{self, Write};

pub fn write<W: Write>(random: &mut Random, count: usize, batch: &mut Batch<W>) -> io::Result<()> {
    write_as(b'A', random, count, batch)
}

/// The same searches, through an index.
pub fn write_indexed<W: Write>(random: &mut Random, count: usize, batch: &mut Batch<W>) -> io::Result<()> {
    write_as(b'a', random, count, batch)
}

fn write_as<W: Write>(kind: u8, random: &mut Random, count: usize, batch: &mut Batch<W>) -> io::Result<()> {
    batch.allow(count);
    for number in 0..count {
        let form = Form::numbered(number);
        let scene = Scene::any(random, form);
        let mut input = asked(random, &scene).to_le_bytes().to_vec();
        if random.once_in(20) {
            input.extend(damaged(random, form));
        } else {
            input.extend(scene.bytes());
        }
        batch.put(kind, &input)?;
    }
    Ok(())
}

/// Mostly the address of a block: of any kind, or of one that can be found. The address of a REND, TEST, GLOB or DNA1 block is not found
/// unless one that can be found has it too.
fn asked(random: &mut Random, scene: &Scene) -> u64 {
    let any = &scene.blocks[random.below(scene.blocks.len())];
    let found: Vec<&Block> = scene.blocks.iter().filter(|block| can_be_found(block)).collect();
    match random.below(10) {
        0 => 0,
        1 => address(random, scene.form),
        2 => any.address ^ (1 << random.below(64)),
        3 => any.address.swap_bytes(),
        4..=6 if !found.is_empty() => random.pick(&found).address,
        _ => any.address,
    }
}

fn can_be_found(block: &Block) -> bool {
    block.code == *b"DATA" || block.code.ends_with(b"\0\0")
}
