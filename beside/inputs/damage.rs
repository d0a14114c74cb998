//! Damaged copies of scenes: each refusal of a file comes from several of these, alone and after one another.

use crate::batch::Batch;
use crate::catalogues::Catalogue;
use crate::random::Random;
use crate::scenes::{Block, Form, Scene, LONGEST};
use std::io::{self, Write};

type OfScene = fn(&mut Random, &mut Scene);

/// Damage that keeps the layout, so that what comes before and after is read as it was.
const OF_SCENES: [OfScene; 13] = [
    address_zero,
    address_zero,
    principal_count,
    principal_count,
    unknown_code,
    unknown_code,
    last_is_not_dna,
    last_is_not_dna,
    no_blocks,
    size_off_by_one,
    size_large,
    catalogue_damaged,
    end_mark_damaged,
];

pub fn write<W: Write>(random: &mut Random, count: usize, batch: &mut Batch<W>) -> io::Result<()> {
    batch.allow(count);
    for number in 0..count {
        batch.put(b'F', &damaged(random, Form::numbered(number)))?;
    }
    Ok(())
}

pub fn damaged(random: &mut Random, form: Form) -> Vec<u8> {
    let mut bytes = of_any_length(random, form);
    bytes.truncate(LONGEST);
    bytes
}

fn of_any_length(random: &mut Random, form: Form) -> Vec<u8> {
    let mut scene = Scene::any(random, form);
    match random.below(9) {
        0 => one_byte(random, scene.bytes()),
        1 => cut(random, &scene),
        2 => shifted(random, scene.bytes()),
        3 => several(random, scene),
        4 => one_block(random, scene),
        _ => {
            of_scene(random, &mut scene);
            scene.bytes()
        }
    }
}

/// Several faults, of which the earliest is reported.
fn several(random: &mut Random, mut scene: Scene) -> Vec<u8> {
    for _ in 0..2 + random.below(2) {
        of_scene(random, &mut scene);
    }
    if random.once_in(3) {
        return cut(random, &scene);
    }
    scene.bytes()
}

/// One block with up to three faults that is cut, too: which is reported shows the order of the checks.
fn one_block(random: &mut Random, mut scene: Scene) -> Vec<u8> {
    let number = random.below(scene.blocks.len());
    let block = &mut scene.blocks[number];
    if random.once_in(2) {
        block.address = 0;
    }
    if random.once_in(3) {
        block.code = *b"USER";
    } else if random.once_in(2) {
        block.code = *b"OB\0\0";
        block.count = 2;
    }
    let boundaries = scene.boundaries();
    let length = boundaries[number + 1] - boundaries[number];
    let mut bytes = scene.bytes();
    bytes.truncate(boundaries[number] + random.below(length.min(40) + 1));
    bytes
}

fn of_scene(random: &mut Random, scene: &mut Scene) {
    let damage = OF_SCENES[random.below(OF_SCENES.len())];
    damage(random, scene)
}

fn one_byte(random: &mut Random, mut bytes: Vec<u8>) -> Vec<u8> {
    let at = random.below(bytes.len());
    bytes[at] = match random.below(3) {
        0 => bytes[at].wrapping_add(1),
        1 => bytes[at].wrapping_sub(1),
        _ => random.byte(),
    };
    bytes
}

/// Cut anywhere, or within the first bytes of a block, where the order of the checks shows.
fn cut(random: &mut Random, scene: &Scene) -> Vec<u8> {
    let mut bytes = scene.bytes();
    let boundaries = scene.boundaries();
    let at = if random.once_in(2) {
        random.below(bytes.len())
    } else {
        boundaries[random.below(boundaries.len())] + random.below(40)
    };
    bytes.truncate(at);
    bytes
}

/// A byte dropped or put in: every later field stands elsewhere.
fn shifted(random: &mut Random, mut bytes: Vec<u8>) -> Vec<u8> {
    let at = random.below(bytes.len());
    if random.once_in(2) {
        bytes.remove(at);
    } else {
        bytes.insert(at, random.byte());
    }
    bytes
}

fn address_zero(random: &mut Random, scene: &mut Scene) {
    if let Some(block) = any_block(random, scene) {
        block.address = 0;
    }
}

fn principal_count(random: &mut Random, scene: &mut Scene) {
    let bits = if scene.form.new { 64 } else { 32 };
    let count = match random.below(5) {
        0 => 0,
        1 => 2,
        // A 1 to a reader of half the width, and a 1 to a reader in the other order.
        2 if scene.form.new => (1 << 32) + 1,
        3 => 1 << (bits - 8),
        _ => random.of_bits(bits) & !1,
    };
    let code = [*b"OB\0\0", *b"\0\0\0\0", *b"LA\0\0", *b"DA\0\0"][random.below(4)];
    let block = Block { code, count, ..Block::any(random, scene.form) };
    insert(random, scene, block);
}

fn unknown_code(random: &mut Random, scene: &mut Scene) {
    let code = match random.below(12) {
        0 => *b"USER",
        1 => *b"ENDb",
        2 => *b"REN\0",
        3 => *b"O\0B\0",
        4 => *b"\0\0\0O",
        5 => *b"dna1",
        6 => *b"DNA2",
        7 => *b"END\0",
        8 => *b"BLEN",
        9 => [random.byte(), random.byte(), 0, random.byte() | 1],
        10 => [random.byte(), random.byte(), random.byte() | 1, 0],
        _ => [random.byte(), random.byte(), random.byte(), random.byte() | 1],
    };
    let block = Block { code, ..Block::any(random, scene.form) };
    insert(random, scene, block);
}

fn last_is_not_dna(random: &mut Random, scene: &mut Scene) {
    if random.once_in(2) {
        scene.blocks.pop();
    }
    let mut block = Block::any(random, scene.form);
    while block.code == *b"DNA1" {
        block = Block::any(random, scene.form);
    }
    if !random.once_in(4) {
        scene.blocks.push(block);
    }
}

fn no_blocks(_: &mut Random, scene: &mut Scene) {
    scene.blocks.clear();
}

fn size_off_by_one(random: &mut Random, scene: &mut Scene) {
    let more = random.once_in(2);
    if let Some(block) = any_block(random, scene) {
        let size = block.payload.len() as u64;
        block.size = Some(if more { size + 1 } else { size.saturating_sub(1) });
    }
}

/// A size far over the file's; at times the right one with a high bit more.
fn size_large(random: &mut Random, scene: &mut Scene) {
    let size = random.number(&[1 << 16, 1 << 31, (1 << 32) - 1, 1 << 32, 1 << 63, u64::max_value()]);
    let added = random.once_in(2);
    if let Some(block) = any_block(random, scene) {
        block.size = Some(if added { size | block.payload.len() as u64 } else { size });
    }
}

/// A DNA1 block, the last or one before it, whose catalogue is damaged.
fn catalogue_damaged(random: &mut Random, scene: &mut Scene) {
    let mut written = Catalogue::any(random).written(scene.form.big, random);
    written.damage(random);
    let payload = if random.once_in(8) { Vec::new() } else { written.bytes };
    let block = Block { payload, ..Block::dna1(random, scene.form) };
    insert(random, scene, block);
    if random.once_in(2) {
        let last = scene.blocks.len() - 1;
        let at = random.below(last + 1);
        scene.blocks.swap(at, last);
    }
}

fn end_mark_damaged(random: &mut Random, scene: &mut Scene) {
    if scene.tail.is_empty() {
        return;
    }
    let at = random.below(scene.tail.len().min(4));
    match random.below(3) {
        0 => scene.tail.truncate(at),
        1 => scene.tail[at] ^= 0x20,
        _ => drop(scene.tail.remove(at)),
    }
}

fn any_block<'a>(random: &mut Random, scene: &'a mut Scene) -> Option<&'a mut Block> {
    let blocks = scene.blocks.len().max(1);
    scene.blocks.get_mut(random.below(blocks))
}

fn insert(random: &mut Random, scene: &mut Scene, block: Block) {
    let at = random.below(scene.blocks.len() + 1);
    scene.blocks.insert(at, block);
}
