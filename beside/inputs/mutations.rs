//! Every byte of a small scene written over, in each form.

use crate::batch::Batch;
use crate::catalogues::Catalogue;
use crate::random::Random;
use crate::scenes::{Block, Form, Scene};
use std::io::{self, Write};

pub fn write<W: Write>(random: &mut Random, count: usize, batch: &mut Batch<W>) -> io::Result<()> {
    batch.allow(count);
    let scenes: Vec<Vec<u8>> = (0..8).map(|number| small(random, Form::numbered(number)).bytes()).collect();
    // A round gives each byte of each scene one new value. After 255 rounds every value has been there; then two bytes are changed.
    for round in 1..256 {
        for scene in &scenes {
            one_round(scene, round, batch)?;
        }
    }
    while !batch.full() {
        let mut bytes = scenes[random.below(8)].clone();
        for _ in 0..2 {
            let at = random.below(bytes.len());
            bytes[at] = random.byte();
        }
        batch.put(b'F', &bytes)?;
    }
    Ok(())
}

/// The new values in the order of how often they matter: a bit, the sign, the case, zero and all ones, and then the others.
fn one_round<W: Write>(scene: &[u8], round: usize, batch: &mut Batch<W>) -> io::Result<()> {
    for at in 0..scene.len() {
        let mut bytes = scene.to_vec();
        bytes[at] ^= difference(scene[at], round);
        batch.put(b'F', &bytes)?;
    }
    Ok(())
}

/// The `round`-th of the 255 differences from a byte, the first ones chosen.
fn difference(byte: u8, round: usize) -> u8 {
    let mut list = vec![1, byte, !byte, 0x20, 0x80, byte ^ byte.wrapping_add(1), byte ^ byte.wrapping_sub(1), 2];
    list.extend(1..=255);
    let mut seen = [false; 256];
    seen[0] = true;
    list.retain(|&d: &u8| !std::mem::replace(&mut seen[usize::from(d)], true));
    list[round - 1]
}

/// A principal block, a DATA block with an end mark in it, an earlier DNA1 block with nothing, and the last, which has padding in all three
/// places.
pub fn small(random: &mut Random, form: Form) -> Scene {
    let catalogue = Catalogue {
        names: vec![b"x".to_vec(), b"*y[2]".to_vec(), Vec::new()],
        types: vec![(b"int".to_vec(), 4), (b"ID".to_vec(), 12), (b"float".to_vec(), 4)],
        structs: vec![(0, vec![(0, 0), (0, 1)])],
    };
    let block = |code: &[u8; 4], address, payload: Vec<u8>| Block { code: *code, address, index: 1, count: 1, payload, size: None };
    let empty = Catalogue::default().written(form.big, random).bytes;
    let last = catalogue.written(form.big, random).bytes;
    Scene {
        form,
        header: form.header_of([*b"17", *b"01"], if form.new { b"0501" } else { b"280" }),
        blocks: vec![
            block(b"OB\0\0", 16, b"hull".to_vec()),
            block(b"DATA", 32, b"ENDB".to_vec()),
            block(b"DNA1", 48, empty),
            block(b"DNA1", 64, last),
        ],
        tail: b"ENDB!".to_vec(),
    }
}
