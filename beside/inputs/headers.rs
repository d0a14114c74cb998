//! Headers: document 01's examples, every cut, every byte left out and every byte written over, before blocks that are read and by themselves.

use crate::batch::Batch;
use crate::random::Random;
use crate::scenes::{Form, Scene};
use std::io::{self, Write};

/// The bytes that mean something in a header, or stand beside those that do.
const FIRST: &[u8] = b"_-vVwuWU^`,.019/: BLENDERx\0\xff\x80";

const EXAMPLES: &[&[u8]] = &[
    b"",
    b"BLENDE",
    b"BLENDER",
    b"BLENDER-v280",
    b"BLENDER-v280ENDB",
    b"BLENDER-v2x0ENDB",
    b"BLENDER17-01v0501",
    b"BLENDER17-01v0501ENDB",
    b"BLENDER_V9999ENDB",
    b"blender-v280ENDB",
    b"\x1f\x8b\x08\0\0\0\0\0",
    b"(\xb5/\xfd\0\0\0\0",
    b"BLENDER-v280REND\0\0\0\0\0\0\0\0\0\0\0\0\0\0\0\0\0\0\0\0ENDB",
    b"BLENDER_v280\0\0\0\0\0\0\0\0\x01\0\0\0\0\0\0\0\x02\0\0\0ENDB",
    b"BLENDER_v280\0\0\0\0\0\0\0\0\x01\0\0\0\0\0\0\0\x01\0\0\0ENDB",
    b"BLENDER_v280USER\x05\0\0\0\x01\0\0\0\0\0\0\0\x01\0\0\0four",
];

pub fn write<W: Write>(random: &mut Random, count: usize, batch: &mut Batch<W>) -> io::Result<()> {
    batch.allow(count);
    for example in EXAMPLES {
        both(example, batch)?;
    }
    for number in 0..8 {
        cuts(&Scene::any(random, Form::numbered(number)), batch)?;
    }
    // Round by round, so that a small share has every byte of every form with the first values already.
    for value in 0..FIRST.len() + 256 {
        for number in 0..8 {
            over(random, Form::numbered(number), value, batch)?;
        }
    }
    while !batch.full() {
        let form = Form::numbered(random.below(8));
        let mut scene = Scene::any(random, form);
        scene.header = any(random, form);
        both(&scene.bytes(), batch)?;
    }
    Ok(())
}

/// As a file, and as a header.
fn both<W: Write>(bytes: &[u8], batch: &mut Batch<W>) -> io::Result<()> {
    batch.put(b'F', bytes)?;
    batch.put(b'H', &bytes[..bytes.len().min(24)])
}

/// The header cut short, alone; and with each byte left out, before the blocks.
fn cuts<W: Write>(scene: &Scene, batch: &mut Batch<W>) -> io::Result<()> {
    let bytes = scene.bytes();
    for length in 0..=scene.header.len() {
        both(&bytes[..length], batch)?;
    }
    for at in 0..scene.header.len() {
        let mut without = bytes.clone();
        without.remove(at);
        both(&without, batch)?;
    }
    Ok(())
}

/// Each byte of a header written over by the value with this number: those that mean something, then all.
fn over<W: Write>(random: &mut Random, form: Form, value: usize, batch: &mut Batch<W>) -> io::Result<()> {
    for at in 0..if form.new { 17 } else { 12 } {
        if batch.full() {
            return Ok(());
        }
        let mut bytes = Scene::any(random, form).bytes();
        bytes[at] = FIRST.get(value).cloned().unwrap_or_else(|| (value - FIRST.len()) as u8);
        both(&bytes, batch)?;
    }
    Ok(())
}

fn any(random: &mut Random, form: Form) -> Vec<u8> {
    let mut header = form.header(random);
    for _ in 0..random.below(3) {
        let at = random.below(header.len());
        header[at] = if random.once_in(3) { random.byte() } else { FIRST[random.below(FIRST.len())] };
    }
    header
}
