//! Files, headers and catalogues that end early: a small scene of each form at every place, then any of them within the reads that are
//! short or seldom there.

use crate::batch::Batch;
use crate::catalogues::Catalogue;
use crate::mutations::small;
use crate::random::Random;
use crate::scenes::{Block, Form, Scene, LONGEST};
use std::io::{self, Write};

/// What "BLENDER" takes: nothing shorter is a header that is cut.
const NAME: usize = 7;

pub fn write<W: Write>(random: &mut Random, count: usize, batch: &mut Batch<W>) -> io::Result<()> {
    batch.allow(count);
    for number in 0..8 {
        every_place(small(random, Form::numbered(number)), batch)?;
    }
    while !batch.full() {
        let form = Form::numbered(random.below(8));
        batch.put(b'H', &header(random, form))?;
        let header = header(random, form);
        batch.put(b'H', &header)?;
        batch.put(b'F', &header)?;
        batch.put(b'F', &payload(random, form))?;
        catalogue(random, form, batch)?;
    }
    Ok(())
}

/// The scene and its header, and its last catalogue by itself and in a scene whose sizes fit, each cut at every place.
fn every_place<W: Write>(mut scene: Scene, batch: &mut Batch<W>) -> io::Result<()> {
    let bytes = scene.bytes();
    for length in 0..bytes.len() {
        batch.put(b'F', &bytes[..length])?;
    }
    for length in 0..=scene.header.len() {
        batch.put(b'H', &bytes[..length])?;
    }
    let last = scene.blocks.len() - 1;
    while scene.blocks[last].payload.pop().is_some() {
        batch.put(order(scene.form), &scene.blocks[last].payload)?;
        batch.put(b'F', &scene.bytes())?;
    }
    Ok(())
}

/// The kind of a catalogue in a form's order.
fn order(form: Form) -> u8 {
    if form.big {
        b'c'
    } else {
        b'C'
    }
}

/// A header that ends early; at times one of its bytes is written over, before the end or after it.
fn header(random: &mut Random, form: Form) -> Vec<u8> {
    let mut header = form.header(random);
    let length = NAME + random.below(header.len() - NAME);
    if random.once_in(4) {
        let at = NAME + random.below(header.len() - NAME);
        header[at] = b"_-vVx1"[random.below(6)];
    }
    header.truncate(length);
    header
}

/// A scene that ends up to three bytes before a block does, or in the end mark.
fn payload(random: &mut Random, form: Form) -> Vec<u8> {
    let scene = Scene::any(random, form);
    let boundaries = scene.boundaries();
    let end = boundaries[1 + random.below(scene.blocks.len())];
    let mark = boundaries[scene.blocks.len()];
    let mut bytes = scene.bytes();
    bytes.truncate(if random.once_in(4) { mark + random.below(4) } else { end - 1 - random.below(3) });
    bytes
}

/// A catalogue that ends early, by itself and as a block of a scene, whose size fits.
fn catalogue<W: Write>(random: &mut Random, form: Form, batch: &mut Batch<W>) -> io::Result<()> {
    let mut written = Catalogue::any(random).written(form.big, random);
    written.cut(random);
    batch.put(order(form), &written.bytes)?;
    let mut scene = Scene::any(random, form);
    let at = random.below(scene.blocks.len() + 1);
    scene.blocks.insert(at, Block { payload: written.bytes, ..Block::dna1(random, form) });
    let mut bytes = scene.bytes();
    bytes.truncate(LONGEST);
    batch.put(b'F', &bytes)
}
