//! Slices for primitive values: every length around the widths, with the bytes of numbers at the edges in either order.

use crate::batch::Batch;
use crate::random::Random;
use std::io::{self, Write};

/// Of 2, 4 and 8 bytes: least, greatest and their neighbours; of floats: zeros, ones, infinities, subnormal numbers, and NaNs that are
/// quiet, signalling, negative, with a payload.
const EDGES: &[u64] = &[
    0, 1, 0x7f, 0x80, 0xff, 0x7fff, 0x8000, 0xffff, 0x7fff_ffff, 0x8000_0000, 0xffff_ffff,
    0x7fff_ffff_ffff_ffff, 0x8000_0000_0000_0000, 0xffff_ffff_ffff_ffff,
    0x3f80_0000, 0x7f80_0000, 0xff80_0000, 0x7f80_0001, 0x7fc0_0000, 0xffc1_2345, 0x7fbf_ffff, 0x0000_0001, 0x007f_ffff, 0x0080_0000,
    0x3ff0_0000_0000_0000, 0x7ff0_0000_0000_0000, 0xfff0_0000_0000_0000, 0x7ff0_0000_0000_0001, 0x7ff8_0000_0000_0000,
    0xfff8_1234_5678_9abc, 0x7ff7_ffff_ffff_ffff, 0x000f_ffff_ffff_ffff, 0x0010_0000_0000_0000,
];

pub fn write<W: Write>(random: &mut Random, count: usize, batch: &mut Batch<W>) -> io::Result<()> {
    batch.allow(count);
    for length in 0..10 {
        for edge in EDGES {
            batch.put(b'P', &cut(edge.to_le_bytes().to_vec(), length))?;
            batch.put(b'P', &cut(edge.to_be_bytes().to_vec(), length))?;
            batch.put(b'P', &cut((*edge as u32).to_be_bytes().to_vec(), length))?;
        }
    }
    while !batch.full() {
        batch.put(b'P', &any(random))?;
    }
    Ok(())
}

/// A slice of this length that starts with the bytes.
fn cut(mut bytes: Vec<u8>, length: usize) -> Vec<u8> {
    bytes.resize(length, 0xa5);
    bytes
}

fn any(random: &mut Random) -> Vec<u8> {
    let length = if random.once_in(3) { random.below(10) } else { 8 + random.below(3) };
    let mut bytes = random.bytes(length);
    if random.once_in(4) {
        // The exponent of an infinity or a NaN at either end.
        let exponent: &[u8] = random.pick(&[b"\x7f\xf0", b"\x7f\x80", b"\xff\xf8", b"\xff\xff"]);
        for (at, byte) in exponent.iter().enumerate() {
            if let Some(place) = bytes.get_mut(at) {
                *place = *byte;
            }
        }
    }
    if random.once_in(2) {
        bytes.reverse();
    }
    bytes
}
