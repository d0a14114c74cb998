//! Damages done to inputs that read, written from documents 01 and 02 without the code.

use crate::fault_drafts::{Draft, Part, What, EVERY_WHAT};
use crate::fault_samples::{any_bytes, letters};
use crate::random::Random;

#[derive(Clone, Copy)]
pub enum Damage {
    None,
    /// The end is missing from any byte on, each as often.
    Cut,
    /// The end is missing from some byte of some part on, so that short parts are cut as well.
    CutPart,
    /// A mark has a wrong byte, which is sometimes the last byte there.
    Mark,
    /// A count or a size is wrong.
    Extent,
    ZeroAddress,
    /// A block's code is replaced.
    Code,
    PrincipalCount,
    /// No zero follows from the end of some string on.
    NoZero,
    /// Any byte is replaced.
    Byte,
    /// Some bytes are taken out or put in.
    Shift,
    /// From any byte on there is noise.
    Noise,
}

const EDGES: [u64; 10] = [
    0,
    (1 << 15) - 1,
    (1 << 16) - 1,
    (1 << 31) - 1,
    1 << 31,
    (1 << 32) - 1,
    1 << 32,
    (1 << 63) - 1,
    1 << 63,
    u64::MAX,
];

const STRANGE_CODES: [&[u8; 4]; 14] = [
    b"DNA1",
    b"DNA2",
    b"DNA\0",
    b"dna1",
    b"RENE",
    b"TESt",
    b"GLO\0",
    b"\0ATA",
    b"OB\0x",
    b"OBx\0",
    b"\0\0\0\x01",
    b"\0\0\x01\0",
    b"ENDA",
    b"ENDB",
];

const MARK_BYTES: &[u8] = b"_-vVBSNTxED\0 1";

/// A damage that finds no place to be done at is left out.
pub fn damage(draft: &mut Draft, random: &mut Random, damage: Damage) {
    let place = random.below(draft.bytes.len() as u64) as usize;
    match damage {
        Damage::None => {}
        Damage::Cut => cut(draft, place),
        Damage::CutPart => cut_part(draft, random),
        Damage::Mark => spoil_mark(draft, random),
        Damage::Extent => spoil_extent(draft, random),
        Damage::ZeroAddress => set(draft, random, What::Address, 0),
        Damage::Code => spoil_code(draft, random),
        Damage::PrincipalCount => {
            let edge = random.pick(&EDGES);
            let count = random.pick(&[0, 2, 3, 0x101, 0x0100_0000, edge]);
            set(draft, random, What::PrincipalCount, count)
        }
        Damage::NoZero => drop_zeros(draft, random),
        Damage::Byte => spoil_byte(draft, random, place),
        Damage::Shift => shift(draft, random, place),
        Damage::Noise => {
            let length = random.below(60);
            cut(draft, place);
            let noise = any_bytes(random, length);
            draft.bytes.extend(noise);
        }
    }
}

fn cut(draft: &mut Draft, place: usize) {
    draft.bytes.truncate(place);
    draft.forget_from(place);
}

/// Half the time each part is as likely, half the time each sort of part.
fn cut_part(draft: &mut Draft, random: &mut Random) {
    let what = if random.chance(50) && !draft.parts.is_empty() {
        random.pick(&draft.parts).what
    } else {
        random.pick(&EVERY_WHAT)
    };
    if let Some(part) = draft.pick(random, what) {
        let kept = random.below(part.length as u64 + 1) as usize;
        cut(draft, part.at + kept);
    }
}

fn spoil_mark(draft: &mut Draft, random: &mut Random) {
    if let Some(part) = draft.pick(random, What::Mark) {
        let place = part.at + random.below(part.length as u64) as usize;
        spoil_byte(draft, random, place);
        if random.chance(10) {
            cut(draft, place + 1);
        }
    }
}

fn spoil_byte(draft: &mut Draft, random: &mut Random, place: usize) {
    let (any, mark) = (random.number() as u8, random.pick(MARK_BYTES));
    let bit = 1 << random.below(8);
    if let Some(byte) = draft.bytes.get_mut(place) {
        *byte = random.pick(&[any, mark, *byte ^ bit, *byte ^ 0x20]);
    }
}

fn spoil_extent(draft: &mut Draft, random: &mut Random) {
    if let Some(part) = draft.pick(random, What::Extent) {
        let left = (draft.bytes.len() - part.at - part.length) as u64;
        let number = wrong_extent(random, draft.number(part), part, left);
        draft.set_number(part, number);
    }
}

/// `left` is the number of bytes after the part. A sum of the number and a place near the part may
/// pass 2^64 and look small again.
fn wrong_extent(random: &mut Random, number: u64, part: Part, left: u64) -> u64 {
    let span = random.pick(&[1, 4, 40]);
    let near = 1 + random.below(span);
    let top_bit = 8 * part.length as u64 - 1;
    match random.below(12) {
        0 | 1 => number.wrapping_add(near),
        2 => number.wrapping_sub(near),
        3 => left.wrapping_sub(random.pick(&[7, 8, 9, 11, 12, 13, 15, 16, 17])),
        4 => left.wrapping_add(near),
        5 => random.pick(&EDGES),
        6 => random.pick(&EDGES).wrapping_sub(near),
        7 => (part.at as u64).wrapping_neg().wrapping_add(near),
        8 => number | 1 << top_bit,
        9 => number | 1 << random.below(top_bit),
        10 => random.pick(&[1 << top_bit, (1 << top_bit) - 1, u64::MAX]),
        _ => random.number(),
    }
}

fn set(draft: &mut Draft, random: &mut Random, what: What, number: u64) {
    if let Some(part) = draft.pick(random, what) {
        draft.set_number(part, number);
    }
}

fn spoil_code(draft: &mut Draft, random: &mut Random) {
    if let Some(part) = draft.pick(random, What::Code) {
        let mut code = *random.pick(&STRANGE_CODES);
        if random.chance(40) {
            code.copy_from_slice(&letters(random, 4));
        }
        draft.bytes.splice(part.at..part.at + 4, code.to_vec());
    }
}

/// The bytes stay as many, so the numbers after the string have no zeros either.
fn drop_zeros(draft: &mut Draft, random: &mut Random) {
    if let Some(part) = draft.pick(random, What::String) {
        let last = part.at + part.length - 1;
        let zeros = draft.bytes[last..].iter_mut().filter(|byte| **byte == 0);
        zeros.for_each(|byte| *byte = b'z');
    }
}

fn shift(draft: &mut Draft, random: &mut Random, place: usize) {
    let taken_out = random.below(5) as usize;
    let end = draft.bytes.len().min(place + taken_out);
    let length = random.below(5);
    let put_in = any_bytes(random, length);
    draft.bytes.splice(place..end, put_in);
    draft.forget_from(place);
}
