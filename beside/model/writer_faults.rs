//! Faults done to scenes that could be written.
//!
//! A fault need not show: another may come first in the order of refusals, and some, such as a cut
//! in bytes that are never read, leave the scene one that is written.

use crate::fault_files::Edition;
use crate::index::code_number;
use crate::random::Random;
use crate::writer::{Row, MOST_IN_4_BYTES};
use crate::writer_catalogues::spoil_catalogue;
use crate::writer_scenes::{Scene, DNA1, PRINCIPAL_CODES, TAKEN_CODES};

#[derive(Clone, Copy, Debug, PartialEq)]
pub enum Fault {
    /// More rows are counted than the table has.
    RowCount,
    ZeroAddress,
    /// A payload is not in the source.
    Outside,
    Code,
    PrincipalCount,
    /// A DNA1 does not read.
    Catalogue,
    /// There is no row, or the last is no DNA1.
    LastRow,
    /// A New header is not 64-bit little-endian.
    Form,
    Version,
    /// A row has a number that is too large for its form.
    RowNumber,
    ShortOutput,
}

/// Codes that are nearly one that is taken, and the end mark.
const UNKNOWN_CODES: [u64; 11] = [
    code_number(b"ENDB"),
    code_number(b"BDNE"),
    code_number(b"DNA2"),
    code_number(b"1AND"),
    code_number(b"DATB"),
    code_number(b"OB\0\x01"),
    code_number(b"OB\x01\0"),
    code_number(b"\0\0OB"),
    1,
    0x0000_8000,
    MOST_IN_4_BYTES,
];

/// `place` chooses the row, where one row is at fault. The header, the row count and the output are
/// not a scene's: their faults are done elsewhere.
pub fn spoil(scene: &mut Scene, random: &mut Random, fault: Fault, place: u64) {
    let number = place.checked_rem(scene.rows.len() as u64).unwrap_or(0) as usize;
    let source_bytes = scene.source.len() as u64;
    match (fault, scene.rows.get_mut(number)) {
        (Fault::ZeroAddress, Some(row)) => row.address = 0,
        (Fault::Outside, Some(row)) => move_outside(row, random, source_bytes),
        (Fault::Code, Some(row)) => row.code = unknown_code(random),
        (Fault::PrincipalCount, Some(row)) => {
            row.code = random.pick(&PRINCIPAL_CODES);
            row.count = wrong_count(random);
        }
        (Fault::RowNumber, Some(_)) => {
            enlarge_number(scene, random, number);
            if random.chance(25) {
                let other = random.below(scene.rows.len() as u64) as usize;
                enlarge_number(scene, random, other);
            }
        }
        (Fault::Catalogue, _) => spoil_catalogue(scene, random, number),
        (Fault::LastRow, _) => spoil_last(scene, random),
        _ => {}
    }
}

/// Ends that lie just past the source's end, far past it, or at 2^64 and later, where a sum of 64
/// bits is small again.
fn move_outside(row: &mut Row, random: &mut Random, source_bytes: u64) {
    let near = 1 + random.below(9);
    let length = row.payload_length.min(source_bytes);
    let (at, length) = random.pick(&[
        (source_bytes + 1, 0),
        (source_bytes, 1),
        (source_bytes + near, 0),
        (source_bytes - length + near, length),
        (row.payload_at, source_bytes + near),
        (0, source_bytes + 1),
        (row.payload_at.wrapping_add(1 << 32), length),
        (row.payload_at, length + (1 << 32)),
        (row.payload_at.wrapping_add(1 << 63), length),
        (u64::MAX, 0),
        (u64::MAX, 1),
        (u64::MAX, u64::MAX),
        (1, u64::MAX),
        (near.wrapping_neg(), near),
        (near.wrapping_neg(), 2 * near),
        (near, near.wrapping_neg()),
        (1 << 63, 1 << 63),
    ]);
    row.payload_at = at;
    row.payload_length = length;
}

/// Those over 2^32-1 would be taken if only their low half, or only their high half, were asked.
fn unknown_code(random: &mut Random) -> u64 {
    let taken = random.pick(&TAKEN_CODES);
    let principal = random.pick(&PRINCIPAL_CODES);
    let good = random.pick(&[DNA1, DNA1, taken, principal]);
    let any = random.number();
    let high = random.pick(&[1 << 32, 1 << 63, any << 32 | 1 << 40]);
    let unknown = random.pick(&UNKNOWN_CODES);
    random.weighted(&[
        (25, code_number(b"ENDB")),
        (25, unknown),
        (30, good | high),
        (5, DNA1 << 32),
        (5, any & MOST_IN_4_BYTES | 1),
        (5, 1 << 32),
        (5, u64::MAX),
    ])
}

/// Some are 1 if only a part of the number is asked.
fn wrong_count(random: &mut Random) -> u64 {
    let any = random.number();
    let over = (1 << 32) + random.below(3);
    random.pick(&[
        0,
        2,
        0x101,
        0x0100_0000,
        MOST_IN_4_BYTES,
        over,
        (1 << 32) + 1,
        1 << 56,
        u64::MAX,
        any & !1,
    ])
}

/// In Legacy the index, the count or, at 32 bits, the address; in New the index. A Principal whose
/// count is enlarged becomes DATA, as otherwise its count is refused before.
fn enlarge_number(scene: &mut Scene, random: &mut Random, number: usize) {
    let (header, row) = (&scene.header, &mut scene.rows[number]);
    let low = random.pick(&[row.index, row.count, row.address]) & MOST_IN_4_BYTES;
    let any = random.number() | 1 << 32;
    let large = random.pick(&[1 << 32, 1 << 32, 1 << 32 | low, 1 << 63, u64::MAX, any]);
    let choices = match (header.edition, header.pointer_bytes) {
        (Edition::Legacy, 4) => 3,
        (Edition::Legacy, _) => 2,
        (Edition::New, _) => 1,
    };
    match random.below(choices) {
        0 => row.index = large,
        1 => {
            row.count = large;
            if PRINCIPAL_CODES.contains(&row.code) {
                row.code = code_number(b"DATA");
            }
        }
        _ => row.address = large,
    }
}

/// Another last row, one more after it, one less, or none at all.
fn spoil_last(scene: &mut Scene, random: &mut Random) {
    let code = random.pick(&TAKEN_CODES);
    let principal = random.pick(&PRINCIPAL_CODES);
    let code = random.pick(&[code, principal]);
    let last = scene.rows.pop();
    let other = last.map(|row| Row {
        code,
        count: 1,
        ..row
    });
    match random.below(10) {
        0..=2 => scene.rows.extend(other),
        3..=6 => scene.rows.extend(last.into_iter().chain(other)),
        7 | 8 => {}
        _ => scene.rows.clear(),
    }
}
