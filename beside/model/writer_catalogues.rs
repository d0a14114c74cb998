//! DNA1 rows whose payload does not read as a catalogue.

use crate::fault_damages::{damage, Damage};
use crate::fault_reads::Order;
use crate::fault_samples::{any_bytes, catalogue};
use crate::random::Random;
use crate::writer::Row;
use crate::writer_scenes::{Scene, DNA1};

const CATALOGUE_DAMAGES: [(u64, Damage); 8] = [
    (20, Damage::Cut),
    (20, Damage::CutPart),
    (40, Damage::Mark),
    (12, Damage::Extent),
    (6, Damage::NoZero),
    (4, Damage::Byte),
    (4, Damage::Shift),
    (4, Damage::Noise),
];

/// The row given, which may become a DNA1 with the payload it has, or the last row, if that is one.
pub fn spoil_catalogue(scene: &mut Scene, random: &mut Random, number: usize) {
    let last = scene.rows.len().saturating_sub(1);
    let number = random.pick(&[number, last]);
    match scene.rows.get_mut(number) {
        Some(row) if row.code == DNA1 => {}
        Some(row) if number < last => row.code = DNA1,
        _ => return,
    }
    match random.below(20) {
        0..=4 => shorten(&mut scene.rows[number], random),
        5 => scene.rows[number].payload_length = 0,
        6 | 7 => shift(&mut scene.rows[number], random),
        8 => scene.header.order = other(scene.header.order),
        9 => {
            let order = other(scene.header.order);
            replace_catalogue(scene, random, number, order, &[(1, Damage::None)]);
        }
        _ => {
            let order = scene.header.order;
            replace_catalogue(scene, random, number, order, &CATALOGUE_DAMAGES);
        }
    }
}

/// The bytes that would be read go on in the source, but not in the payload.
fn shorten(row: &mut Row, random: &mut Random) {
    row.payload_length = random.below(row.payload_length);
}

/// The first bytes that would be read lie before the payload.
fn shift(row: &mut Row, random: &mut Random) {
    let distance = random.pick(&[1, 2, 3, 4, 8]).min(row.payload_length);
    row.payload_at = row.payload_at.wrapping_add(distance);
    row.payload_length -= distance;
}

fn other(order: Order) -> Order {
    match order {
        Order::Little => Order::Big,
        Order::Big => Order::Little,
    }
}

/// The row's payload becomes a damaged catalogue behind all others, which is cut by the source's
/// end or, if more bytes follow, by the payload's.
fn replace_catalogue(
    scene: &mut Scene,
    random: &mut Random,
    number: usize,
    order: Order,
    damages: &[(u64, Damage)],
) {
    let mut draft = catalogue(random, order, false);
    let first = random.weighted(damages);
    damage(&mut draft, random, first);
    scene.rows[number].payload_at = scene.source.len() as u64;
    scene.rows[number].payload_length = draft.bytes.len() as u64;
    scene.source.extend(draft.bytes);
    if random.chance(50) {
        let length = random.below(30);
        let more = any_bytes(random, length);
        scene.source.extend(more);
    }
}
