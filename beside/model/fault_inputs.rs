//! Inputs of kinds F, H, C, c and f, written from documents 01 and 02 without the code.

use crate::batch::Record;
use crate::fault_damages::{damage, Damage};
use crate::fault_drafts::{Draft, What};
use crate::fault_reads::Order;
use crate::fault_samples::{any_bytes, catalogue, file, form, header, letters, Plan};
use crate::random::Random;

const KINDS: [(u64, u8); 5] = [(80, b'F'), (25, b'C'), (25, b'c'), (30, b'H'), (40, b'f')];

const FILE_DAMAGES: [(u64, Damage); 12] = [
    (22, Damage::None),
    (12, Damage::Cut),
    (8, Damage::CutPart),
    (14, Damage::Mark),
    (12, Damage::Extent),
    (7, Damage::ZeroAddress),
    (8, Damage::Code),
    (7, Damage::PrincipalCount),
    (2, Damage::NoZero),
    (3, Damage::Byte),
    (3, Damage::Shift),
    (2, Damage::Noise),
];

const CATALOGUE_DAMAGES: [(u64, Damage); 9] = [
    (18, Damage::None),
    (16, Damage::Cut),
    (16, Damage::CutPart),
    (14, Damage::Mark),
    (18, Damage::Extent),
    (6, Damage::NoZero),
    (4, Damage::Byte),
    (4, Damage::Shift),
    (4, Damage::Noise),
];

const HEADER_DAMAGES: [(u64, Damage); 6] = [
    (25, Damage::None),
    (30, Damage::Cut),
    (25, Damage::Mark),
    (10, Damage::Byte),
    (6, Damage::Shift),
    (4, Damage::Noise),
];

const NAME_BYTES: &[u8] = b"((**))f[ ";

pub fn record(random: &mut Random) -> Record {
    let kind = random.weighted(&KINDS);
    let input = match kind {
        b'F' => file_input(random),
        b'C' => catalogue_input(random, Order::Little),
        b'c' => catalogue_input(random, Order::Big),
        b'H' => header_input(random),
        _ => name_input(random),
    };
    Record { kind, input }
}

/// A second damage tries which of two faults is reported.
fn damaged(mut draft: Draft, random: &mut Random, damages: &[(u64, Damage)]) -> Draft {
    let first = random.weighted(damages);
    damage(&mut draft, random, first);
    if random.chance(15) {
        let second = random.weighted(damages);
        damage(&mut draft, random, second);
    }
    draft
}

fn file_input(random: &mut Random) -> Vec<u8> {
    let form = form(random);
    let large = random.chance(4);
    let mut plan = Plan {
        form,
        catalogues: Vec::new(),
        ends_with_catalogue: random.chance(90),
        longest_payload: if large { 300 } else { 24 },
    };
    let count = random.weighted(&[(75, 1), (20, 2), (5, 3)]);
    let count = count - u64::from(!plan.ends_with_catalogue);
    for _ in 0..count {
        let catalogue = file_catalogue(random, form.order, large);
        plan.catalogues.push(catalogue);
    }
    let draft = file(random, &plan);
    damaged(draft, random, &FILE_DAMAGES).bytes
}

/// A damaged one is still a whole payload: the file goes on after it.
fn file_catalogue(random: &mut Random, order: Order, large: bool) -> Draft {
    let order = seldom_other(random, order);
    let draft = catalogue(random, order, large);
    if random.chance(92) {
        return draft;
    }
    damaged(draft, random, &CATALOGUE_DAMAGES)
}

fn catalogue_input(random: &mut Random, order: Order) -> Vec<u8> {
    let large = random.chance(4);
    let order = seldom_other(random, order);
    let draft = catalogue(random, order, large);
    damaged(draft, random, &CATALOGUE_DAMAGES).bytes
}

fn seldom_other(random: &mut Random, order: Order) -> Order {
    let any = random.pick(&[Order::Little, Order::Big]);
    random.weighted(&[(96, order), (4, any)])
}

fn header_input(random: &mut Random) -> Vec<u8> {
    let form = form(random);
    let mut draft = header(random, form);
    if random.chance(30) {
        let length = random.below(12);
        let tail = any_bytes(random, length);
        draft.add(What::Run, &tail);
    }
    damaged(draft, random, &HEADER_DAMAGES).bytes
}

fn name_input(random: &mut Random) -> Vec<u8> {
    let mut name = function_pointer(random);
    let place = random.below(name.len() as u64) as usize;
    match random.below(10) {
        0 | 1 => {}
        2..=4 => name.truncate(place),
        5..=7 => name[place] = name_byte(random),
        _ => name = strange_name(random),
    }
    name
}

/// The parts have no `)`, the rest may.
fn function_pointer(random: &mut Random) -> Vec<u8> {
    let mut name = part(random);
    name.retain(|byte| *byte != b')');
    let mut arguments = part(random);
    arguments.retain(|byte| *byte != b')');
    let rest = if random.chance(60) {
        Vec::new()
    } else {
        part(random)
    };
    [
        b"(*",
        name.as_slice(),
        b")(",
        arguments.as_slice(),
        b")",
        rest.as_slice(),
    ]
    .concat()
}

fn part(random: &mut Random) -> Vec<u8> {
    let length = random.below(8);
    if random.chance(60) {
        return letters(random, length);
    }
    (0..length).map(|_| name_byte(random)).collect()
}

fn strange_name(random: &mut Random) -> Vec<u8> {
    let start: &[u8] = random.pick(&[&b""[..], b"(", b"(*", b"(*", b"(*f)", b"(*f)("]);
    let length = random.below(12);
    let mut name = start.to_vec();
    name.extend((0..length).map(|_| name_byte(random)));
    name
}

fn name_byte(random: &mut Random) -> u8 {
    match random.below(20) {
        0 => random.number() as u8,
        1..=3 => 32 + random.below(95) as u8,
        _ => random.pick(NAME_BYTES),
    }
}
