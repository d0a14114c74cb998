//! The generator of inputs of kind O: one record from a stream of random numbers.
//!
//! This file chooses the faults, the row count and the output, and makes the few malformed records.
//! Headers, scenes and faults are in writer_headers.rs, writer_scenes.rs and writer_faults.rs.

use crate::batch::Record;
use crate::random::Random;
use crate::writer::{needed_bytes, Row, NUMBERS_PER_ROW};
use crate::writer_faults::{spoil, Fault};
use crate::writer_headers::header;
use crate::writer_records::{input_bytes, Input, WRITER_KIND};
use crate::writer_scenes::{scene, DNA1};

/// What comes late in the order of refusals is seldom seen beside another fault, so it gets more.
const FAULTS: [(u64, Fault); 11] = [
    (6, Fault::RowCount),
    (7, Fault::ZeroAddress),
    (9, Fault::Outside),
    (10, Fault::Code),
    (9, Fault::PrincipalCount),
    (26, Fault::Catalogue),
    (9, Fault::LastRow),
    (7, Fault::Form),
    (7, Fault::Version),
    (14, Fault::RowNumber),
    (12, Fault::ShortOutput),
];

/// Times seven this is 1, counted modulo 2^64.
const SEVENTH: u64 = 7_905_747_460_161_236_407;
/// A spoiled scene that needs more than the first has payloads outside the source, and so is refused
/// whatever the output: it gets one as for the second.
const MOST_NEEDED: u128 = 1 << 20;
const USUALLY_NEEDED: u64 = 400;

/// About one record in 150 is malformed on purpose.
pub fn record(random: &mut Random) -> Record {
    let malform = random.below(150) == 0;
    let input = well_formed(random);
    let input = if malform {
        malformed(random, &input)
    } else {
        input_bytes(&input)
    };
    Record {
        kind: WRITER_KIND,
        input,
    }
}

pub fn well_formed(random: &mut Random) -> Input {
    let count = random.weighted(&[(44, 0), (35, 1), (17, 2), (4, 3)]);
    let faults: Vec<Fault> = (0..count).map(|_| random.weighted(&FAULTS)).collect();
    with_faults(random, &faults)
}

/// Most of the faults meet in one row.
pub fn with_faults(random: &mut Random, faults: &[Fault]) -> Input {
    let has = |fault: Fault| faults.contains(&fault);
    let header = header(random, !has(Fault::Form), !has(Fault::Version));
    let mut scene = scene(random, header);
    let meeting_place = random.number();
    for fault in faults {
        let any_place = random.number();
        let place = random.weighted(&[(70, meeting_place), (30, any_place)]);
        spoil(&mut scene, random, *fault, place);
    }
    let table = table(random, &scene.rows);
    let mut count = scene.rows.len() as u64;
    if has(Fault::RowCount) {
        count = large_count(random, count, table.len() as u64);
    }
    let needed = needed_bytes(&scene.header, &scene.rows);
    Input {
        header: scene.header,
        count,
        output: output(random, needed, has(Fault::ShortOutput)),
        table,
        source: scene.source,
    }
}

/// The rows, sometimes more rows past the count, and sometimes numbers that make no whole row.
fn table(random: &mut Random, rows: &[Row]) -> Vec<u64> {
    let mut table: Vec<u64> = rows
        .iter()
        .flat_map(|row| row_numbers(random, row).to_vec())
        .collect();
    let several = 1 + random.below(3);
    for _ in 0..random.weighted(&[(60, 0), (40, several)]) {
        table.extend_from_slice(&row_past_the_count(random, rows));
    }
    let some = 1 + random.below(6);
    for _ in 0..random.weighted(&[(60, 0), (30, some), (10, 6)]) {
        table.push(strange_number(random));
    }
    table
}

/// The offset of the block header, which is not used, is any number.
fn row_numbers(random: &mut Random, row: &Row) -> [u64; NUMBERS_PER_ROW] {
    [
        row.code,
        row.address,
        row.index,
        row.count,
        strange_number(random),
        row.payload_at,
        row.payload_length,
    ]
}

/// Numbers that would be refused, or a row that would be taken.
fn row_past_the_count(random: &mut Random, rows: &[Row]) -> [u64; NUMBERS_PER_ROW] {
    if !rows.is_empty() && random.chance(40) {
        let row = random.pick(rows);
        return row_numbers(random, &row);
    }
    let mut numbers = [0; NUMBERS_PER_ROW];
    for number in numbers.iter_mut() {
        *number = strange_number(random);
    }
    numbers
}

fn strange_number(random: &mut Random) -> u64 {
    let any = random.number();
    let small = random.below(100);
    random.pick(&[0, 1, small, DNA1, 1 << 32, u64::MAX, any])
}

/// More rows than a table of so many numbers has, of which `rows` are good. A check that multiplies
/// the count instead of dividing the length takes some of these for small ones.
fn large_count(random: &mut Random, rows: u64, numbers: u64) -> u64 {
    let table_rows = numbers / NUMBERS_PER_ROW as u64;
    // Counted modulo 2^64, seven times this is no more than the numbers of the good rows.
    let wrapping = SEVENTH.wrapping_mul(7 * rows.saturating_sub(1) + 1);
    random.weighted(&[
        (50, table_rows + 1),
        (10, table_rows + 2),
        (10, (1 << 32) + rows),
        (5, (1 << 61) + rows),
        (5, (1 << 63) + rows),
        (10, wrapping),
        (10, u64::MAX),
    ])
}

/// What the output holds before: any bytes.
fn output(random: &mut Random, needed: u128, short: bool) -> Vec<u8> {
    let needed = if needed > MOST_NEEDED {
        USUALLY_NEEDED
    } else {
        needed as u64
    };
    let length = if short {
        short_length(random, needed)
    } else {
        enough_length(random, needed)
    };
    (0..length).map(|_| random.number() as u8).collect()
}

/// Edges: none, one less, all but the end mark, all but a part of it, the header alone.
fn short_length(random: &mut Random, needed: u64) -> u64 {
    let fewer = random.below(needed);
    let header = 12u64.min(needed - 1);
    random.weighted(&[
        (15, 0),
        (30, needed - 1),
        (10, needed - 4),
        (10, needed - 3),
        (5, header),
        (30, fewer),
    ])
}

fn enough_length(random: &mut Random, needed: u64) -> u64 {
    let few = needed + random.below(64);
    let many = needed + 300 + random.below(700);
    random.weighted(&[(45, needed), (20, needed + 1), (28, few), (7, many)])
}

/// The ways in which an input can fail to be of its form: cut, a mark that is none, a version above
/// 65535, or tables that are not there, some only where sums or products wrap.
pub fn malformed(random: &mut Random, input: &Input) -> Vec<u8> {
    let mut bytes = input_bytes(input);
    let start = random.below(64);
    let table = input.table.len() as u64;
    let output = input.output.len() as u64;
    let (source, any) = (input.source.len() as u64, random.number());
    let (which, value) = random.pick(&[
        (0, 2),
        (0, 1 << 32),
        (1, 0),
        (1, 16),
        (1, (1 << 32) + 8),
        (2, 2),
        (2, 1 << 63),
        (3, 65536),
        (3, any | 1 << 16),
        (4, 65536),
        (4, any | 1 << 16),
        (6, table + source / 8 + 1),
        (6, table + (1 << 61)),
        (6, u64::MAX),
        (7, output + source + 1),
        (7, (8 * table.max(1)).wrapping_neg()),
        (7, u64::MAX),
    ]);
    set_number(&mut bytes, which, value);
    match random.below(10) {
        0 => bytes.clear(),
        1 => bytes.truncate(start as usize),
        _ => {}
    }
    bytes
}

/// Sets one of the first eight numbers.
fn set_number(bytes: &mut [u8], which: usize, value: u64) {
    let place = 8 * which;
    bytes[place..place + 8].copy_from_slice(&value.to_le_bytes());
}
