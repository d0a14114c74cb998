//! The generator: one record from a stream of random numbers.
//!
//! This file chooses the sizes and makes the few malformed records; the rows and
//! the address asked are in row_inputs.rs, the heads and links in
//! table_inputs.rs. Each edge gets its own share in a table of (weight, choice).

use crate::batch::{input_bytes, Input, Record, INDEX_KIND};
use crate::random::Random;
use crate::row_inputs::{asked_address, make_rows, row_table};
use crate::table_inputs::heads_and_links;

const MOST_ROWS: u64 = 24;
pub const MOST_NUMBERS: u64 = 40;
/// Times seven this is 1, counted modulo 2^64: a check that multiplies the row
/// count instead of dividing the table's length takes it for a small one.
const SEVENTH: u64 = 7_905_747_460_161_236_407;

#[derive(Clone, Copy)]
pub struct Sizes {
    /// The rows that the table has.
    pub table_rows: u64,
    /// ROWS and BUCKETS as the record gives them: any numbers.
    pub rows: u64,
    pub buckets: u64,
}

impl Sizes {
    /// The rows that are both counted and there.
    pub fn used_rows(&self) -> u64 {
        self.rows.min(self.table_rows)
    }

    /// The bucket count, or a small one in its place where it is 0 or huge, so
    /// that addresses can be made to meet in a bucket.
    pub fn small_buckets(&self) -> u64 {
        if self.buckets == 0 || self.buckets > MOST_NUMBERS {
            3
        } else {
            self.buckets
        }
    }
}

/// About one record in 300 is malformed on purpose.
pub fn record(random: &mut Random) -> Record {
    let malform = random.below(300) == 0;
    let input = well_formed(random);
    let input = if malform {
        malformed(random, &input)
    } else {
        input_bytes(&input)
    };
    Record {
        kind: INDEX_KIND,
        input,
    }
}

pub fn well_formed(random: &mut Random) -> Input {
    let sizes = sizes(random);
    let rows = make_rows(random, sizes);
    let address = asked_address(random, &rows, sizes);
    let table = row_table(random, &rows);
    let (heads, links) = heads_and_links(random, sizes, &table, address);
    Input {
        rows: sizes.rows,
        buckets: sizes.buckets,
        address,
        table,
        heads,
        links,
    }
}

fn sizes(random: &mut Random) -> Sizes {
    let few = 1 + random.below(8);
    let many = 1 + random.below(MOST_ROWS);
    let table_rows = random.weighted(&[(5, 0), (5, 1), (40, few), (45, many), (5, MOST_ROWS)]);
    let rows = row_count(random, table_rows);
    let buckets = bucket_count(random, rows.min(table_rows));
    Sizes {
        table_rows,
        rows,
        buckets,
    }
}

/// Edges: the table's rows, one less, one more, 0, huge.
fn row_count(random: &mut Random, table_rows: u64) -> u64 {
    let fewer = random.below(table_rows + 1);
    random.weighted(&[
        (60, table_rows),
        (12, table_rows.saturating_sub(1)),
        (6, table_rows + 1),
        (6, 0),
        (10, fewer),
        (2, u64::MAX),
        (1, 1 << 63),
        // Taken for the table's rows where only 32 bits are kept.
        (1, (1 << 32) + table_rows),
        // Taken for a small count where its product with seven wraps.
        (2, SEVENTH.wrapping_mul(table_rows)),
    ])
}

/// Edges: 0, 1, 2, 7, the rows, rows + 1, larger than the rows, huge. Few
/// buckets are the most frequent, so that chains are long.
fn bucket_count(random: &mut Random, rows: u64) -> u64 {
    let larger = rows + 2 + random.below(8);
    random.weighted(&[
        (20, 1),
        (18, 2),
        (12, 3),
        (6, 5),
        (10, 7),
        (8, rows),
        (8, rows + 1),
        (6, larger),
        (4, 0),
        (2, u64::MAX),
        (1, 1 << 63),
        (1, (1 << 32) + 1),
    ])
}

/// The ways in which an input can fail to have the length that its numbers ask
/// for: cut, too long, or a table length that is false by one or only right
/// where sums or products wrap.
pub fn malformed(random: &mut Random, input: &Input) -> Vec<u8> {
    let mut bytes = input_bytes(input);
    let whole = bytes.len() as u64;
    let cut = 1 + random.below(7);
    let start = random.below(48);
    let which = 3 + random.below(3);
    match random.below(10) {
        0 => bytes.clear(),
        1 => bytes.truncate(start as usize),
        2 => bytes.truncate((whole - cut) as usize),
        3 => bytes.truncate((whole - 8) as usize),
        4 => bytes.push(0),
        5 => bytes.extend_from_slice(&[0; 8]),
        6 => add_to_number(&mut bytes, which, 1),
        7 => add_to_number(&mut bytes, which, u64::MAX),
        8 => add_to_number(&mut bytes, which, 1 << 61),
        _ => {
            add_to_number(&mut bytes, 3, 1 << 63);
            add_to_number(&mut bytes, 4, 1 << 63);
        }
    }
    bytes
}

/// Adds to one of the first six numbers, modulo 2^64.
fn add_to_number(bytes: &mut [u8], which: u64, addend: u64) {
    let place = which as usize * 8;
    let mut number = [0; 8];
    number.copy_from_slice(&bytes[place..place + 8]);
    let changed = u64::from_le_bytes(number).wrapping_add(addend);
    bytes[place..place + 8].copy_from_slice(&changed.to_le_bytes());
}
