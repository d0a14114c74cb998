//! The generator's heads and links, as they come in.
//!
//! Edges: random small numbers, chains that rise but hop between buckets, a
//! correct index, a correct index with one number changed, huge numbers; each
//! table of the needed length, one shorter, one longer, empty.

use crate::index::{address, build};
use crate::inputs::{Sizes, MOST_NUMBERS};
use crate::random::Random;

/// One number of the two tables: the head of a bucket or the link of a row.
#[derive(Clone, Copy)]
enum Slot {
    Head(u64),
    Link(u64),
}

/// An index for the rows that are there, before its tables get their lengths.
struct Index {
    rows: u64,
    buckets: u64,
    heads: Vec<u64>,
    links: Vec<u64>,
}

pub fn heads_and_links(
    random: &mut Random,
    sizes: Sizes,
    table: &[u64],
    asked: u64,
) -> (Vec<u64>, Vec<u64>) {
    let mut index = correct(table, sizes);
    match random.below(100) {
        0..=14 => fill(random, &mut index, small),
        15..=24 => rising(random, &mut index),
        25..=44 => (),
        45..=89 => change_one(random, &mut index, table, asked),
        90..=94 => fill(random, &mut index, huge),
        _ => fill(random, &mut index, small_or_huge),
    }
    let heads_length = length(random, sizes.buckets);
    let links_length = length(random, sizes.rows);
    fit(random, &mut index.heads, heads_length, index.rows);
    fit(random, &mut index.links, links_length, index.rows);
    (index.heads, index.links)
}

/// Edges: as long as needed, one longer, one shorter, empty. Where more is needed
/// than a table may have, any length.
fn length(random: &mut Random, needed: u64) -> u64 {
    let any = random.below(MOST_NUMBERS + 1);
    if needed >= MOST_NUMBERS {
        return any;
    }
    let shorter = needed.saturating_sub(1);
    random.weighted(&[
        (70, needed),
        (12, needed + 1),
        (8, shorter),
        (3, 0),
        (7, any),
    ])
}

/// Cuts the table, or lengthens it with numbers that nobody may read or write.
fn fit(random: &mut Random, numbers: &mut Vec<u64>, length: u64, rows: u64) {
    numbers.truncate(length as usize);
    while (numbers.len() as u64) < length {
        numbers.push(small_or_huge(random, rows));
    }
}

fn correct(table: &[u64], sizes: Sizes) -> Index {
    let (rows, buckets) = (sizes.used_rows(), sizes.small_buckets());
    let mut heads = vec![0; buckets as usize];
    let mut links = vec![0; rows as usize];
    // Cannot be refused: the rows are there and the tables long enough.
    let _ = build(table, rows, buckets, &mut heads, &mut links);
    Index {
        rows,
        buckets,
        heads,
        links,
    }
}

fn fill(random: &mut Random, index: &mut Index, number: fn(&mut Random, u64) -> u64) {
    for place in index.heads.iter_mut().chain(&mut index.links) {
        *place = number(random, index.rows);
    }
}

/// From 0 up to two past the last row's number.
fn small(random: &mut Random, rows: u64) -> u64 {
    random.below(rows + 3)
}

/// Numbers that a wrapping addition or a cut to 32 bits would make small.
fn huge(random: &mut Random, rows: u64) -> u64 {
    let near = small(random, rows);
    random.pick(&[
        u64::MAX,
        u64::MAX - near,
        (1 << 63) + near,
        (1 << 32) + near,
    ])
}

fn small_or_huge(random: &mut Random, rows: u64) -> u64 {
    if random.chance(70) {
        small(random, rows)
    } else {
        huge(random, rows)
    }
}

/// Chains that rise by one or two rows whatever the bucket; most end at the last
/// rows, some leave them.
fn rising(random: &mut Random, index: &mut Index) {
    for head in &mut index.heads {
        *head = random.below(4).min(index.rows + 1);
    }
    for (row, link) in index.links.iter_mut().enumerate() {
        let next = row as u64 + 2 + random.below(2);
        let ends = random.chance(if next > index.rows { 75 } else { 5 });
        *link = if ends { 0 } else { next };
    }
}

/// Changes one number, most often on the chain of the address asked.
fn change_one(random: &mut Random, index: &mut Index, table: &[u64], asked: u64) {
    let slots = if random.chance(80) {
        slots_of_chain(index, asked % index.buckets)
    } else {
        all_slots(index)
    };
    let slot = random.pick(&slots);
    let number = changed_number(random, index, table, slot);
    match slot {
        Slot::Head(bucket) => index.heads[bucket as usize] = number,
        Slot::Link(row) => index.links[row as usize] = number,
    }
}

fn all_slots(index: &Index) -> Vec<Slot> {
    let heads = (0..index.buckets).map(Slot::Head);
    heads.chain((0..index.rows).map(Slot::Link)).collect()
}

/// The index is still correct here, so its chains end.
fn slots_of_chain(index: &Index, bucket: u64) -> Vec<Slot> {
    let mut slots = vec![Slot::Head(bucket)];
    let mut number = index.heads[bucket as usize];
    while number != 0 {
        slots.push(Slot::Link(number - 1));
        number = index.links[number as usize - 1];
    }
    slots
}

/// Edges: the chain stays on its row, falls back, jumps past the rows by one or
/// more, jumps to a row of another bucket, ends early, leaves out a row.
fn changed_number(random: &mut Random, index: &Index, table: &[u64], slot: Slot) -> u64 {
    let (own, now) = match slot {
        // Before a head there is no row, so it can neither stay nor fall back.
        Slot::Head(bucket) => (0, index.heads[bucket as usize]),
        Slot::Link(row) => (row + 1, index.links[row as usize]),
    };
    let back = own.saturating_sub(1).min(1 + random.below(own));
    let other = later_row_of_another_bucket(random, index, table, slot);
    let leaves_out = if now == 0 {
        0
    } else {
        index.links[now as usize - 1]
    };
    let huge = huge(random, index.rows);
    random.weighted(&[
        (3, own),
        (3, back),
        (3, index.rows + 1),
        (1, index.rows + 2),
        (4, other),
        (3, 0),
        (2, leaves_out),
        (2, huge),
    ])
}

/// That row's number plus 1, or one past the rows where there is no such row.
fn later_row_of_another_bucket(
    random: &mut Random,
    index: &Index,
    table: &[u64],
    slot: Slot,
) -> u64 {
    let (bucket, first) = match slot {
        Slot::Head(bucket) => (bucket, 0),
        Slot::Link(row) => (address(table, row) % index.buckets, row + 1),
    };
    let later: Vec<u64> = (first..index.rows)
        .filter(|row| address(table, *row) % index.buckets != bucket)
        .collect();
    if later.is_empty() {
        index.rows + 1
    } else {
        random.pick(&later) + 1
    }
}
