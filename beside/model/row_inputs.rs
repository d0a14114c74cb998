//! The generator's rows and the address that is asked.
//!
//! A table gets few distinct addresses, most of them meeting in one bucket, so
//! that chains are long and addresses repeat with their kinds mixed.

use crate::index::code_number;
use crate::inputs::Sizes;
use crate::random::Random;

#[derive(Clone, Copy, PartialEq, Eq)]
enum Sort {
    Principal,
    Data,
    Glob,
    Rend,
    Test,
    Dna1,
    /// An unknown code below 2^32.
    Unknown,
    /// A code over 2^32 - 1.
    Over,
}

use Sort::{Data, Dna1, Glob, Over, Principal, Rend, Test, Unknown};

const SORTS: [Sort; 8] = [Principal, Data, Glob, Rend, Test, Dna1, Unknown, Over];

const DATA: u64 = code_number(b"DATA");

/// Any two bytes then two zeros, four zeros included.
const PRINCIPAL_CODES: [u64; 6] = [
    code_number(b"OB\0\0"),
    code_number(b"ME\0\0"),
    code_number(b"DA\0\0"),
    0,
    0x0001_0000,
    0xffff_0000,
];

/// Codes that are nearly a Principal or DATA, and the end mark.
const UNKNOWN_CODES: [u64; 9] = [
    code_number(b"ENDB"),
    code_number(b"ATAD"),
    code_number(b"DATB"),
    code_number(b"OB\0\x01"),
    code_number(b"OB\x01\0"),
    code_number(b"\0\0OB"),
    1,
    0x8000,
    0xffff_ffff,
];

/// Codes that would be a Principal or DATA if bits above the 32nd were dropped
/// or only the lowest bits asked.
const OVER_CODES: [u64; 8] = [
    1 << 32,
    1 << 32 | DATA,
    1 << 32 | 0x4f42_0000,
    1 << 63 | DATA,
    DATA << 32,
    0x4f42_0000_0000_0000,
    0xffff_ffff_ffff_0000,
    u64::MAX,
];

/// Duplicates with their kinds mixed: planted in rising rows with one address.
const DUPLICATES: [[Sort; 3]; 6] = [
    [Glob, Data, Principal],
    [Over, Unknown, Data],
    [Dna1, Principal, Data],
    [Rend, Test, Data],
    [Data, Glob, Data],
    [Unknown, Over, Principal],
];

#[derive(Clone, Copy)]
pub struct MadeRow {
    sort: Sort,
    code: u64,
    address: u64,
}

/// The table's rows, and one more of which the table may get only a part.
pub fn make_rows(random: &mut Random, sizes: Sizes) -> Vec<MadeRow> {
    let pool = address_pool(random, sizes.small_buckets());
    let [matching, other] = leaning(random);
    let mut rows = Vec::new();
    for _ in 0..=sizes.table_rows {
        let sort = random.weighted(&SORTS.map(|sort| match sort {
            Principal | Data => (matching, sort),
            _ => (other, sort),
        }));
        let address = random.pick(&pool);
        rows.push(made_row(random, sort, address));
    }
    if sizes.table_rows >= 3 && random.chance(40) {
        let address = random.pick(&pool);
        plant_duplicates(random, &mut rows, sizes.table_rows, address);
    }
    rows
}

/// The weights of the kinds that can be found and of those that cannot: all
/// alike; few that can, so that chains are walked far; many that can.
fn leaning(random: &mut Random) -> [u64; 2] {
    random.pick(&[[1, 1], [1, 8], [6, 1]])
}

/// One to four addresses. Most lie a whole number of bucket counts apart. Edges:
/// 0, 2^64 - 1, and one that differs from a small one only above 32 bits.
fn address_pool(random: &mut Random, buckets: u64) -> Vec<u64> {
    let base = 1 + random.below(9);
    let size = 1 + random.below(4);
    let mut pool = Vec::new();
    for _ in 0..size {
        let apart = random.below(4) * buckets;
        let small = 1 + random.below(9);
        let any = random.number();
        pool.push(random.weighted(&[
            (55, base + apart),
            (20, small),
            (8, 0),
            (7, u64::MAX - apart),
            (5, (1 << 32) + base),
            (5, any),
        ]));
    }
    pool
}

fn made_row(random: &mut Random, sort: Sort, address: u64) -> MadeRow {
    let code = match sort {
        Principal => random.pick(&PRINCIPAL_CODES),
        Data => DATA,
        Glob => code_number(b"GLOB"),
        Rend => code_number(b"REND"),
        Test => code_number(b"TEST"),
        Dna1 => code_number(b"DNA1"),
        Unknown => random.pick(&UNKNOWN_CODES),
        Over => random.pick(&OVER_CODES),
    };
    MadeRow {
        sort,
        code,
        address,
    }
}

/// Three rows in rising places, of at least three.
fn plant_duplicates(random: &mut Random, rows: &mut [MadeRow], count: u64, address: u64) {
    let first = random.below(count - 2);
    let second = first + 1 + random.below(count - 2 - first);
    let third = second + 1 + random.below(count - 1 - second);
    let sorts = random.pick(&DUPLICATES);
    for (place, sort) in [first, second, third].iter().zip(sorts) {
        rows[*place as usize] = made_row(random, sort, address);
    }
}

/// The row table: all made rows but the last, of which the first 0 to 6 numbers
/// follow, so that the length is often not a multiple of seven.
pub fn row_table(random: &mut Random, rows: &[MadeRow]) -> Vec<u64> {
    let part = 1 + random.below(6);
    let dropped = random.pick(&[7, 7 - part]);
    let mut table = Vec::new();
    for row in rows {
        table.extend_from_slice(&[row.code, row.address]);
        for _ in 2..7 {
            // Numbers that would count if a wrong one of the seven were read.
            let small = random.below(10);
            table.push(random.pick(&[row.address, row.address, DATA, small, u64::MAX]));
        }
    }
    table.truncate(table.len() - dropped as usize);
    table
}

/// Edges: 0, 2^64 - 1, the address of a row of each kind, one that no row has but
/// whose bucket has rows, one of a row past the count, one that is a row's only
/// in its low 32 bits.
pub fn asked_address(random: &mut Random, rows: &[MadeRow], sizes: Sizes) -> u64 {
    let small = 1 + random.below(9);
    // All rows that the table has whole.
    let whole = &rows[..sizes.table_rows as usize];
    if whole.is_empty() {
        return random.pick(&[0, small, rows[0].address, u64::MAX]);
    }
    let any = random.pick(whole).address;
    let past = random.pick(&rows[sizes.used_rows() as usize..]).address;
    let of_sort = address_of_a_sort(random, whole);
    let absent = absent_address(whole, any, sizes.small_buckets());
    random.weighted(&[
        (6, 0),
        (4, u64::MAX),
        (46, of_sort),
        (18, absent),
        (6, past),
        (4, any ^ (1 << 32)),
        (6, small),
        (10, any),
    ])
}

/// Each kind alike often where the table has it, else any row's.
fn address_of_a_sort(random: &mut Random, rows: &[MadeRow]) -> u64 {
    let sort = random.pick(&SORTS);
    let of_sort: Vec<MadeRow> = rows
        .iter()
        .copied()
        .filter(|row| row.sort == sort)
        .collect();
    if of_sort.is_empty() {
        random.pick(rows).address
    } else {
        random.pick(&of_sort).address
    }
}

/// The smallest address, from the bucket count on, in the same bucket as this one
/// that no row has.
fn absent_address(rows: &[MadeRow], address: u64, buckets: u64) -> u64 {
    let mut absent = address % buckets + buckets;
    while rows.iter().any(|row| row.address == absent) {
        absent += buckets;
    }
    absent
}
