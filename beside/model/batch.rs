//! Reading and writing of records and of the numbers inside a record.
//!
//! A record is a byte for the kind, the input's length in 4 bytes
//! (little-endian) and the input. The input of kind `I` is numbers of 8 bytes,
//! little-endian: ROWS, BUCKETS, ADDRESS, T, H, L, then T + H + L numbers.

use std::io::{self, Read, Write};

pub const INDEX_KIND: u8 = b'I';

const FIRST_NUMBERS: usize = 6;
const NUMBER_BYTES: usize = 8;

pub struct Record {
    pub kind: u8,
    pub input: Vec<u8>,
}

/// What the input of a record of kind `I` says. T, H and L are the lengths of
/// the three tables.
#[derive(Clone)]
pub struct Input {
    pub rows: u64,
    pub buckets: u64,
    pub address: u64,
    pub table: Vec<u64>,
    pub heads: Vec<u64>,
    pub links: Vec<u64>,
}

/// The next record, or `None` where the batch ends between two records. A
/// batch that ends inside a record is an error.
pub fn read_record(source: &mut impl Read) -> io::Result<Option<Record>> {
    let mut kind = Vec::new();
    source.by_ref().take(1).read_to_end(&mut kind)?;
    if kind.is_empty() {
        return Ok(None);
    }
    let mut length = [0; 4];
    source.read_exact(&mut length)?;
    let length = u64::from(u32::from_le_bytes(length));
    // Read piece by piece, so that a false length does not decide how much
    // memory is taken.
    let mut input = Vec::new();
    source.by_ref().take(length).read_to_end(&mut input)?;
    if input.len() as u64 != length {
        return Err(io::ErrorKind::UnexpectedEof.into());
    }
    Ok(Some(Record {
        kind: kind[0],
        input,
    }))
}

/// The inputs written here are the generator's, far shorter than 2^32 bytes.
pub fn write_record(target: &mut impl Write, record: &Record) -> io::Result<()> {
    let length = record.input.len() as u32;
    target.write_all(&[record.kind])?;
    target.write_all(&length.to_le_bytes())?;
    target.write_all(&record.input)
}

/// `None` where the input's length is not the one its own numbers ask for.
pub fn read_input(bytes: &[u8]) -> Option<Input> {
    if bytes.len() % NUMBER_BYTES != 0 {
        return None;
    }
    let numbers: Vec<u64> = bytes.chunks_exact(NUMBER_BYTES).map(number).collect();
    if numbers.len() < FIRST_NUMBERS {
        return None;
    }
    let (first, tables) = numbers.split_at(FIRST_NUMBERS);
    let (t, h, l) = (first[3], first[4], first[5]);
    // Three numbers below 2^64 cannot overflow 128 bits.
    if u128::from(t) + u128::from(h) + u128::from(l) != tables.len() as u128 {
        return None;
    }
    let (table, heads_and_links) = tables.split_at(t as usize);
    let (heads, links) = heads_and_links.split_at(h as usize);
    Some(Input {
        rows: first[0],
        buckets: first[1],
        address: first[2],
        table: table.to_vec(),
        heads: heads.to_vec(),
        links: links.to_vec(),
    })
}

pub fn input_bytes(input: &Input) -> Vec<u8> {
    let first = [
        input.rows,
        input.buckets,
        input.address,
        input.table.len() as u64,
        input.heads.len() as u64,
        input.links.len() as u64,
    ];
    let numbers = first
        .iter()
        .chain(&input.table)
        .chain(&input.heads)
        .chain(&input.links);
    numbers.flat_map(|number| number.to_le_bytes()).collect()
}

/// The number of at most 8 bytes, little-endian.
pub fn number(bytes: &[u8]) -> u64 {
    bytes
        .iter()
        .rev()
        .fold(0, |value, byte| value << 8 | u64::from(*byte))
}
