//! The input of a record of kind `O`.
//!
//! Numbers of 8 bytes, little-endian: EDITION (0 Legacy, 1 New), POINTER BYTES (4 or 8), ORDER (0
//! little, 1 big), MAJOR, MINOR (each at most 65535), COUNT, T, O. Then T numbers of 8 bytes, the
//! row table; then O bytes, what the output holds before; all bytes that remain are the source.

use crate::batch::number;
use crate::fault_files::Edition;
use crate::fault_reads::Order;

pub const WRITER_KIND: u8 = b'O';

const NUMBER_BYTES: usize = 8;
const FIRST_BYTES: usize = 8 * NUMBER_BYTES;
const MOST_OF_A_VERSION: u64 = 65535;

/// The header that is to be written, which the form may have no room for.
#[derive(Clone, Copy, Debug)]
pub struct Header {
    pub edition: Edition,
    pub pointer_bytes: u64,
    pub order: Order,
    pub major: u64,
    pub minor: u64,
}

#[derive(Clone, Debug)]
pub struct Input {
    pub header: Header,
    pub count: u64,
    pub table: Vec<u64>,
    pub output: Vec<u8>,
    pub source: Vec<u8>,
}

/// `None` where the input is not of the form above.
pub fn read_input(bytes: &[u8]) -> Option<Input> {
    if bytes.len() < FIRST_BYTES {
        return None;
    }
    let (first, rest) = bytes.split_at(FIRST_BYTES);
    let first = numbers(first);
    let header = read_header(&first)?;
    // Nine times a number below 2^64 cannot overflow 128 bits.
    let table_bytes = u128::from(first[6]) * NUMBER_BYTES as u128;
    let output_bytes = u128::from(first[7]);
    if table_bytes + output_bytes > rest.len() as u128 {
        return None;
    }
    let (table, rest) = rest.split_at(table_bytes as usize);
    let (output, source) = rest.split_at(output_bytes as usize);
    Some(Input {
        header,
        count: first[5],
        table: numbers(table),
        output: output.to_vec(),
        source: source.to_vec(),
    })
}

fn read_header(first: &[u64]) -> Option<Header> {
    let edition = match first[0] {
        0 => Edition::Legacy,
        1 => Edition::New,
        _ => return None,
    };
    let pointer_bytes = first[1];
    let order = match first[2] {
        0 => Order::Little,
        1 => Order::Big,
        _ => return None,
    };
    let (major, minor) = (first[3], first[4]);
    let known = pointer_bytes == 4 || pointer_bytes == 8;
    if !known || major > MOST_OF_A_VERSION || minor > MOST_OF_A_VERSION {
        return None;
    }
    Some(Header {
        edition,
        pointer_bytes,
        order,
        major,
        minor,
    })
}

fn numbers(bytes: &[u8]) -> Vec<u64> {
    bytes.chunks_exact(NUMBER_BYTES).map(number).collect()
}

pub fn input_bytes(input: &Input) -> Vec<u8> {
    let header = &input.header;
    let first = [
        u64::from(header.edition == Edition::New),
        header.pointer_bytes,
        u64::from(header.order == Order::Big),
        header.major,
        header.minor,
        input.count,
        input.table.len() as u64,
        input.output.len() as u64,
    ];
    let numbers = first.iter().chain(&input.table);
    let mut bytes: Vec<u8> = numbers.flat_map(|number| number.to_le_bytes()).collect();
    bytes.extend_from_slice(&input.output);
    bytes.extend_from_slice(&input.source);
    bytes
}
