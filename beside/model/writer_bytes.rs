//! The bytes of a file that can be written, from request 5 of document 02 and the rules of
//! document 01. Quoted words are theirs.

use crate::fault_files::Edition;
use crate::fault_reads::Order;
use crate::writer::{payload, Row};
use crate::writer_records::Header;

pub const END_MARK: &[u8; 4] = b"ENDB";

/// "the header, for each row its block header and its payload, the 4-byte end mark"
pub fn file_bytes(header: &Header, rows: &[Row], source: &[u8]) -> Vec<u8> {
    let mut file = header_bytes(header);
    for row in rows {
        file.extend(block_header_bytes(header, row));
        file.extend_from_slice(payload(row, source).expect("a payload that was there before"));
    }
    file.extend_from_slice(END_MARK);
    file
}

/// "Legacy in both pointer sizes and byte orders, three version digits. New with "17", "01", 64-bit
/// little-endian, four digits." Read again, "major is the value divided by 100, minor the
/// remainder".
fn header_bytes(header: &Header) -> Vec<u8> {
    let version = 100 * header.major + header.minor;
    let pointer_mark = if header.pointer_bytes == 4 { '_' } else { '-' };
    let order_mark = match header.order {
        Order::Little => 'v',
        Order::Big => 'V',
    };
    let text = match header.edition {
        Edition::Legacy => format!("BLENDER{}{}{:03}", pointer_mark, order_mark, version),
        Edition::New => format!("BLENDER17{}01{}{:04}", pointer_mark, order_mark, version),
    };
    text.into_bytes()
}

/// "Legacy: code 4, size u32, address (4 or 8 by pointer mark), index u32, count u32; numbers in
/// the file's order." "New: code 4, index u32, address, size u64, count u64." The code's first byte
/// is the most significant in both orders.
fn block_header_bytes(header: &Header, row: &Row) -> Vec<u8> {
    let number = |value: u64, length: u64| number_bytes(value, length, header.order);
    let code = number_bytes(row.code, 4, Order::Big);
    let address = number(row.address, header.pointer_bytes);
    match header.edition {
        Edition::Legacy => [
            code,
            number(row.payload_length, 4),
            address,
            number(row.index, 4),
            number(row.count, 4),
        ],
        Edition::New => [
            code,
            number(row.index, 4),
            address,
            number(row.payload_length, 8),
            number(row.count, 8),
        ],
    }
    .concat()
}

/// A number that has room in so many bytes.
fn number_bytes(number: u64, length: u64, order: Order) -> Vec<u8> {
    let mut bytes = number.to_le_bytes()[..length as usize].to_vec();
    if order == Order::Big {
        bytes.reverse();
    }
    bytes
}
