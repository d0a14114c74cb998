//! The model of the writer, from request 5 of document 02 and the rules of document 01.
//!
//! Quoted words are those of the request or of document 01. Nothing here is made to be fast: the
//! whole file is put together first and then laid over the output.

use crate::fault_catalogues::read_catalogue;
use crate::fault_files::Edition;
use crate::fault_reads::{self, Order, Reader};
use crate::index::{kind, table_rows, Kind};
use crate::writer_bytes::{file_bytes, END_MARK};
use crate::writer_records::{read_input, Header, Input};

pub const NUMBERS_PER_ROW: usize = 7;
/// "what 4 bytes do not hold" is above this.
pub const MOST_IN_4_BYTES: u64 = 0xffff_ffff;

/// A refusal's number, with the number it carries.
#[derive(Clone, Copy, Debug, PartialEq)]
pub struct Refusal {
    pub number: u32,
    pub carried: Option<u64>,
}

/// What is used of a row: "the offset of the block header is not".
#[derive(Clone, Copy, Debug, PartialEq)]
pub struct Row {
    pub code: u64,
    pub address: u64,
    pub index: u64,
    pub count: u64,
    pub payload_at: u64,
    pub payload_length: u64,
}

/// The answer's two lines, each with its newline; `None` for an input that is not of its form.
pub fn lines(input: &[u8]) -> Option<String> {
    let input = read_input(input)?;
    let mut output = input.output.clone();
    let first = match write(&input) {
        Ok(file) => {
            output[..file.len()].copy_from_slice(&file);
            format!("written {}", file.len())
        }
        Err(refusal) => refusal_text(refusal),
    };
    Some(format!("{}\noutput {}\n", first, hex(&output)))
}

fn refusal_text(refusal: Refusal) -> String {
    match refusal.carried {
        Some(carried) => format!("refused {} {}", refusal.number, carried),
        None => format!("refused {}", refusal.number),
    }
}

fn hex(bytes: &[u8]) -> String {
    bytes.iter().map(|byte| format!("{:02x}", byte)).collect()
}

/// The file, all of which the output has room for. The order of the refusals is over all rows:
/// each question is asked of every row before the next question is asked of any.
pub fn write(input: &Input) -> Result<Vec<u8>, Refusal> {
    let header = &input.header;
    let rows = counted_rows(&input.table, input.count)?;
    for row in &rows {
        check_row(row, &input.source, header.order)?;
    }
    check_last(&rows)?;
    check_room(header, &rows)?;
    check_length(needed_bytes(header, &rows), input.output.len())?;
    Ok(file_bytes(header, &rows, &input.source))
}

fn plain(number: u32) -> Refusal {
    let carried = None;
    Refusal { number, carried }
}

fn carrying(number: u32, carried: u64) -> Refusal {
    let carried = Some(carried);
    Refusal { number, carried }
}

/// "13: the row table has fewer rows than the count." "Rows past the count are not looked at."
fn counted_rows(table: &[u64], count: u64) -> Result<Vec<Row>, Refusal> {
    if table_rows(table) < count {
        return Err(plain(13));
    }
    let rows = table.chunks_exact(NUMBERS_PER_ROW).take(count as usize);
    Ok(rows.map(row).collect())
}

/// "code, address, index, count, offset of the block header, offset of the payload, length of the
/// payload"
fn row(numbers: &[u64]) -> Row {
    Row {
        code: numbers[0],
        address: numbers[1],
        index: numbers[2],
        count: numbers[3],
        payload_at: numbers[5],
        payload_length: numbers[6],
    }
}

/// "address 0 is 3; a payload outside the source is 13; then the code"
fn check_row(row: &Row, source: &[u8], order: Order) -> Result<(), Refusal> {
    if row.address == 0 {
        return Err(plain(3));
    }
    let payload = payload(row, source).ok_or(plain(13))?;
    match kind(row.code) {
        Kind::Rend | Kind::Test | Kind::Glob | Kind::Data => Ok(()),
        Kind::Principal if row.count == 1 => Ok(()),
        Kind::Principal => Err(plain(4)),
        Kind::Dna1 => check_catalogue(payload, order),
        // ENDB is here too: it is none of the block codes.
        Kind::Unknown => Err(plain(5)),
    }
}

/// "A payload is in the source where its offset plus its length is at most the source's length,
/// also for a length of 0."
pub fn payload<'a>(row: &Row, source: &'a [u8]) -> Option<&'a [u8]> {
    let end = u128::from(row.payload_at) + u128::from(row.payload_length);
    if end > source.len() as u128 {
        return None;
    }
    Some(&source[row.payload_at as usize..end as usize])
}

/// "16 or 17, counted from the payload's start"
fn check_catalogue(payload: &[u8], order: Order) -> Result<(), Refusal> {
    let read = read_catalogue(&mut Reader::new(payload, 0), order);
    read.map(|_| ()).map_err(|refusal| match refusal {
        fault_reads::Refusal::Numbered(number) => plain(number),
        fault_reads::Refusal::Cut(at) => carrying(16, at as u64),
        fault_reads::Refusal::Mark(at) => carrying(17, at as u64),
    })
}

/// "6: no rows, or the last is no DNA1."
fn check_last(rows: &[Row]) -> Result<(), Refusal> {
    match rows.last() {
        Some(row) if kind(row.code) == Kind::Dna1 => Ok(()),
        _ => Err(plain(6)),
    }
}

/// "19 [...] carrying one number, the first row it is in, the header counting as the row count and
/// looked at first"
pub fn check_room(header: &Header, rows: &[Row]) -> Result<(), Refusal> {
    if !header_has_room(header) {
        return Err(carrying(19, rows.len() as u64));
    }
    match rows.iter().position(|row| !row_has_room(header, row)) {
        Some(number) => Err(carrying(19, number as u64)),
        None => Ok(()),
    }
}

/// "the version (minor to 99, major to 9 in Legacy, to 99 in New), in New a pointer size or byte
/// order other than 64-bit little-endian"
fn header_has_room(header: &Header) -> bool {
    let most_major = match header.edition {
        Edition::Legacy => 9,
        Edition::New => 99,
    };
    let version = header.minor <= 99 && header.major <= most_major;
    let marks = header.pointer_bytes == 8 && header.order == Order::Little;
    version && (header.edition == Edition::Legacy || marks)
}

/// "what 4 bytes do not hold of size, address at 32 bits, index and count in Legacy; of index in
/// New"
fn row_has_room(header: &Header, row: &Row) -> bool {
    let fits = |number: u64| number <= MOST_IN_4_BYTES;
    match header.edition {
        Edition::Legacy => {
            let address = header.pointer_bytes == 8 || fits(row.address);
            fits(row.payload_length) && address && fits(row.index) && fits(row.count)
        }
        Edition::New => fits(row.index),
    }
}

/// A whole number of any size: fewer than 2^64 rows cannot overflow 128 bits.
pub fn needed_bytes(header: &Header, rows: &[Row]) -> u128 {
    let header_bytes = match header.edition {
        Edition::Legacy => 12,
        Edition::New => 17,
    };
    let block = |row: &Row| block_header_length(header) + u128::from(row.payload_length);
    let blocks: u128 = rows.iter().map(block).sum();
    header_bytes + blocks + END_MARK.len() as u128
}

/// "Block headers are 20, 24, 28 or 32 bytes by edition and pointer size."
fn block_header_length(header: &Header) -> u128 {
    match (header.edition, header.pointer_bytes) {
        (Edition::Legacy, 4) => 20,
        (Edition::Legacy, _) => 24,
        (Edition::New, 4) => 28,
        (Edition::New, _) => 32,
    }
}

/// "10: a length needed above 2^64-1"; "18: the output is too short, carrying the bytes needed,
/// all of them and not what is missing."
pub fn check_length(needed: u128, output_bytes: usize) -> Result<(), Refusal> {
    if needed > u128::from(u64::MAX) {
        return Err(plain(10));
    }
    if (output_bytes as u128) < needed {
        return Err(carrying(18, needed as u64));
    }
    Ok(())
}
