//! Scenes that can be written: rows, and a source their payloads lie in.
//!
//! Payloads are taken from the source in any order; rows share them, have parts of them, and have
//! the bytes of a catalogue without being DNA1.

use crate::fault_files::Edition;
use crate::fault_reads::Order;
use crate::fault_samples::{any_bytes, catalogue, letters};
use crate::index::code_number;
use crate::random::Random;
use crate::writer::{Row, MOST_IN_4_BYTES};
use crate::writer_records::Header;

pub const DNA1: u64 = code_number(b"DNA1");
pub const TAKEN_CODES: [u64; 4] = [
    code_number(b"REND"),
    code_number(b"TEST"),
    code_number(b"GLOB"),
    code_number(b"DATA"),
];
pub const PRINCIPAL_CODES: [u64; 7] = [
    code_number(b"OB\0\0"),
    code_number(b"ME\0\0"),
    code_number(b"EN\0\0"),
    code_number(b"DN\0\0"),
    0,
    0x0001_0000,
    0xffff_0000,
];

const NARROW_NUMBERS: [u64; 8] = [
    0,
    1,
    2,
    16,
    0x0102_0304,
    1 << 31,
    MOST_IN_4_BYTES - 1,
    MOST_IN_4_BYTES,
];
/// The first has its low half 0: at 32 bits it would be address 0.
const WIDE_NUMBERS: [u64; 6] = [
    1 << 32,
    (1 << 32) + 1,
    0x0102_0304_0506_0708,
    1 << 63,
    u64::MAX - 1,
    u64::MAX,
];

#[derive(Clone, Copy)]
struct Span {
    at: u64,
    length: u64,
}

/// The source with the places of what lies in it. `catalogues` are those that read, and never
/// empty; `spans` has them too.
struct Pieces {
    bytes: Vec<u8>,
    catalogues: Vec<Span>,
    spans: Vec<Span>,
}

pub struct Scene {
    pub header: Header,
    pub rows: Vec<Row>,
    pub source: Vec<u8>,
}

/// A scene that is written if the header's form has room for it.
pub fn scene(random: &mut Random, header: Header) -> Scene {
    let pieces = pieces(random, header.order);
    let few = random.below(4);
    let many = random.below(10);
    let before = random.weighted(&[(8, 0), (70, few), (22, many)]);
    let mut rows = Vec::new();
    for _ in 0..before {
        let row = if random.chance(15) {
            catalogue_row(random, &header, &pieces)
        } else {
            other_row(random, &header, &pieces)
        };
        rows.push(row);
    }
    rows.push(catalogue_row(random, &header, &pieces));
    Scene {
        header,
        rows,
        source: pieces.bytes,
    }
}

fn pieces(random: &mut Random, order: Order) -> Pieces {
    let mut contents = Vec::new();
    for _ in 0..random.weighted(&[(70, 1), (25, 2), (5, 3)]) {
        let large = random.chance(1);
        contents.push((true, catalogue(random, order, large).bytes));
    }
    for _ in 0..random.below(5) {
        contents.push((false, payload_bytes(random)));
    }
    shuffle(random, &mut contents);
    let mut pieces = Pieces {
        bytes: gap(random),
        catalogues: Vec::new(),
        spans: Vec::new(),
    };
    for (is_catalogue, content) in contents {
        let span = Span {
            at: pieces.bytes.len() as u64,
            length: content.len() as u64,
        };
        pieces.bytes.extend(content);
        pieces.bytes.extend(gap(random));
        pieces.spans.push(span);
        if is_catalogue {
            pieces.catalogues.push(span);
        }
    }
    pieces
}

/// Bytes between payloads, most often none.
fn gap(random: &mut Random) -> Vec<u8> {
    let any = 1 + random.below(9);
    let length = random.weighted(&[(70, 0), (30, any)]);
    any_bytes(random, length)
}

fn payload_bytes(random: &mut Random) -> Vec<u8> {
    let length = random.below(24);
    match random.below(6) {
        0 => Vec::new(),
        1 => [b"ENDB", letters(random, length).as_slice()].concat(),
        2 => [b"DNA1", any_bytes(random, length).as_slice()].concat(),
        _ => any_bytes(random, length),
    }
}

fn shuffle<T>(random: &mut Random, list: &mut [T]) {
    for last in (1..list.len()).rev() {
        list.swap(random.below(last as u64 + 1) as usize, last);
    }
}

/// Bytes after the last struct are ignored, so the payload may go on after the catalogue.
fn catalogue_row(random: &mut Random, header: &Header, pieces: &Pieces) -> Row {
    let span = random.pick(&pieces.catalogues);
    let after = pieces.bytes.len() as u64 - span.at - span.length;
    let more = random.below(after + 1);
    let more = random.weighted(&[(80, 0), (15, more), (5, after)]);
    let longer = Span {
        at: span.at,
        length: span.length + more,
    };
    row(random, header, longer)
}

fn other_row(random: &mut Random, header: &Header, pieces: &Pieces) -> Row {
    let span = other_span(random, pieces);
    let mut row = row(random, header, span);
    if random.chance(50) {
        row.code = random.pick(&TAKEN_CODES);
    } else {
        row.code = random.pick(&PRINCIPAL_CODES);
        row.count = 1;
    }
    row
}

/// A piece, or an empty part anywhere, at the very end as well, or any part, or all.
fn other_span(random: &mut Random, pieces: &Pieces) -> Span {
    let all = pieces.bytes.len() as u64;
    let piece = random.pick(&pieces.spans);
    let at = random.below(all + 1);
    let length = random.below(all - at + 1);
    random.weighted(&[
        (62, piece),
        (10, Span { at, length: 0 }),
        (10, Span { at: all, length: 0 }),
        (15, Span { at, length }),
        (3, Span { at: 0, length: all }),
    ])
}

/// A DNA1 row with numbers that the header's form has room for, if the form can be written.
fn row(random: &mut Random, header: &Header, span: Span) -> Row {
    let count_bytes = match header.edition {
        Edition::Legacy => 4,
        Edition::New => 8,
    };
    Row {
        code: DNA1,
        address: number(random, header.pointer_bytes).max(1),
        index: number(random, 4),
        count: number(random, count_bytes),
        payload_at: span.at,
        payload_length: span.length,
    }
}

/// A number that so many bytes, 4 or 8, have room for.
fn number(random: &mut Random, bytes: u64) -> u64 {
    let any = random.number();
    let narrow = random.pick(&NARROW_NUMBERS);
    let wide = random.pick(&WIDE_NUMBERS);
    if bytes == 8 && random.chance(50) {
        random.pick(&[wide, any])
    } else {
        random.pick(&[narrow, any & MOST_IN_4_BYTES])
    }
}
