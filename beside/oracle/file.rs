//! Whole files. The Rust's answer has no offsets, and no numbers of a REND, TEST or DNA1 block: those come from a second walk over the
//! file with the Rust's own `header` and `block`, which is held against the answer wherever both have something.

use crate::catalogue::counts;
use crate::parsers::again;
use crate::parsers::blend::{Block, BlockData, FileFormat, Header, RawBlend};
use crate::parsers::dna::Dna;
use crate::parsers::{Endianness, PointerSize};
use crate::refusal;
use crate::text::hash;

pub fn answer(bytes: &[u8], out: &mut String) {
    match (RawBlend::from_data(bytes), walk(bytes)) {
        (Ok(blend), Ok(walk)) if agree(&blend, &walk) && traced::file(bytes).is_ok() => accepted(&blend, &walk, out),
        (Err(error), Err(again)) if refusal::number(&error) == again => {
            line!(out, "{}", refusal::line(&error, traced::file(bytes), bytes))
        }
        _ => line!(out, "oracle-inconsistent"),
    }
}

/// A header by itself, by the Rust's `header`. What it took is what it does not hand back as the rest.
pub fn header_answer(bytes: &[u8], out: &mut String) {
    match (again::header(bytes), traced::header(bytes)) {
        (Ok((rest, header)), Ok(())) => {
            line!(out, "header {} {}", header_words_again(&header), bytes.len() - rest.len())
        }
        (Err(error), traced) => line!(out, "{}", refusal::line(&refusal::inner(error), traced, bytes)),
        _ => line!(out, "oracle-inconsistent"),
    }
}

struct Row {
    code: [u8; 4],
    address: u64,
    index: u64,
    count: u64,
    at: usize,
    payload_at: usize,
    payload: Vec<u8>,
    dna: Option<Dna>,
}

struct Walk {
    header: again::Header,
    rows: Vec<Row>,
    end: usize,
}

/// The walk, or document 01's number of what ended it.
fn walk(bytes: &[u8]) -> Result<Walk, u32> {
    let number = |error| refusal::number(&refusal::inner(error));
    let (mut rest, header) = again::header(bytes).map_err(number)?;
    let context = again::context(header.clone());
    let mut rows = Vec::new();
    while !rest.starts_with(b"ENDB") {
        let (next, block) = again::block(&context, rest).map_err(number)?;
        let taken = &rest[..rest.len() - next.len()];
        rows.push(row(&context, bytes.len() - rest.len(), taken, block));
        rest = next;
    }
    match rows.last() {
        Some(Row { dna: Some(_), .. }) => Ok(Walk { header, rows, end: bytes.len() - rest.len() + 4 }),
        _ => Err(6),
    }
}

/// The numbers of a block that the Rust took. A copy under the code GLOB is read by the same `block`: of a GLOB the Rust keeps
/// everything, and no number depends on the code.
fn row(context: &again::BlendParseContext, at: usize, taken: &[u8], block: again::Block) -> Row {
    let mut copy = taken.to_vec();
    copy[..4].copy_from_slice(b"GLOB");
    match again::block(context, &copy) {
        Ok((_, again::Block::Global { memory_address, dna_index, data })) => Row {
            code: [taken[0], taken[1], taken[2], taken[3]],
            address: memory_address.get(),
            index: dna_index as u64,
            count: data.count as u64,
            at,
            payload_at: at + taken.len() - data.data.len(),
            payload: data.data,
            dna: match block {
                again::Block::Dna(dna) => Some(dna),
                _ => None,
            },
        },
        _ => panic!("a block that was taken is no GLOB block"),
    }
}

fn agree(blend: &RawBlend, walk: &Walk) -> bool {
    let last = walk.rows.len() - 1;
    header_words(&blend.header) == header_words_again(&walk.header)
        && blend.blocks.len() == last
        && blend.blocks.iter().zip(&walk.rows).all(|(block, row)| block_agrees(block, row))
        && dna_agrees(&blend.dna, &walk.rows[last])
}

fn block_agrees(block: &Block, row: &Row) -> bool {
    match block {
        Block::Rend => row.code == *b"REND",
        Block::Test => row.code == *b"TEST",
        Block::Dna(dna) => dna_agrees(dna, row),
        Block::Global { memory_address, dna_index, data } => {
            row.code == *b"GLOB" && data_agrees(memory_address.get(), *dna_index, data, row)
        }
        Block::Subsidiary { memory_address, dna_index, data } => {
            row.code == *b"DATA" && data_agrees(memory_address.get(), *dna_index, data, row)
        }
        Block::Principal { code, memory_address, dna_index, data } => {
            row.code == [code[0], code[1], 0, 0]
                && data_agrees(memory_address.get(), *dna_index, data, row)
        }
    }
}

fn data_agrees(address: u64, index: usize, data: &BlockData, row: &Row) -> bool {
    address == row.address
        && index as u64 == row.index
        && data.count as u64 == row.count
        && data.data == row.payload
}

fn dna_agrees(dna: &Dna, row: &Row) -> bool {
    row.code == *b"DNA1" && row.dna.as_ref().map_or(false, |again| same_dna(dna, again))
}

fn same_dna(one: &Dna, other: &Dna) -> bool {
    fn parts(dna: &Dna) -> (Vec<(&str, usize)>, Vec<(usize, Vec<(usize, usize)>)>) {
        let types = dna.types.iter().map(|t| (&t.name[..], t.bytes_len)).collect();
        let fields = |s: &crate::parsers::dna::DnaStruct| {
            s.fields.iter().map(|f| (f.type_index, f.name_index)).collect()
        };
        (types, dna.structs.iter().map(|s| (s.type_index, fields(s))).collect())
    }
    one.names == other.names && parts(one) == parts(other)
}

fn accepted(blend: &RawBlend, walk: &Walk, out: &mut String) {
    let [names, types, structs, fields] = counts(&blend.dna);
    let header = header_words(&blend.header);
    let rows = walk.rows.len();
    line!(out, "file {} {} {} {} {} {} {}", header, rows, walk.end, names, types, structs, fields);
    for row in &walk.rows {
        row_line(row, out);
    }
}

fn row_line(row: &Row, out: &mut String) {
    line!(
        out,
        "row {:08x} {} {} {} {} {} {} {:016x}",
        u32::from_be_bytes(row.code),
        row.address,
        row.index,
        row.count,
        row.at,
        row.payload_at,
        row.payload.len(),
        hash(&row.payload)
    )
}

fn header_words(header: &Header) -> String {
    let edition = match header.format {
        FileFormat::Legacy => "legacy",
        FileFormat::New => "new",
    };
    words(edition, header.pointer_size, header.endianness, header.version.major, header.version.minor)
}

fn header_words_again(header: &again::Header) -> String {
    let edition = match header.format {
        again::FileFormat::Legacy => "legacy",
        again::FileFormat::New => "new",
    };
    words(edition, header.pointer_size, header.endianness, header.version.major, header.version.minor)
}

fn words(edition: &str, size: PointerSize, order: Endianness, major: u16, minor: u16) -> String {
    let order = match order {
        Endianness::Little => "little",
        Endianness::Big => "big",
    };
    format!("{} {} {} {} {}", edition, size.bytes_num() * 8, order, major, minor)
}
