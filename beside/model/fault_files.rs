//! Header, blocks and their chain, written from documents 01 and 02 without the code.

use crate::fault_catalogues::{read_catalogue, Catalogue};
use crate::fault_reads::{Order, Reader, Refusal};

const COMPRESSED: Refusal = Refusal::Numbered(1);
const NULL_ADDRESS: Refusal = Refusal::Numbered(3);
const PRINCIPAL_COUNT: Refusal = Refusal::Numbered(4);
const UNKNOWN_CODE: Refusal = Refusal::Numbered(5);
const NO_CATALOGUE: Refusal = Refusal::Numbered(6);

#[derive(Clone, Copy, Debug, PartialEq)]
pub enum Edition {
    Legacy,
    New,
}

pub struct Header {
    pub edition: Edition,
    pub pointer_bytes: u64,
    pub order: Order,
    pub version: u64,
}

pub struct Block<'a> {
    pub code: &'a [u8],
    pub address: u64,
    pub index: u64,
    pub count: u64,
    pub at: usize,
    pub payload_at: usize,
    pub payload: &'a [u8],
}

pub struct File<'a> {
    pub header: Header,
    pub blocks: Vec<Block<'a>>,
    pub last_catalogue: Catalogue<'a>,
    pub end: usize,
}

pub fn read_file(bytes: &[u8]) -> Result<File<'_>, Refusal> {
    let mut reader = Reader::new(bytes, 0);
    let header = read_header(&mut reader)?;
    let mut blocks = Vec::new();
    let mut last_catalogue = None;
    while !reader.looks_at(b"ENDB") {
        let block = read_block(&mut reader, &header)?;
        last_catalogue = check_code(bytes, &block, header.order)?;
        blocks.push(block);
    }
    reader.mark(b"ENDB")?;
    Ok(File {
        header,
        blocks,
        last_catalogue: last_catalogue.ok_or(NO_CATALOGUE)?,
        end: reader.at(),
    })
}

pub fn read_header(reader: &mut Reader) -> Result<Header, Refusal> {
    reader.mark(b"BLENDER").map_err(|_| COMPRESSED)?;
    let edition = if reader.looks_at(b"_") || reader.looks_at(b"-") {
        Edition::Legacy
    } else {
        Edition::New
    };
    if edition == Edition::New {
        reader.run(2)?;
    }
    let pointer_bytes = reader.either((b"_", 4), (b"-", 8))?;
    if edition == Edition::New {
        reader.run(2)?;
    }
    let order = reader.either((b"v", Order::Little), (b"V", Order::Big))?;
    let version = match edition {
        Edition::Legacy => reader.run(3)?,
        Edition::New => reader.run(4)?,
    };
    Ok(Header {
        edition,
        pointer_bytes,
        order,
        version: version_number(version),
    })
}

/// Without any digit the version is 0: no refusal of the documents is about it.
fn version_number(bytes: &[u8]) -> u64 {
    let digits = bytes.iter().filter(|byte| byte.is_ascii_digit());
    digits.fold(0, |value, digit| 10 * value + u64::from(digit - b'0'))
}

fn read_block<'a>(reader: &mut Reader<'a>, header: &Header) -> Result<Block<'a>, Refusal> {
    let at = reader.at();
    let code = reader.run(4)?;
    let (number_bytes, order) = match header.edition {
        Edition::Legacy => (4, header.order),
        Edition::New => (8, Order::Little),
    };
    // The size in Legacy, the index in New.
    let before_address = reader.number(4, order)?;
    let address = reader.number(header.pointer_bytes, header.order)?;
    if address == 0 {
        return Err(NULL_ADDRESS);
    }
    // The index in Legacy, the size in New.
    let after_address = reader.number(number_bytes, order)?;
    let count = reader.number(number_bytes, order)?;
    let (size, index) = match header.edition {
        Edition::Legacy => (before_address, after_address),
        Edition::New => (after_address, before_address),
    };
    let payload_at = reader.at();
    let payload = reader.run(size)?;
    Ok(Block {
        code,
        address,
        index,
        count,
        at,
        payload_at,
        payload,
    })
}

/// What the code asks of a block that is there as a whole. The catalogue is a DNA1's.
fn check_code<'a>(
    file: &'a [u8],
    block: &Block,
    order: Order,
) -> Result<Option<Catalogue<'a>>, Refusal> {
    match block.code {
        b"REND" | b"TEST" | b"GLOB" | b"DATA" => Ok(None),
        b"DNA1" => {
            let payload_end = block.payload_at + block.payload.len();
            let mut reader = Reader::new(&file[..payload_end], block.payload_at);
            read_catalogue(&mut reader, order).map(Some)
        }
        [_, _, 0, 0] if block.count == 1 => Ok(None),
        [_, _, 0, 0] => Err(PRINCIPAL_COUNT),
        _ => Err(UNKNOWN_CODE),
    }
}
