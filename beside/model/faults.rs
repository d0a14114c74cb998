//! Answers of kinds F, H, C, c and f, written from documents 01 and 02 without the code.
//!
//! Of document 02 only request 3 is applied, on top of document 01.

use crate::fault_catalogues::{read_catalogue, Catalogue};
use crate::fault_files::{read_file, read_header, Block, Edition, Header};
use crate::fault_reads::{Order, Reader, Refusal};
use std::fmt::{self, Write};

/// The answer's lines, each with its newline, without the line `.`; `None` for another kind.
pub fn lines(kind: u8, input: &[u8]) -> Option<String> {
    let lines = match kind {
        b'F' => file_lines(input),
        b'H' => header_lines(input),
        b'C' => catalogue_lines(input, Order::Little),
        b'c' => catalogue_lines(input, Order::Big),
        b'f' => function_pointer_lines(input),
        _ => return None,
    };
    Some(lines.unwrap_or_else(|refusal| match refusal {
        Refusal::Numbered(number) => format!("refused {}\n", number),
        Refusal::Cut(at) => format!("refused 16 {}\n", at),
        Refusal::Mark(at) => format!("refused 17 {}\n", at),
    }))
}

fn file_lines(input: &[u8]) -> Result<String, Refusal> {
    let file = read_file(input)?;
    let (header, counts) = (
        header_words(&file.header),
        count_words(&file.last_catalogue),
    );
    let mut text = format!(
        "file {} {} {} {}\n",
        header,
        file.blocks.len(),
        file.end,
        counts
    );
    for block in &file.blocks {
        add_row(&mut text, block);
    }
    Ok(text)
}

fn add_row(text: &mut String, block: &Block) {
    add(text, format_args!("row {} ", Hex(block.code)));
    let (address, index, count) = (block.address, block.index, block.count);
    add(text, format_args!("{} {} {} ", address, index, count));
    let (at, payload_at, length) = (block.at, block.payload_at, block.payload.len());
    add(text, format_args!("{} {} {} ", at, payload_at, length));
    add(text, format_args!("{:016x}\n", fnv_1a(block.payload)));
}

fn header_lines(input: &[u8]) -> Result<String, Refusal> {
    let mut reader = Reader::new(input, 0);
    let header = read_header(&mut reader)?;
    Ok(format!(
        "header {} {}\n",
        header_words(&header),
        reader.at()
    ))
}

fn header_words(header: &Header) -> String {
    let edition = match header.edition {
        Edition::Legacy => "legacy",
        Edition::New => "new",
    };
    let order = match header.order {
        Order::Little => "little",
        Order::Big => "big",
    };
    let bits = 8 * header.pointer_bytes;
    let (major, minor) = (header.version / 100, header.version % 100);
    format!("{} {} {} {} {}", edition, bits, order, major, minor)
}

fn catalogue_lines(input: &[u8], order: Order) -> Result<String, Refusal> {
    let mut reader = Reader::new(input, 0);
    let catalogue = read_catalogue(&mut reader, order)?;
    let mut text = format!("dna {} {}\n", count_words(&catalogue), reader.at());
    for name in &catalogue.names {
        add(&mut text, format_args!("name {}\n", Counted(name)));
    }
    for row in &catalogue.types {
        add(
            &mut text,
            format_args!("type {} {}\n", row.size, Counted(row.name)),
        );
    }
    for row in &catalogue.structs {
        let (first, count) = (row.first_field, row.field_count);
        add(
            &mut text,
            format_args!("struct {} {} {}\n", row.type_number, first, count),
        );
    }
    for row in &catalogue.fields {
        add(
            &mut text,
            format_args!("field {} {}\n", row.type_number, row.name_number),
        );
    }
    Ok(text)
}

fn count_words(catalogue: &Catalogue) -> String {
    let (names, types) = (catalogue.names.len(), catalogue.types.len());
    let (structs, fields) = (catalogue.structs.len(), catalogue.fields.len());
    format!("{} {} {} {}", names, types, structs, fields)
}

fn function_pointer_lines(input: &[u8]) -> Result<String, Refusal> {
    let mut reader = Reader::new(input, 0);
    reader.mark(b"(*")?;
    let name_at = reader.at();
    let name_length = reader.run_to(b')')?.len();
    reader.mark(b")")?;
    reader.mark(b"(")?;
    reader.run_to(b')')?;
    reader.mark(b")")?;
    let rest_at = reader.at();
    let rest_length = input.len() - rest_at;
    Ok(format!(
        "fn {} {} {} {}\n",
        name_at, name_length, rest_at, rest_length
    ))
}

/// The FNV-1a hash of 64 bits.
fn fnv_1a(bytes: &[u8]) -> u64 {
    bytes.iter().fold(0xcbf2_9ce4_8422_2325, |hash, byte| {
        (hash ^ u64::from(*byte)).wrapping_mul(0x0000_0100_0000_01b3)
    })
}

fn add(text: &mut String, words: fmt::Arguments) {
    // Writing into a string cannot fail.
    let _ = text.write_fmt(words);
}

/// Two hexadecimal digits for each byte.
struct Hex<'a>(&'a [u8]);

impl fmt::Display for Hex<'_> {
    fn fmt(&self, target: &mut fmt::Formatter) -> fmt::Result {
        self.0
            .iter()
            .try_for_each(|byte| write!(target, "{:02x}", byte))
    }
}

/// The length, then the bytes if there are any.
struct Counted<'a>(&'a [u8]);

impl fmt::Display for Counted<'_> {
    fn fmt(&self, target: &mut fmt::Formatter) -> fmt::Result {
        write!(target, "{}", self.0.len())?;
        if self.0.is_empty() {
            return Ok(());
        }
        write!(target, " {}", Hex(self.0))
    }
}
