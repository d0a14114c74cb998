//! The oracle: answers of the unchanged Rust parsers to a batch of inputs.
//!
//! Standard input holds records: a byte for the kind, the input's length in 4 bytes, little-endian, and the input. Standard output has
//! the lines of each answer and then the line `.`. Numbers are decimal; bytes, codes, hashes and floats' bits are hexadecimal.
//!
//! - `F`, a whole file: `file E P O MAJOR MINOR ROWS END N T S F`, and for each row
//!   `row CODE ADDRESS INDEX COUNT AT PAYLOAD-AT LENGTH FNV1A64-OF-PAYLOAD`; or `refused ..`.
//! - `H`, a file's header by itself: `header E P O MAJOR MINOR LENGTH`, or `refused ..`.
//! - `D`, a declarator: `value`, `array`, `pointer`, `pointer-array` or `fn`, then `NAME-AT NAME-LENGTH REST-AT`, then the indirection of a
//!   pointer, then the length, the number of dimensions and the dimensions of an array; or `refused 9`, `not-utf8`, `panic`.
//! - `f`, a function pointer by itself: `fn NAME-AT NAME-LENGTH REST-AT REST-LENGTH`; or `refused nom KIND`, `not-utf8`.
//! - `C`, `c`, a catalogue in little or big order: `dna N T S F END`, then all `name LENGTH BYTES`, all `type SIZE LENGTH BYTES`, all
//!   `struct TYPE FIRST COUNT`, all `field TYPE NAME`; or `refused nom ..`. A name that holds U+FFFD has `lossy` in place of the length.
//!   Where there are no bytes the line ends after the length.
//! - `P`, a slice: `KIND ORDER VALUE` for each kind, in little order and then in big; or `KIND ORDER panic`.
//! - `N`, whatever the input: `KIND NAME` for each kind of primitive value.
//! - `A`, an address of 8 bytes, little-endian, and a whole file: `null`, `found ROW` or `missing`, then for each row `code CODE` or
//!   `code none`; or `refused ..`.
//! - `a`, the same input: `null`, `found ROW` or `missing`, five times; or `refused ..`.
//!
//! A refusal is `refused N`, N document 01's number of the Rust's error. In the place of `refused 2`, which is `NomError`, stands
//! `refused nom KIND OFFSET LEFT`, and then `KIND OFFSET` for each reader around the one that failed, from the inside out: nom's kind of
//! error, the offset in the file, or in the payload of a catalogue by itself, of what the reader was given, and how many bytes the failed
//! one was given. Offsets come from a further reading with the Rust's blend.rs and dna.rs (the crate `traced`), which must give the same
//! error with the same kinds. Of a function pointer only the kind is known.
//!
//! Any answer may be `panic`, where the Rust panics; `memory`, for an input longer than `memory::LONGEST`, which is not asked; and
//! `oracle-inconsistent`, where two readings by the Rust differ.

#[macro_use]
mod text;

mod address;
mod catalogue;
mod declarator;
mod file;
mod memory;
#[allow(warnings)]
mod parsers;
mod refusal;
#[allow(warnings)]
mod runtime;
mod values;

use parsers::Endianness;
use std::io::{self, BufReader, BufWriter, Read, Write};
use std::panic::{catch_unwind, AssertUnwindSafe};

#[global_allocator]
static ALLOCATOR: memory::Capped = memory::Capped;

fn main() {
    // A panic is an answer here; its message would only be noise.
    std::panic::set_hook(Box::new(|_| {}));
    if let Err(error) = batch() {
        eprintln!("oracle: {}", error);
        std::process::exit(2);
    }
}

fn batch() -> io::Result<()> {
    let stdin = io::stdin();
    let stdout = io::stdout();
    let mut input = BufReader::with_capacity(1 << 16, stdin.lock());
    let mut output = BufWriter::with_capacity(1 << 16, stdout.lock());
    while let Some((kind, length)) = record_head(&mut input)? {
        let text = if length > memory::LONGEST {
            skip(&mut input, length)?;
            "memory\n".to_string()
        } else {
            let mut bytes = vec![0; length];
            input.read_exact(&mut bytes)?;
            answer(kind, &bytes)
        };
        output.write_all(text.as_bytes())?;
        output.write_all(b".\n")?;
    }
    output.flush()
}

/// A record's kind and length, or nothing at the batch's end. A batch that ends inside a record is an error.
fn record_head(input: &mut impl Read) -> io::Result<Option<(u8, usize)>> {
    let mut kind = [0; 1];
    if input.read(&mut kind)? == 0 {
        return Ok(None);
    }
    let mut length = [0; 4];
    input.read_exact(&mut length)?;
    Ok(Some((kind[0], u32::from_le_bytes(length) as usize)))
}

fn skip(input: &mut impl Read, length: usize) -> io::Result<()> {
    let skipped = io::copy(&mut input.take(length as u64), &mut io::sink())?;
    if skipped < length as u64 {
        return Err(io::ErrorKind::UnexpectedEof.into());
    }
    Ok(())
}

fn answer(kind: u8, bytes: &[u8]) -> String {
    let outcome = catch_unwind(AssertUnwindSafe(|| {
        let mut text = String::new();
        match kind {
            b'F' => file::answer(bytes, &mut text),
            b'H' => file::header_answer(bytes, &mut text),
            b'D' => declarator::answer(bytes, &mut text),
            b'f' => declarator::function_answer(bytes, &mut text),
            b'C' => catalogue::answer(bytes, Endianness::Little, &mut text),
            b'c' => catalogue::answer(bytes, Endianness::Big, &mut text),
            b'P' => values::answer(bytes, &mut text),
            b'N' => values::names(&mut text),
            b'A' => address::answer(bytes, &mut text),
            b'a' => address::index_answer(bytes, &mut text),
            _ => text.push_str("bad-kind\n"),
        }
        text
    }));
    outcome.unwrap_or_else(|_| "panic\n".to_string())
}
