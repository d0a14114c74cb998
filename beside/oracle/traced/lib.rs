//! blend.rs and dna.rs once more, unchanged, beside an error that keeps where it happened: the Rust's own throws the place away. A crate
//! of its own, because both name what they use by `crate::parsers`.

mod parsers;

use nom::Err;
pub use parsers::{BlendParseError as Error, Endianness, Place};
use parsers::{blend, dna, PointerSize};

/// A whole file. The bytes are read where they are, so that places in them can be told.
pub fn file(bytes: &[u8]) -> Result<(), Error> {
    told(blend::BlendParseContext::default().blend(bytes))
}

/// A file's header by itself.
pub fn header(bytes: &[u8]) -> Result<(), Error> {
    told(blend::header(bytes))
}

/// A catalogue. The pointer size is kept by the context and not read.
pub fn catalogue(payload: &[u8], order: Endianness) -> Result<(), Error> {
    told(dna::DnaParseContext::new(order, PointerSize::Bits64).dna(payload))
}

/// As the Rust's `from_data` takes an outcome apart.
fn told<T>(outcome: nom::IResult<&[u8], T, Error>) -> Result<(), Error> {
    match outcome {
        Ok(_) => Ok(()),
        Err(Err::Failure(error)) | Err(Err::Error(error)) => Err(error),
        Err(Err::Incomplete(_)) => Err(Error::NotEnoughData),
    }
}
