//! What blend.rs and dna.rs look for in `crate::parsers`, in the place of mod.rs. The error has mod.rs's cases; `NomError` alone holds
//! more.

use nom::error::{ErrorKind, ParseError};

pub mod blend {
    include!(concat!(env!("BLEND_SOURCES"), "/src/parsers/blend.rs"));
}

pub mod dna {
    include!(concat!(env!("BLEND_SOURCES"), "/src/parsers/dna.rs"));
}

type Result<'a, T> = nom::IResult<&'a [u8], T, BlendParseError>;

#[derive(Debug, Copy, Clone)]
pub enum PointerSize {
    Bits32,
    Bits64,
}

#[derive(Debug, Copy, Clone)]
pub enum Endianness {
    Little,
    Big,
}

#[derive(Debug)]
pub enum BlendParseError {
    /// The read that failed, and after it each reader around it, from the inside out.
    NomError(Vec<Place>),
    IoError(std::io::Error),
    NotEnoughData,
    UnknownBlockCode,
    UnsupportedCountOnPrincipalBlock,
    InvalidMemoryAddress,
    NoDnaBlockFound,
    CompressedFileNotSupported,
}

/// What nom says of a reader that failed: its kind, and what it was given to read.
#[derive(Debug)]
pub struct Place {
    pub kind: ErrorKind,
    pub left: usize,
    address: usize,
}

impl Place {
    fn of(input: &[u8], kind: ErrorKind) -> Place {
        Place { kind, left: input.len(), address: input.as_ptr() as usize }
    }

    /// The offset in the bytes that were read, of which every input is a part; nothing if it is none of these.
    pub fn offset(&self, bytes: &[u8]) -> Option<usize> {
        let offset = self.address.checked_sub(bytes.as_ptr() as usize)?;
        Some(offset).filter(|offset| offset + self.left <= bytes.len())
    }
}

impl ParseError<&[u8]> for BlendParseError {
    fn from_error_kind(input: &[u8], kind: ErrorKind) -> Self {
        BlendParseError::NomError(vec![Place::of(input, kind)])
    }

    fn append(input: &[u8], kind: ErrorKind, other: Self) -> Self {
        match other {
            BlendParseError::NomError(mut places) => {
                places.push(Place::of(input, kind));
                BlendParseError::NomError(places)
            }
            // nom appends to errors of its own only: the others are all failures.
            other => other,
        }
    }
}
