//! Refusals. The Rust's error does not say where a read failed: a reading of the same bytes by the crate `traced` does, and is held
//! against the error.

use crate::parsers::BlendParseError as Plain;
use nom::error::ErrorKind;
use nom::Err;
use traced::{Error as Traced, Place};

const INCONSISTENT: &str = "oracle-inconsistent";

/// The line of an error, with what the traced reading of the same bytes said.
pub fn line(plain: &Plain, traced: Result<(), Traced>, bytes: &[u8]) -> String {
    let line = match traced {
        Err(Traced::NomError(places)) if !places.is_empty() && kinds(plain) == kinds_traced(&places) => nom_line(&places, bytes),
        Err(traced) if same(plain, &traced) => Some(format!("refused {}", number(plain))),
        _ => None,
    };
    line.unwrap_or_else(|| INCONSISTENT.to_string())
}

/// Document 01's number of a refusal; 0 for those that do not occur.
pub fn number(error: &Plain) -> u32 {
    match error {
        Plain::CompressedFileNotSupported => 1,
        Plain::NomError { .. } => 2,
        Plain::InvalidMemoryAddress => 3,
        Plain::UnsupportedCountOnPrincipalBlock => 4,
        Plain::UnknownBlockCode => 5,
        Plain::NoDnaBlockFound => 6,
        Plain::IoError(_) | Plain::NotEnoughData => 0,
    }
}

/// The error in nom's, as the Rust's `from_data` takes it out.
pub fn inner(error: Err<Plain>) -> Plain {
    match error {
        Err::Failure(error) | Err::Error(error) => error,
        Err::Incomplete(_) => Plain::NotEnoughData,
    }
}

/// Whether both are the same error, and none of nom's.
fn same(plain: &Plain, traced: &Traced) -> bool {
    matches!(
        (plain, traced),
        (Plain::CompressedFileNotSupported, Traced::CompressedFileNotSupported)
            | (Plain::InvalidMemoryAddress, Traced::InvalidMemoryAddress)
            | (Plain::UnsupportedCountOnPrincipalBlock, Traced::UnsupportedCountOnPrincipalBlock)
            | (Plain::UnknownBlockCode, Traced::UnknownBlockCode)
            | (Plain::NoDnaBlockFound, Traced::NoDnaBlockFound)
    )
}

/// The kinds of an error of nom's, from the inside out; of any other, none.
fn kinds(plain: &Plain) -> Vec<ErrorKind> {
    match plain {
        Plain::NomError { kind, other } => {
            let mut list = other.as_ref().map_or(Vec::new(), |other| kinds(other));
            list.push(*kind);
            list
        }
        _ => Vec::new(),
    }
}

fn kinds_traced(places: &[Place]) -> Vec<ErrorKind> {
    places.iter().map(|place| place.kind).collect()
}

/// The read that failed with what was left for it, then the readers around it; nothing if a place is not in these bytes.
fn nom_line(places: &[Place], bytes: &[u8]) -> Option<String> {
    let mut line = "refused nom".to_string();
    for (depth, place) in places.iter().enumerate() {
        line.push_str(&format!(" {:?} {}", place.kind, place.offset(bytes)?));
        if depth == 0 {
            line.push_str(&format!(" {}", place.left));
        }
    }
    Some(line)
}
