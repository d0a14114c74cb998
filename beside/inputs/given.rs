//! Files that are given: whole, their catalogue in both orders, and every name in it as a declarator; those that begin as a function pointer
//! does also as one.

use crate::batch::Batch;
use crate::declarators;
use std::collections::HashSet;
use std::io::{self, Write};

pub fn write<W: Write>(paths: &[String], batch: &mut Batch<W>) -> io::Result<()> {
    batch.allow(usize::max_value());
    let mut seen = HashSet::new();
    for path in paths {
        let bytes = std::fs::read(path).map_err(|error| io::Error::new(error.kind(), format!("{}: {}", path, error)))?;
        batch.put(b'F', &bytes)?;
        if let Some(at) = last_catalogue(&bytes) {
            batch.put(b'C', &bytes[at..])?;
            batch.put(b'c', &bytes[at..])?;
            names(&bytes[at..], &mut seen, batch)?;
        }
    }
    Ok(())
}

fn last_catalogue(bytes: &[u8]) -> Option<usize> {
    bytes.windows(8).rposition(|part| part == b"SDNANAME")
}

/// The names up to the next mark, those of an earlier file left out.
fn names<W: Write>(payload: &[u8], seen: &mut HashSet<Vec<u8>>, batch: &mut Batch<W>) -> io::Result<()> {
    let names = payload.get(12..).unwrap_or(&[]);
    let end = names.windows(4).position(|part| part == b"TYPE").unwrap_or(0);
    for name in names[..end].split(|&byte| byte == 0) {
        if seen.insert(name.to_vec()) {
            declarators::put(name, batch)?;
            if name.starts_with(b"(") && std::str::from_utf8(name).is_ok() {
                batch.put(b'f', name)?;
            }
        }
    }
    Ok(())
}
