//! Document 01's examples at the edges, and the other inputs that the programs of crates/vectors and crates/scene run: every batch begins with them.

use crate::batch::Batch;
use std::io::{self, Write};

const DECLARATORS: &[&str] = &[
    "", "[", "]", "a[", "a[]", "a[0]", "a[+]", "a[+3]", "a[++3]", "a[-0]", "a[3", "a[3]b[4]", "a[3]]", "a[ 3]", "a[18446744073709551615]",
    "a[18446744073709551616]", "a[18446744073709551615][2]", "a[18446744073709551615][2][0]", "a[0][18446744073709551615][2]",
    "a[000000000000000000000003]", "*", "**p[2][", "*[2]", "*m[2][3]", "mat[4][4]", "mat[x][4]", "(*f", "(*f)", "(*f)(", "(*f)()", "(*f)()[3]",
    "(**f)()", "(*)()", "(*f)(a)b", "*(*f)()", "a[3][", "a[[3]]", "é[2]", "a b", "x", "*x", "**x[3]", "x[3][2]", "x[4", "x[0]", "x[2]",
    "*x[4611686018427387904]", "*x[4611686018427387903]", "a[2][x]", "*f",
];

/// A header and what comes after it.
const FILES: &[&[u8]] = &[
    b"BLENDE",
    b"BLENDER",
    b"BLENDER-v280",
    b"BLENDER-v280ENDB",
    b"BLENDER-v280\0\0\0\0\x04\0\0\0\x10\0\0\0\0\0\0\0\x03\0\0\0\x02\0\0\0hull",
    b"BLENDER-v280REND\x04\0\0\0\0\0\0\0\0\0\0\0\x03\0\0\0\x01\0\0\0hullENDB",
    b"BLENDER-v280REND\x04\0\0\0\0\0\0\0\0\0\0\0",
    b"BLENDER-v280USER\x04\0\0\0\x10\0\0\0\0\0\0\0\x03\0\0\0\x01\0\0\0hul",
    b"BLENDER-v280USER\x04\0\0\0\x10\0\0\0\0\0\0\0\x03\0\0\0\x01\0\0\0hull",
];

/// Document 01's catalogue: the name "x", the type "int" of size 4, one struct of type 0 with the field (0, 0).
const CATALOGUE: &[u8] =
    b"SDNANAME\x01\0\0\0x\0\0\0TYPE\x01\0\0\0int\0TLEN\x04\0\0\0STRC\x01\0\0\0\0\0\x01\0\0\0\0\0";

pub fn write<W: Write>(batch: &mut Batch<W>) -> io::Result<()> {
    batch.allow(usize::max_value());
    for text in DECLARATORS {
        batch.put(b'D', text.as_bytes())?;
        batch.put(b'f', text.as_bytes())?;
    }
    for file in FILES {
        batch.put(b'F', file)?;
        batch.put(b'H', file)?;
    }
    batch.put(b'N', b"")?;
    for code in [b"OB\0\0", b"\0\0\0\0", b"REND", b"DATA", b"DNA1"].iter() {
        batch.put(b'F', &scene(*code))?;
    }
    for length in 0..=CATALOGUE.len() {
        batch.put(b'C', &CATALOGUE[..length])?;
        batch.put(b'c', &CATALOGUE[..length])?;
    }
    batch.put(b'C', b"SDNANAME\xff\xff\xff\xff")?;
    batch.put(b'c', b"SDNANAME\xff\xff\xff\xff")
}

/// The input of document 01's `blendlist`, its first block under this code.
fn scene(code: &[u8; 4]) -> Vec<u8> {
    let mut bytes = b"BLENDER-v280".to_vec();
    bytes.extend_from_slice(code);
    bytes.extend_from_slice(b"\x04\0\0\0\x10\0\0\0\0\0\0\0\x03\0\0\0\x01\0\0\0hull");
    bytes.extend_from_slice(b"DNA1\x34\0\0\0\x20\0\0\0\0\0\0\0\0\0\0\0\x01\0\0\0");
    bytes.extend_from_slice(CATALOGUE);
    bytes.extend_from_slice(b"ENDB");
    bytes
}
