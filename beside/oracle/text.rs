//! Pieces of the answers' text.

use std::fmt::Write;

/// Adds a line to a text.
macro_rules! line {
    ($out:expr, $($part:tt)*) => {{
        use std::fmt::Write;
        writeln!($out, $($part)*).expect("text grows")
    }};
}

pub fn push_hex(out: &mut String, bytes: &[u8]) {
    for byte in bytes {
        write!(out, "{:02x}", byte).expect("text grows");
    }
}

/// 64-bit FNV-1a.
pub fn hash(bytes: &[u8]) -> u64 {
    bytes.iter().fold(0xcbf2_9ce4_8422_2325, |sum, &byte| {
        (sum ^ u64::from(byte)).wrapping_mul(0x0000_0100_0000_01b3)
    })
}
