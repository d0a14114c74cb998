//! Primitive values.

use crate::parsers::primitive::*;
use crate::parsers::Endianness;
use std::panic::{catch_unwind, AssertUnwindSafe};

type Reader = fn(&[u8], Endianness) -> String;

/// primitive.rs's kinds. `char` goes through the trait, which alone has it; the others by the functions that the trait calls.
const KINDS: [(&str, Reader); 11] = [
    ("u8", |s, e| parse_u8(s, e).to_string()),
    ("char", |s, e| u32::from(<char as BlendPrimitive>::parse(s, e)).to_string()),
    ("i8", |s, e| parse_i8(s, e).to_string()),
    ("u16", |s, e| parse_u16(s, e).to_string()),
    ("i16", |s, e| parse_i16(s, e).to_string()),
    ("u32", |s, e| parse_u32(s, e).to_string()),
    ("i32", |s, e| parse_i32(s, e).to_string()),
    ("u64", |s, e| parse_u64(s, e).to_string()),
    ("i64", |s, e| parse_i64(s, e).to_string()),
    ("f32", |s, e| format!("{:08x}", parse_f32(s, e).to_bits())),
    ("f64", |s, e| format!("{:016x}", parse_f64(s, e).to_bits())),
];

pub fn answer(slice: &[u8], out: &mut String) {
    for (order, endianness) in [("little", Endianness::Little), ("big", Endianness::Big)].iter() {
        for (kind, read) in KINDS.iter() {
            // A short slice panics; the other kinds of the same slice still answer.
            let value = catch_unwind(AssertUnwindSafe(|| read(slice, *endianness)));
            line!(out, "{} {} {}", kind, order, value.unwrap_or_else(|_| "panic".to_string()));
        }
    }
}

/// The names of the kinds, which no input changes.
pub fn names(out: &mut String) {
    line!(out, "u8 {}", u8::blender_name());
    line!(out, "char {}", char::blender_name());
    line!(out, "i8 {}", i8::blender_name());
    line!(out, "u16 {}", u16::blender_name());
    line!(out, "i16 {}", i16::blender_name());
    line!(out, "u32 {}", u32::blender_name());
    line!(out, "i32 {}", i32::blender_name());
    line!(out, "u64 {}", u64::blender_name());
    line!(out, "i64 {}", i64::blender_name());
    line!(out, "f32 {}", f32::blender_name());
    line!(out, "f64 {}", f64::blender_name());
}
