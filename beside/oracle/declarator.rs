//! Declarators, and function pointers by themselves.

use crate::parsers::field::{fn_pointer, parse_field, FieldInfo, FieldParseError};
use nom::Err;
use std::fmt::Write;

pub fn answer(bytes: &[u8], out: &mut String) {
    let text = match std::str::from_utf8(bytes) {
        Ok(text) => text,
        Err(_) => return line!(out, "not-utf8"),
    };
    match parse_field(text) {
        Ok((rest, (name, info))) => accepted(text, name, rest, &info, out),
        Err(Err::Failure(FieldParseError::InvalidArraySize)) => line!(out, "refused 9"),
        // No declarator ends here by document 01: a line that no other side has.
        Err(_) => line!(out, "refused nom"),
    }
}

/// A function pointer alone, by the Rust's `fn_pointer`. Its error keeps no place, and is defined where it is used: it cannot be traced.
pub fn function_answer(bytes: &[u8], out: &mut String) {
    let text = match std::str::from_utf8(bytes) {
        Ok(text) => text,
        Err(_) => return line!(out, "not-utf8"),
    };
    match fn_pointer(text) {
        Ok((rest, (name, FieldInfo::FnPointer))) => line!(out, "fn {} {}", place(text, name, rest), rest.len()),
        Err(Err::Error(FieldParseError::NomError { kind, other: None })) => line!(out, "refused nom {:?}", kind),
        // It has no other outcome: a line that no other side has.
        _ => line!(out, "refused otherwise"),
    }
}

/// Both are parts of the text, so that the difference of the pointers is the offset, for an empty part too.
fn place(text: &str, name: &str, rest: &str) -> String {
    let offset = |part: &str| part.as_ptr() as usize - text.as_ptr() as usize;
    format!("{} {} {}", offset(name), name.len(), offset(rest))
}

fn accepted(text: &str, name: &str, rest: &str, info: &FieldInfo, out: &mut String) {
    let place = place(text, name, rest);
    match info {
        FieldInfo::Value => line!(out, "value {}", place),
        FieldInfo::ValueArray { len, dimensions } => {
            line!(out, "array {} {}{}", place, len, list(dimensions))
        }
        FieldInfo::Pointer { indirection_count } => {
            line!(out, "pointer {} {}", place, indirection_count)
        }
        FieldInfo::PointerArray { indirection_count, len, dimensions } => {
            line!(out, "pointer-array {} {} {}{}", place, indirection_count, len, list(dimensions))
        }
        FieldInfo::FnPointer => line!(out, "fn {}", place),
    }
}

/// The number of the dimensions and each of them, a space before each.
fn list(dimensions: &[usize]) -> String {
    let mut text = format!(" {}", dimensions.len());
    for dimension in dimensions {
        write!(text, " {}", dimension).expect("text grows");
    }
    text
}
