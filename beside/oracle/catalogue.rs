//! Catalogues.

use crate::parsers::dna::{Dna, DnaParseContext};
use crate::parsers::{BlendParseError, Endianness, PointerSize};
use crate::refusal;
use crate::text::push_hex;
use nom::Err;

pub fn answer(payload: &[u8], order: Endianness, out: &mut String) {
    // The pointer size is kept by the context and not read.
    let context = DnaParseContext::new(order, PointerSize::Bits64);
    match (context.dna(payload), traced(payload, order)) {
        (Ok((rest, dna)), Ok(())) => accepted(&dna, payload.len() - rest.len(), out),
        (Ok(_), Err(_)) => line!(out, "oracle-inconsistent"),
        (Err(Err::Error(error @ BlendParseError::NomError { .. })), traced) => {
            line!(out, "{}", refusal::line(&error, traced, payload))
        }
        // A catalogue has no other refusal: a line that no other side has.
        (Err(_), _) => line!(out, "refused otherwise"),
    }
}

fn traced(payload: &[u8], order: Endianness) -> Result<(), traced::Error> {
    match order {
        Endianness::Little => traced::catalogue(payload, traced::Endianness::Little),
        Endianness::Big => traced::catalogue(payload, traced::Endianness::Big),
    }
}

/// The numbers of names, types, structs and fields.
pub fn counts(dna: &Dna) -> [usize; 4] {
    let fields = dna.structs.iter().map(|s| s.fields.len()).sum();
    [dna.names.len(), dna.types.len(), dna.structs.len(), fields]
}

fn accepted(dna: &Dna, end: usize, out: &mut String) {
    let [names, types, structs, fields] = counts(dna);
    line!(out, "dna {} {} {} {} {}", names, types, structs, fields, end);
    for name in &dna.names {
        out.push_str("name ");
        push_name(out, name);
    }
    for kind in &dna.types {
        out.push_str(&format!("type {} ", kind.bytes_len));
        push_name(out, &kind.name);
    }
    let mut first = 0;
    for record in &dna.structs {
        line!(out, "struct {} {} {}", record.type_index, first, record.fields.len());
        first += record.fields.len();
    }
    for field in dna.structs.iter().flat_map(|s| &s.fields) {
        line!(out, "field {} {}", field.type_index, field.name_index);
    }
}

/// A name that is not UTF-8 has lost bytes to U+FFFD. One that spells U+FFFD itself cannot be told from it and is marked too.
fn push_name(out: &mut String, name: &str) {
    if name.contains('\u{fffd}') {
        out.push_str("lossy");
    } else {
        out.push_str(&name.len().to_string());
    }
    if !name.is_empty() {
        out.push(' ');
    }
    push_hex(out, name.as_bytes());
    out.push('\n');
}
