//! The Rust parsers, unchanged, at the place where their `crate::parsers` paths look for them.

include!(concat!(env!("BLEND_SOURCES"), "/src/parsers/mod.rs"));

/// blend.rs once more, beside accessors: it keeps `block` to itself, and `Result` is visible below this module only. The types are
/// others than those of `blend`; catalogues, pointer sizes and orders are the same.
pub mod again {
    include!(concat!(env!("BLEND_SOURCES"), "/src/parsers/blend.rs"));

    pub fn context(header: Header) -> BlendParseContext {
        BlendParseContext::ParsedHeader(header)
    }

    pub fn block<'a>(context: &'a BlendParseContext, input: &'a [u8]) -> Result<'a, Block> {
        context.block(input)
    }
}
