//! runtime.rs, unchanged, beside accessors for the two private functions that are compared.

include!(concat!(env!("BLEND_SOURCES"), "/src/runtime.rs"));

/// `get_ptr` on a pointer field whose bytes are `pointer`. It reads them by the header's pointer size and order, and asks nothing else
/// of the instance but the file's blocks.
pub fn search<'a>(blend: &'a RawBlend, pointer: &'a [u8]) -> PointerInfo<'a> {
    let holder = Instance {
        dna: &blend.dna,
        blend,
        type_name: String::new(),
        data: InstanceDataFormat::Raw(pointer),
        fields: LinkedHashMap::new(),
    };
    let field = FieldTemplate {
        info: FieldInfo::Pointer { indirection_count: 1 },
        type_index: 0,
        type_name: String::new(),
        data_start: 0,
        data_len: pointer.len(),
        is_primitive: false,
    };
    holder.get_ptr(&field)
}

pub fn code_of(block: &Block) -> Option<[u8; 4]> {
    InstanceDataFormat::Block(block).code()
}
