//! The catalogue of a DNA1 block, written from documents 01 and 02 without the code.

use crate::fault_reads::{Order, Reader, Refusal};

pub struct Type<'a> {
    pub name: &'a [u8],
    pub size: u64,
}

pub struct Struct {
    pub type_number: u64,
    pub first_field: usize,
    pub field_count: u64,
}

pub struct Field {
    pub type_number: u64,
    pub name_number: u64,
}

/// The lists grow by what has been read: each string, size, struct and field takes bytes of the
/// input, so no count that stands there decides how much memory is taken.
pub struct Catalogue<'a> {
    pub names: Vec<&'a [u8]>,
    pub types: Vec<Type<'a>>,
    pub structs: Vec<Struct>,
    pub fields: Vec<Field>,
}

pub fn read_catalogue<'a>(reader: &mut Reader<'a>, order: Order) -> Result<Catalogue<'a>, Refusal> {
    reader.mark(b"SDNA")?;
    reader.mark(b"NAME")?;
    let names = read_strings(reader, order)?;
    reader.mark(b"TYPE")?;
    let types = read_strings(reader, order)?;
    reader.mark(b"TLEN")?;
    let types = read_sizes(reader, order, types)?;
    let mut catalogue = Catalogue {
        names,
        types,
        structs: Vec::new(),
        fields: Vec::new(),
    };
    reader.mark(b"STRC")?;
    for _ in 0..reader.number(4, order)? {
        read_struct(reader, order, &mut catalogue)?;
    }
    Ok(catalogue)
}

fn read_strings<'a>(reader: &mut Reader<'a>, order: Order) -> Result<Vec<&'a [u8]>, Refusal> {
    let count = reader.number(4, order)?;
    let start = reader.at();
    let mut strings = Vec::new();
    for _ in 0..count {
        strings.push(reader.string()?);
    }
    let length = reader.at() - start;
    reader.run((4 - length as u64 % 4) % 4)?;
    Ok(strings)
}

fn read_sizes<'a>(
    reader: &mut Reader<'a>,
    order: Order,
    names: Vec<&'a [u8]>,
) -> Result<Vec<Type<'a>>, Refusal> {
    let mut types = Vec::new();
    for name in names {
        let size = reader.number(2, order)?;
        types.push(Type { name, size });
    }
    if types.len() % 2 == 1 {
        reader.run(2)?;
    }
    Ok(types)
}

fn read_struct(
    reader: &mut Reader,
    order: Order,
    catalogue: &mut Catalogue,
) -> Result<(), Refusal> {
    let type_number = reader.number(2, order)?;
    let field_count = reader.number(2, order)?;
    catalogue.structs.push(Struct {
        type_number,
        first_field: catalogue.fields.len(),
        field_count,
    });
    for _ in 0..field_count {
        let type_number = reader.number(2, order)?;
        let name_number = reader.number(2, order)?;
        catalogue.fields.push(Field {
            type_number,
            name_number,
        });
    }
    Ok(())
}
