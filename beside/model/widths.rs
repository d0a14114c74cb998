//! What the bytes of a field's name say, and how wide the field is.
//!
//! Written from documents 01 ("Declarators") and 02 (CR 2), without the code. The
//! table of dimensions is taken to be long enough always, so refusal 11 never
//! comes.
//!
//! A record of kind `W` is a type's size, the bytes to a pointer and a name. A
//! record of kind `w` is a declarator's record made by hand, any numbers in it; it
//! counts as it stands, and its rest's length decides, which is part of this form
//! and no sentence of the documents.

pub const NAME_KIND: u8 = b'W';
pub const RECORD_KIND: u8 = b'w';

const INVALID_ARRAY_SIZE: u8 = 9;
const PRODUCT_TOO_LARGE: u8 = 10;
const NAME_NOT_FULLY_READ: u8 = 15;

const NUMBER_BYTES: usize = 8;
const NAME_STARTS: usize = 2 * NUMBER_BYTES;
const RECORD_NUMBERS: usize = 10;

const BAD_INPUT: &str = "bad-input\n";

/// Where a part stands in the bytes of the name.
struct Place {
    at: u64,
    length: u64,
}

/// Each kind has only the numbers that mean something for it.
enum Kind {
    Value,
    Array {
        length: u64,
        dimensions: u64,
    },
    Pointer {
        indirection: u64,
    },
    PointerArray {
        indirection: u64,
        length: u64,
        dimensions: u64,
    },
    Function,
}

struct Declarator {
    name: Place,
    rest: Place,
    kind: Kind,
}

/// What a width is asked with, beside the declarator.
struct Sizes {
    of_type: u64,
    of_pointer: u64,
}

/// Two lines, the declarator's and the width's; one for a short input.
pub fn name_lines(input: &[u8]) -> String {
    if input.len() < NAME_STARTS {
        return BAD_INPUT.to_string();
    }
    let (numbers, name) = input.split_at(NAME_STARTS);
    let sizes = sizes(&read_numbers(numbers));
    match declarator(name) {
        Ok(read) => declarator_line(&read) + &width_line(width(&read, &sizes)),
        Err(refusal) => refused_line(refusal) + "none\n",
    }
}

/// One line, the width's.
pub fn record_lines(input: &[u8]) -> String {
    if input.len() != RECORD_NUMBERS * NUMBER_BYTES {
        return BAD_INPUT.to_string();
    }
    let numbers = read_numbers(input);
    match declarator_by_hand(&numbers) {
        Some(made) => width_line(width(&made, &sizes(&numbers[RECORD_NUMBERS - 2..]))),
        None => BAD_INPUT.to_string(),
    }
}

/// A function pointer is tried first; what is none is a pointer or a value.
fn declarator(bytes: &[u8]) -> Result<Declarator, u8> {
    match function_pointer(bytes) {
        Some(read) => Ok(read),
        None => pointer_or_value(bytes),
    }
}

/// Both parts that run to the first `)` may be empty.
fn function_pointer(bytes: &[u8]) -> Option<Declarator> {
    let name_at = after(bytes, 0, b"(*")?;
    let name_end = first(bytes, name_at, b')')?;
    let arguments_at = after(bytes, name_end, b")(")?;
    let arguments_end = first(bytes, arguments_at, b')')?;
    Some(Declarator {
        name: place(name_at, name_end),
        rest: place(arguments_end + 1, bytes.len()),
        kind: Kind::Function,
    })
}

fn pointer_or_value(bytes: &[u8]) -> Result<Declarator, u8> {
    let asterisks = bytes.iter().take_while(|byte| **byte == b'*').count();
    match first(bytes, asterisks, b'[') {
        Some(bracket) => array(bytes, asterisks, bracket),
        None => Ok(Declarator {
            name: place(asterisks, bytes.len()),
            rest: place(bytes.len(), bytes.len()),
            kind: single_kind(asterisks as u64),
        }),
    }
}

/// Refusal 9 of any group comes before refusal 10 of the product.
fn array(bytes: &[u8], asterisks: usize, bracket: usize) -> Result<Declarator, u8> {
    let (contents, rest_at) = complete_groups(bytes, bracket);
    let dimensions: Option<Vec<u64>> = contents.into_iter().map(dimension).collect();
    let dimensions = dimensions.ok_or(INVALID_ARRAY_SIZE)?;
    let length = product(&dimensions).ok_or(PRODUCT_TOO_LARGE)?;
    Ok(Declarator {
        name: place(asterisks, bracket),
        rest: place(rest_at, bytes.len()),
        kind: array_kind(asterisks as u64, length, dimensions.len() as u64),
    })
}

fn single_kind(indirection: u64) -> Kind {
    match indirection {
        0 => Kind::Value,
        _ => Kind::Pointer { indirection },
    }
}

fn array_kind(indirection: u64, length: u64, dimensions: u64) -> Kind {
    match indirection {
        0 => Kind::Array { length, dimensions },
        _ => Kind::PointerArray {
            indirection,
            length,
            dimensions,
        },
    }
}

/// The contents of the groups from `start` on, and where the first byte stands
/// that belongs to none of them.
fn complete_groups(bytes: &[u8], start: usize) -> (Vec<&[u8]>, usize) {
    let mut contents = Vec::new();
    let mut at = start;
    while let Some((content, next)) = group(bytes, at) {
        contents.push(content);
        at = next;
    }
    (contents, at)
}

/// The content of the group that begins at `at`, and where the group ends.
fn group(bytes: &[u8], at: usize) -> Option<(&[u8], usize)> {
    let content_at = after(bytes, at, b"[")?;
    let content_end = first(bytes, content_at, b']')?;
    Some((&bytes[content_at..content_end], content_end + 1))
}

/// `None` for what is no decimal number of at most 2^64-1. Leading zeros count
/// as digits like others.
fn dimension(content: &[u8]) -> Option<u64> {
    let digits = content.strip_prefix(b"+").unwrap_or(content);
    if digits.is_empty() {
        return None;
    }
    digits.iter().try_fold(0, with_digit)
}

fn with_digit(value: u64, byte: &u8) -> Option<u64> {
    let digit = char::from(*byte).to_digit(10)?;
    value.checked_mul(10)?.checked_add(u64::from(digit))
}

/// `None` where the exact product is above 2^64-1. A product without a 0 never
/// shrinks, so only a 0 can undo a step that is too large.
fn product(factors: &[u64]) -> Option<u64> {
    if factors.contains(&0) {
        return Some(0);
    }
    factors
        .iter()
        .try_fold(1_u64, |value, factor| value.checked_mul(*factor))
}

/// Refusal 15 comes before the width's own 10.
fn width(declarator: &Declarator, sizes: &Sizes) -> Result<u64, u8> {
    if declarator.rest.length != 0 {
        return Err(NAME_NOT_FULLY_READ);
    }
    let factors = match declarator.kind {
        Kind::Value => [sizes.of_type, 1],
        Kind::Array { length, .. } => [sizes.of_type, length],
        Kind::Pointer { .. } | Kind::Function => [sizes.of_pointer, 1],
        Kind::PointerArray { length, .. } => [sizes.of_pointer, length],
    };
    product(&factors).ok_or(PRODUCT_TOO_LARGE)
}

/// `None` for a kind over 4. The record is taken as it stands.
fn declarator_by_hand(numbers: &[u64]) -> Option<Declarator> {
    let (indirection, length, dimensions) = (numbers[5], numbers[6], numbers[7]);
    let kind = match numbers[0] {
        0 => Kind::Value,
        1 => Kind::Array { length, dimensions },
        2 => Kind::Pointer { indirection },
        3 => Kind::PointerArray {
            indirection,
            length,
            dimensions,
        },
        4 => Kind::Function,
        _ => return None,
    };
    Some(Declarator {
        name: Place {
            at: numbers[1],
            length: numbers[2],
        },
        rest: Place {
            at: numbers[3],
            length: numbers[4],
        },
        kind,
    })
}

/// A file's pointers have 4 or 8 bytes; a number that is not 4 stands for 8.
fn sizes(numbers: &[u64]) -> Sizes {
    Sizes {
        of_type: numbers[0],
        of_pointer: if numbers[1] == 4 { 4 } else { 8 },
    }
}

fn declarator_line(declarator: &Declarator) -> String {
    let (word, indirection, length, dimensions) = match declarator.kind {
        Kind::Value => ("value", 0, 1, 0),
        Kind::Array { length, dimensions } => ("array", 0, length, dimensions),
        Kind::Pointer { indirection } => ("pointer", indirection, 1, 0),
        Kind::PointerArray {
            indirection,
            length,
            dimensions,
        } => ("pointer-array", indirection, length, dimensions),
        Kind::Function => ("function", 0, 1, 0),
    };
    let (name, rest) = (&declarator.name, &declarator.rest);
    format!(
        "{} {} {} {} {} {} {} {}\n",
        word, name.at, name.length, rest.at, rest.length, indirection, length, dimensions
    )
}

fn width_line(answer: Result<u64, u8>) -> String {
    match answer {
        Ok(width) => format!("width {}\n", width),
        Err(refusal) => refused_line(refusal),
    }
}

fn refused_line(refusal: u8) -> String {
    format!("refused {}\n", refusal)
}

fn place(at: usize, end: usize) -> Place {
    Place {
        at: at as u64,
        length: (end - at) as u64,
    }
}

/// Where the mark ends, if it stands at `at`.
fn after(bytes: &[u8], at: usize, mark: &[u8]) -> Option<usize> {
    if bytes[at..].starts_with(mark) {
        Some(at + mark.len())
    } else {
        None
    }
}

/// Where `wanted` first stands, at `from` or later.
fn first(bytes: &[u8], from: usize, wanted: u8) -> Option<usize> {
    let found = bytes[from..].iter().position(|byte| *byte == wanted);
    found.map(|steps| from + steps)
}

fn read_numbers(bytes: &[u8]) -> Vec<u64> {
    bytes.chunks_exact(NUMBER_BYTES).map(read_number).collect()
}

fn read_number(bytes: &[u8]) -> u64 {
    let little_end_last = bytes.iter().rev();
    little_end_last.fold(0, |value, byte| value << 8 | u64::from(*byte))
}
