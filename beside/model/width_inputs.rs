//! Inputs for the model of names and widths, most of them close to an edge of
//! a rule.
//!
//! Written from documents 01 and 02 (CR 2), without the code. Lengths are chosen
//! beside the sizes they will be multiplied by, so that many products are just
//! small enough or just too large, with and without a rest.

use crate::batch::Record;
use crate::random::Random;
use crate::widths::{NAME_KIND, RECORD_KIND};

const RECORD_NUMBERS: usize = 10;
const GREATEST_KIND: u64 = 4;

/// Their product is 2^64-1.
const GREATEST_FACTORS: [u64; 7] = [3, 5, 17, 257, 641, 65_537, 6_700_417];

const EDGES: [u64; 19] = [
    0,
    1,
    2,
    255,
    256,
    65_535,
    65_536,
    0xffff_ffff,
    0x1_0000_0000,
    0x1_0000_0001,
    0x1fff_ffff_ffff_ffff,
    0x2000_0000_0000_0000,
    0x4000_0000_0000_0000,
    0x7fff_ffff_ffff_ffff,
    0x8000_0000_0000_0000,
    0x8000_0000_0000_0001,
    0xffff_ffff_0000_0000,
    u64::MAX - 1,
    u64::MAX,
];

/// Not 4, though some would be 4 with bits cut off.
const STRANGE_POINTER_BYTES: [u64; 9] = [
    0,
    1,
    3,
    5,
    16,
    64,
    0x104,
    0x1_0000_0004,
    0xffff_ffff_ffff_fffc,
];

const BARE_NAMES: &[&[u8]] = &[
    b"",
    b"x",
    b"mat",
    b"_pad0",
    b"name with spaces",
    b" a",
    b"a ",
    b"a*b",
    b"a]",
    b"]",
    b")",
    b"(",
    b"(f",
    b"(*f",
    b"(*f)",
    b"( *f)()",
    b"f)(",
    b"+3",
    b"-1",
    b"4",
    b"a.b",
    b"a\0b",
    b"\0",
    b"\xff",
    b"\xc3\x28",
    b"\xc3\xa9t\xc3\xa9",
    b"\xe2\x82",
    b"a\xf0\x9f\x92\xa1",
    b"\n",
];

/// What may stand after the last complete group; some hold what would be a
/// fault inside a group.
const ARRAY_TAILS: &[&[u8]] = &[
    b"[", b"[3", b"[+", b"[+4", b"[3[4", b"[x", b"[[", b"]", b"]]", b"][", b"][2]", b"x", b" ",
    b"\0", b"x[3]", b" [2]", b"x[]", b"x[-1]", b"*", b"*[3]", b")", b"()", b"(*f)()", b"3]",
    b"\xff", b"\xff[3]", b"[\xff", b"\n",
];

const FUNCTION_TAILS: &[&[u8]] = &[
    b" ", b"x", b")", b"(", b"()", b")()", b"[3]", b"[", b"[]", b"[x]", b"[2", b"*", b"\0",
    b"\xff", b"(*g)()", b"\n",
];

const FUNCTION_NAMES: &[&[u8]] = &[
    b"", b"f", b"func", b"*f", b"**", b"(", b"(*f", b"f[3]", b"f[", b"f[]", b"[", b" f ", b"\xff",
    b"f\0", b"f(",
];

const ARGUMENTS: &[&[u8]] = &[
    b"",
    b"",
    b"void",
    b"int a, char *b",
    b"*",
    b"(",
    b"(*g",
    b"[3]",
    b"[",
    b"[x]",
    b"]",
    b" ",
    b"\xfe",
    b"\0",
];

/// Contents that are no decimal number.
const BAD_CONTENTS: &[&[u8]] = &[
    b"",
    b"+",
    b"++3",
    b"+-3",
    b"-0",
    b"-1",
    b"-",
    b" 3",
    b"3 ",
    b" ",
    b"3 4",
    b"+ 3",
    b"3+",
    b"0x3",
    b"3x",
    b"x",
    b"1_000",
    b"1,000",
    b"3.0",
    b"1e3",
    b"/",
    b":",
    b"3:",
    b"/3",
    b"[3",
    b"3[4",
    b"[",
    b"\0",
    b"3\0",
    b"\xff",
    b"\xb2",
    b"\xd9\xa3",
    b"\xef\xbc\x93",
    b"*",
    b"(3)",
    b"\n3",
];

/// Decimal numbers above 2^64-1.
const OVER_CONTENTS: &[&[u8]] = &[
    b"18446744073709551616",
    b"18446744073709551617",
    b"18446744073709551619",
    b"18446744073709551620",
    b"18446744073709551626",
    b"18446744073709551700",
    b"18446744077999999999",
    b"20000000000000000000",
    b"36893488147419103232",
    b"99999999999999999999",
    b"100000000000000000000",
    b"184467440737095516150",
    b"340282366920938463463374607431768211455",
    b"340282366920938463463374607431768211456",
    b"340282366920938463463374607431768211459",
    b"1000000000000000000000000000000000000000000000000000000000000000000000000",
];

/// The pieces of names in strange order.
const PIECES: &[&[u8]] = &[
    b"(*", b"(", b")", b")(", b"()", b"*", b"[", b"]", b"[2]", b"[+3]", b"[]", b"a", b"3", b"0",
    b"+", b"-", b" ", b"\xff", b"\0", b"][",
];

#[derive(Clone, Copy)]
struct Sizes {
    of_type: u64,
    pointer_bytes: u64,
}

impl Sizes {
    fn of_pointer(self) -> u64 {
        match self.pointer_bytes {
            4 => 4,
            _ => 8,
        }
    }

    /// What a length is multiplied by.
    fn unit(self, of_pointers: bool) -> u64 {
        if of_pointers {
            self.of_pointer()
        } else {
            self.of_type
        }
    }
}

type NameMaker = fn(&mut Random, Sizes) -> Vec<u8>;
type DimensionsMaker = fn(&mut Random, u64) -> Vec<u64>;

const NAME_MAKERS: &[(u64, NameMaker)] = &[
    (8, value_name),
    (8, pointer_name),
    (50, array_name),
    (14, function_name),
    (6, cut_function_name),
    (6, damaged_name),
    (8, pieces_name),
];

const DIMENSIONS_MAKERS: &[(u64, DimensionsMaker)] = &[
    (26, small_dimensions),
    (24, limit_dimensions),
    (8, factor_dimensions),
    (8, power_dimensions),
    (2, many_dimensions),
    (14, large_dimensions),
    (14, large_dimensions_with_zero),
    (4, no_dimensions),
];

/// One input; about one in 300 is malformed.
pub fn record(random: &mut Random) -> Record {
    let malformed = random.below(300) == 0;
    let named = random.chance(75);
    let input = match (named, malformed) {
        (true, false) => name_input(random),
        (true, true) => short_input(random),
        (false, false) => number_bytes(&record_numbers(random)),
        (false, true) => malformed_record(random),
    };
    let kind = if named { NAME_KIND } else { RECORD_KIND };
    Record { kind, input }
}

fn name_input(random: &mut Random) -> Vec<u8> {
    let sizes = sizes(random);
    let mut input = number_bytes(&[sizes.of_type, sizes.pointer_bytes]);
    input.extend(random.weighted(NAME_MAKERS)(random, sizes));
    input
}

/// Too short for its two numbers.
fn short_input(random: &mut Random) -> Vec<u8> {
    let length = random.below(16);
    (0..length).map(|_| any_byte(random)).collect()
}

fn malformed_record(random: &mut Random) -> Vec<u8> {
    let mut numbers = record_numbers(random);
    if random.chance(50) {
        let wrong = [5, 6, 255, 256, 0x1_0000_0000, 0x1_0000_0001, u64::MAX];
        numbers[0] = random.pick(&wrong);
        return number_bytes(&numbers);
    }
    let mut input = number_bytes(&numbers);
    let length = random.pick(&[0, 1, 8, 16, 64, 72, 79, 81, 88, 160]);
    input.resize(length, 0);
    input
}

/// A declarator's record by hand: its numbers need not agree.
fn record_numbers(random: &mut Random) -> [u64; RECORD_NUMBERS] {
    let sizes = sizes(random);
    let kind = random.below(GREATEST_KIND + 1);
    let of_pointers = match kind {
        1 => false,
        3 => true,
        _ => random.chance(50),
    };
    [
        kind,
        place_number(random),
        place_number(random),
        place_number(random),
        rest_length(random),
        place_number(random),
        record_length(random, sizes.unit(of_pointers)),
        place_number(random),
        sizes.of_type,
        sizes.pointer_bytes,
    ]
}

fn place_number(random: &mut Random) -> u64 {
    match random.below(4) {
        0 => 0,
        1 => random.below(9),
        2 => random.pick(&EDGES),
        _ => random.number(),
    }
}

/// Some are 0 with bits cut off.
fn rest_length(random: &mut Random) -> u64 {
    match random.below(20) {
        0..=9 => 0,
        10..=12 => 1,
        13 => random.below(9),
        14 => random.pick(&[0x100, 0x1_0000, 0x1_0000_0000, 0x8000_0000_0000_0000]),
        15..=17 => random.pick(&EDGES),
        _ => random.number(),
    }
}

fn record_length(random: &mut Random, unit: u64) -> u64 {
    match random.below(8) {
        0 => random.below(9),
        1 | 2 => random.pick(&EDGES),
        3 => random.number(),
        _ => limit_length(random, unit),
    }
}

fn sizes(random: &mut Random) -> Sizes {
    Sizes {
        of_type: type_size(random),
        pointer_bytes: pointer_bytes(random),
    }
}

fn type_size(random: &mut Random) -> u64 {
    match random.below(10) {
        0 => random.below(2),
        1..=4 => random.pick(&[1, 2, 3, 4, 8, 12, 16, 64, 255, 1000]),
        5 => random.pick(&[65_534, 65_535, 65_536]),
        6 | 7 => random.pick(&EDGES),
        8 => random.pick(&GREATEST_FACTORS),
        _ => random.number() >> random.below(64),
    }
}

fn pointer_bytes(random: &mut Random) -> u64 {
    match random.below(10) {
        0..=3 => 4,
        4..=6 => 8,
        7 | 8 => random.pick(&STRANGE_POINTER_BYTES),
        _ => random.number(),
    }
}

/// A number whose product with the unit is close to 2^64, on either side.
fn limit_length(random: &mut Random, unit: u64) -> u64 {
    let most = u64::MAX / unit.max(1);
    let beside = random.pick(&[-2_i64, -1, 0, 0, 1, 1, 2]);
    most.wrapping_add(beside as u64)
}

fn value_name(random: &mut Random, _: Sizes) -> Vec<u8> {
    bare_name(random)
}

fn pointer_name(random: &mut Random, _: Sizes) -> Vec<u8> {
    let mut name = asterisks(random);
    name.extend(bare_name(random));
    name
}

fn array_name(random: &mut Random, sizes: Sizes) -> Vec<u8> {
    let of_pointers = random.chance(40);
    let mut name = Vec::new();
    if of_pointers {
        name.extend(asterisks(random));
    }
    name.extend(bare_name(random));
    let dimensions = random.weighted(DIMENSIONS_MAKERS)(random, sizes.unit(of_pointers));
    name.extend(groups(random, &dimensions));
    if dimensions.is_empty() || random.chance(45) {
        name.extend(random.pick(ARRAY_TAILS));
    }
    name
}

fn function_name(random: &mut Random, _: Sizes) -> Vec<u8> {
    let mut name = whole_function(random);
    if random.chance(50) {
        name.extend(random.pick(FUNCTION_TAILS));
    }
    name
}

/// A function pointer with its end missing, or one byte anywhere in it.
fn cut_function_name(random: &mut Random, _: Sizes) -> Vec<u8> {
    let mut name = whole_function(random);
    let at = random.below(name.len() as u64) as usize;
    if random.chance(50) {
        name.truncate(at);
    } else {
        name.remove(at);
    }
    name
}

fn damaged_name(random: &mut Random, sizes: Sizes) -> Vec<u8> {
    let maker = random.pick(&[value_name, pointer_name, array_name, function_name]);
    let mut name = maker(random, sizes);
    for _ in 0..=random.below(3) {
        damage(random, &mut name);
    }
    name
}

fn pieces_name(random: &mut Random, _: Sizes) -> Vec<u8> {
    let count = random.below(9);
    (0..count)
        .flat_map(|_| random.pick(PIECES))
        .copied()
        .collect()
}

fn damage(random: &mut Random, name: &mut Vec<u8>) {
    let at = random.below(name.len() as u64) as usize;
    match random.below(4) {
        _ if name.is_empty() => name.push(any_byte(random)),
        0 => name.truncate(at),
        1 => name[at] = any_byte(random),
        2 => insert(name, at, random.pick(PIECES)),
        _ => {
            name.remove(at);
        }
    }
}

fn insert(name: &mut Vec<u8>, at: usize, piece: &[u8]) {
    let end = name.split_off(at);
    name.extend(piece);
    name.extend(end);
}

fn bare_name(random: &mut Random) -> Vec<u8> {
    if random.chance(90) {
        return random.pick(BARE_NAMES).to_vec();
    }
    let length = random.below(12);
    (0..length).map(|_| any_byte(random)).collect()
}

/// At least one; seldom about as many as a byte can count.
fn asterisks(random: &mut Random) -> Vec<u8> {
    let count = match random.below(50) {
        0 => 254 + random.below(5),
        1..=9 => 1 + random.below(20),
        _ => 1 + random.below(3),
    };
    vec![b'*'; count as usize]
}

fn whole_function(random: &mut Random) -> Vec<u8> {
    let parts: [&[u8]; 5] = [
        b"(*",
        random.pick(FUNCTION_NAMES),
        b")(",
        random.pick(ARGUMENTS),
        b")",
    ];
    parts.concat()
}

/// Seldom one of the groups has a content that is refused.
fn groups(random: &mut Random, dimensions: &[u64]) -> Vec<u8> {
    let mut contents: Vec<Vec<u8>> = Vec::new();
    for dimension in dimensions {
        contents.push(content(random, *dimension));
    }
    if random.chance(12) {
        let at = random.below(contents.len() as u64 + 1) as usize;
        contents.insert(at, refused_content(random));
    }
    contents.iter().flat_map(|content| group(content)).collect()
}

fn group(content: &[u8]) -> Vec<u8> {
    [b"[", content, b"]"].concat()
}

fn content(random: &mut Random, dimension: u64) -> Vec<u8> {
    with_sign_and_zeros(random, dimension.to_string().as_bytes())
}

fn refused_content(random: &mut Random) -> Vec<u8> {
    if random.chance(60) {
        return random.pick(BAD_CONTENTS).to_vec();
    }
    let over = random.pick(OVER_CONTENTS);
    with_sign_and_zeros(random, over)
}

fn with_sign_and_zeros(random: &mut Random, digits: &[u8]) -> Vec<u8> {
    let sign: &[u8] = if random.chance(15) { b"+" } else { b"" };
    let zeros = match random.below(20) {
        0 => random.below(60),
        1 | 2 => 1 + random.below(3),
        _ => 0,
    };
    [sign, &vec![b'0'; zeros as usize], digits].concat()
}

fn no_dimensions(_: &mut Random, _: u64) -> Vec<u64> {
    Vec::new()
}

fn small_dimensions(random: &mut Random, _: u64) -> Vec<u64> {
    let count = 1 + random.below(4);
    (0..count).map(|_| random.below(12)).collect()
}

/// The width is close to 2^64.
fn limit_dimensions(random: &mut Random, unit: u64) -> Vec<u64> {
    let length = limit_length(random, unit);
    match random.below(4) {
        0 => {
            let small = 2 + random.below(9);
            vec![small, (length / small).wrapping_add(random.below(2))]
        }
        1 => shuffled(random, vec![1, length, 1]),
        _ => vec![length],
    }
}

/// The product is 2^64-1 or a part of it.
fn factor_dimensions(random: &mut Random, _: u64) -> Vec<u64> {
    let mut dimensions = shuffled(random, GREATEST_FACTORS.to_vec());
    if random.chance(60) {
        dimensions.truncate(1 + random.below(7) as usize);
    } else if random.chance(40) {
        dimensions.push(random.pick(&[1, 2]));
    }
    dimensions
}

/// The product is a power of two from 2^58 to 2^66.
fn power_dimensions(random: &mut Random, _: u64) -> Vec<u64> {
    let mut left = 58 + random.below(9);
    let mut dimensions = Vec::new();
    while left > 0 {
        let exponent = 1 + random.below(left.min(63));
        dimensions.push(1 << exponent);
        left -= exponent;
    }
    dimensions
}

fn many_dimensions(random: &mut Random, _: u64) -> Vec<u64> {
    if random.chance(70) {
        return vec![2; 58 + random.below(9) as usize];
    }
    vec![1; 254 + random.below(5) as usize]
}

fn large_dimensions(random: &mut Random, _: u64) -> Vec<u64> {
    let count = 1 + random.below(3);
    (0..count).map(|_| random.pick(&EDGES[5..])).collect()
}

fn large_dimensions_with_zero(random: &mut Random, unit: u64) -> Vec<u64> {
    let mut dimensions = large_dimensions(random, unit);
    dimensions.push(random.pick(&EDGES[9..]));
    dimensions.push(0);
    shuffled(random, dimensions)
}

fn shuffled(random: &mut Random, mut numbers: Vec<u64>) -> Vec<u64> {
    for at in 1..numbers.len() {
        numbers.swap(at, random.below(at as u64 + 1) as usize);
    }
    numbers
}

fn any_byte(random: &mut Random) -> u8 {
    random.number() as u8
}

fn number_bytes(numbers: &[u64]) -> Vec<u8> {
    numbers
        .iter()
        .flat_map(|number| number.to_le_bytes().to_vec())
        .collect()
}
