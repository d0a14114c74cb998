//! Declarators: all short ones over the bytes that mean something, and longer ones around the edges.

use crate::batch::Batch;
use crate::random::Random;
use std::io::{self, Write};

const ALPHABET: &[u8] = b"()*[]+-019a";

/// Of the numbers that a dimension may be, those at the edges.
const NUMBERS: &[&str] = &[
    "0", "1", "2", "3", "00", "007", "+3", "+0", "65535", "65536", "4294967295", "4294967296", "4294967297",
    "9223372036854775807", "9223372036854775808", "18446744073709551614", "18446744073709551615",
    "+18446744073709551615", "000000000000000000000018446744073709551615",
];

/// No dimensions: each is refusal 9.
const NO_NUMBERS: &[&str] = &[
    "", "+", "-", "-0", "-1", "++1", "+-1", "1+", " 1", "1 ", "1a", "a", "0x1", "1_0", "1.0", "[", "[1", "é", "\u{663}", "\0",
    "18446744073709551616", "18446744073709551625", "20000000000000000000", "99999999999999999999999999999999999999999",
];

const NAMES: &[&str] = &[
    "", "a", "x", "id", "next", "_pad0", "two words", "a]b", "a)b", "a(b", "a*", "3", "+", "é", "日本", "\u{fffd}", "\u{7f}\u{1}", "\0",
    "a\0b", "(", ")", "]",
];

/// The factors of 2^64-1.
const FACTORS: &[u64] = &[3, 5, 17, 257, 641, 65537, 6700417];

pub fn write<W: Write>(random: &mut Random, count: usize, batch: &mut Batch<W>) -> io::Result<()> {
    batch.allow(count);
    for text in ["x", "(*f)", "(*f)()", "a[-0]", "*m[2][3]", "[2][9223372036854775808]", "[2][9223372036854775808][0]"].iter() {
        batch.put(b'D', text.as_bytes())?;
    }
    all_short(longest(count), batch)?;
    while !batch.full() {
        let mut text = any(random);
        if random.once_in(12) {
            spoil(random, &mut text);
        }
        put(&text, batch)?;
    }
    Ok(())
}

/// The greatest length whose declarators, with all shorter ones, take up at most nine tenths of the share.
fn longest(count: usize) -> usize {
    let (mut length, mut total, mut last) = (0, 1, 1);
    while (total + last * ALPHABET.len()) * 10 <= count * 9 {
        last *= ALPHABET.len();
        total += last;
        length += 1;
    }
    length
}

fn all_short<W: Write>(longest: usize, batch: &mut Batch<W>) -> io::Result<()> {
    for length in 0..=longest {
        let words = ALPHABET.len().pow(length as u32);
        for number in 0..words {
            batch.put(b'D', &word(number, length))?;
        }
    }
    Ok(())
}

fn word(number: usize, length: usize) -> Vec<u8> {
    let digit = |place: u32| ALPHABET[number / ALPHABET.len().pow(place) % ALPHABET.len()];
    (0..length as u32).rev().map(digit).collect()
}

/// A longer declarator; also taken for names in catalogues.
pub fn any(random: &mut Random) -> Vec<u8> {
    match random.below(8) {
        0 => soup(random),
        1 => function(random),
        2 => near_limit(random).into_bytes(),
        3 => mutated(random),
        4 if random.once_in(8) => long(random).into_bytes(),
        _ => regular(random).into_bytes(),
    }
}

/// Stars, a name and groups of which most are numbers.
fn regular(random: &mut Random) -> String {
    let mut text = "*".repeat(random.below(8).saturating_sub(3));
    text.push_str(random.pick(NAMES));
    for _ in 0..random.below(5) {
        let inner = match random.below(12) {
            0 => random.pick(NO_NUMBERS).to_string(),
            1 | 2 => random.pick(NUMBERS).to_string(),
            3 => random.of_bits(64).to_string(),
            _ => random.of_bits(7).to_string(),
        };
        text.push_str(&format!("[{}]", inner));
    }
    if random.once_in(4) {
        text.push_str(random.pick(&["[", "[3", "]", "a", " ", "(", "[[", "*", ")("]));
    }
    text
}

/// More of everything: up to 299 stars, 299 letters and 32 groups.
fn long(random: &mut Random) -> String {
    let mut text = "*".repeat(random.below(300));
    text.push_str(&"n".repeat(random.below(300)));
    for _ in 0..random.below(33) {
        text.push_str(&format!("[{}]", random.below(6)));
    }
    text
}

/// Dimensions whose product is 2^64-1, 2^64, or near it, in any order, some with a 0 or a 1 among them.
fn near_limit(random: &mut Random) -> String {
    let mut numbers = match random.below(3) {
        0 => limit_in_parts(random),
        1 => power_in_parts(random, 64),
        _ => {
            let bits = 60 + random.below(6);
            power_in_parts(random, bits)
        }
    };
    if random.once_in(3) {
        let at = random.below(numbers.len() + 1);
        let extra = random.below(3) as u64;
        numbers.insert(at, extra);
    }
    if random.once_in(4) {
        let at = random.below(numbers.len());
        numbers[at] = numbers[at].wrapping_sub(1);
    }
    let mut text = random.pick(&["", "a", "*a", "**", "mat"]).to_string();
    for number in numbers {
        text.push_str(&format!("[{}]", number));
    }
    text
}

/// Factors of 2^64-1, grouped at random.
fn limit_in_parts(random: &mut Random) -> Vec<u64> {
    let mut parts = vec![1; 1 + random.below(5)];
    for factor in FACTORS {
        let at = random.below(parts.len());
        parts[at] *= factor;
    }
    parts
}

/// Powers of two whose exponents add up to `bits`, with at most 63 in each.
fn power_in_parts(random: &mut Random, mut bits: usize) -> Vec<u64> {
    let mut parts = Vec::new();
    while bits > 0 {
        let taken = 1 + random.below(bits.min(63));
        parts.push(1 << taken);
        bits -= taken;
    }
    parts
}

fn function(random: &mut Random) -> Vec<u8> {
    let open = random.pick(&["(*", "(*", "(*", "(", "( *", "*(*", "(**"]);
    let middle = random.pick(&[")(", ")(", ")(", ") (", ")", ")()(", "))("]);
    let close = random.pick(&[")", ")", "", "))"]);
    let inner = random.pick(&["", "void", "int a[3]", "*", "(", "é", "[", "a, b"]);
    let rest = random.pick(&["", "", "", "[3]", "[", "a", ")", "(", " "]);
    let name = random.pick(NAMES);
    [open, name, middle, inner, close, rest].concat().into_bytes()
}

fn soup(random: &mut Random) -> Vec<u8> {
    let mut text = Vec::new();
    for _ in 0..1 + random.below(12) {
        match random.below(10) {
            0 => text.extend_from_slice(random.pick(NUMBERS).as_bytes()),
            1 => text.extend_from_slice(random.pick(NAMES).as_bytes()),
            _ => text.push(ALPHABET[random.below(ALPHABET.len())]),
        }
    }
    text
}

/// A regular one with one byte written over, dropped or put in.
fn mutated(random: &mut Random) -> Vec<u8> {
    let mut text = regular(random).into_bytes();
    let byte = random.byte() & 127;
    let at = random.below(text.len() + 1);
    match random.below(3) {
        0 if at < text.len() => text[at] = byte,
        1 if at < text.len() => drop(text.remove(at)),
        _ => text.insert(at, byte),
    }
    text
}

/// Puts in one to three bytes above 127.
fn spoil(random: &mut Random, text: &mut Vec<u8>) {
    for _ in 0..1 + random.below(3) {
        let at = random.below(text.len() + 1);
        text.insert(at, 128 | random.byte());
    }
}

/// The declarator; and, where it is not UTF-8, after it the same one with an `a` for each byte above 127. No such byte means anything in a
/// declarator, so that both have the same answer: the comparison holds the other side to that, since the Rust cannot be asked.
pub fn put<W: Write>(text: &[u8], batch: &mut Batch<W>) -> io::Result<()> {
    batch.put(b'D', text)?;
    if std::str::from_utf8(text).is_ok() {
        return Ok(());
    }
    let plain: Vec<u8> = text.iter().map(|&byte| if byte > 127 { b'a' } else { byte }).collect();
    batch.put(b'D', &plain)
}
