//! The differences that are listed in docs/DIFFERENCES.md, each recognised by what the input is and what both sides say of it.

use crate::records::Input;

pub const PRODUCT: &str = "a product over 2^64-1: panic, here refused 10";
pub const PRODUCT_ZERO: &str = "such a product with a 0 after it: panic, here length 0";
pub const NOT_UTF8: &str = "a declarator that is not UTF-8: not asked, here as with an `a` for each byte above 127";
pub const NOT_UTF8_ALONE: &str = "a declarator that is not UTF-8: not asked, and no such declarator follows";
pub const SHORT: &str = "a value of a short slice: panic, here refused 12";
pub const LOSSY: &str = "a name that is not UTF-8: replaced, here its bytes";
pub const MEMORY: &str = "an input that is too long to ask: any answer";
pub const SHORT_MARK: &str = "a mark with too few bytes left: the Rust's kind is Tag as for a wrong one, here 16";
pub const NO_ZERO: &str = "a string without its zero: the Rust's error stands at the end, here at the string's first byte";

/// The rules by which two answers may stand beside each other, one for each place where they differ; nothing if some place has none. A
/// `NomError` of the Rust may also stand, by no rule, beside what it comes to here. That a declarator is not UTF-8 is not judged here: it
/// takes the next input too.
pub fn listed(input: &Input, rust: &[String], other: &[String]) -> Option<Vec<&'static str>> {
    if single(rust) == "memory" {
        return Some(vec![MEMORY]);
    }
    if names_nom(rust) {
        return match input.kind {
            b'f' => function(&input.bytes, single(rust), single(other)),
            b'A' | b'a' => malformed(input.bytes.get(8..)?, single(rust), single(other)),
            _ => malformed(&input.bytes, single(rust), single(other)),
        };
    }
    match input.kind {
        b'D' if single(rust) == "panic" => product(&input.bytes, single(other)).map(|rule| vec![rule]),
        b'P' => line_by_line(rust, other, |rust, other| short(input.bytes.len(), rust, other)),
        b'C' | b'c' => line_by_line(rust, other, lossy),
        _ => None,
    }
}

/// Whether the Rust's answer is a `NomError`, which no other side says so.
pub fn names_nom(rust: &[String]) -> bool {
    rust.first().map_or(false, |line| line.starts_with("refused nom"))
}

/// The only line, or an empty one.
fn single(lines: &[String]) -> &str {
    match lines {
        [line] => line,
        _ => "",
    }
}

fn line_by_line(
    rust: &[String],
    other: &[String],
    rule: impl Fn(&str, &str) -> Option<&'static str>,
) -> Option<Vec<&'static str>> {
    if rust.len() != other.len() {
        return None;
    }
    let unequal = rust.iter().zip(other).filter(|(rust, other)| rust != other);
    unequal.map(|(rust, other)| rule(rust, other)).collect()
}

fn short(length: usize, rust: &str, other: &str) -> Option<&'static str> {
    let place = rust.strip_suffix(" panic")?;
    let kind = place.split(' ').next()?;
    if length < width(kind)? && other.strip_suffix(" refused 12") == Some(place) {
        return Some(SHORT);
    }
    None
}

pub fn width(kind: &str) -> Option<usize> {
    match kind {
        "u8" | "char" | "i8" => Some(1),
        "u16" | "i16" => Some(2),
        "u32" | "i32" | "f32" => Some(4),
        "u64" | "i64" | "f64" => Some(8),
        _ => None,
    }
}

/// `.. lossy HEX` beside `.. LENGTH HEX`: the second one's bytes, made a text as Rust does it, are the first one's.
fn lossy(rust: &str, other: &str) -> Option<&'static str> {
    let at = rust.find(" lossy ")?;
    let (place, text) = (&rust[..at], &rust[at + " lossy ".len()..]);
    let mut words = other.strip_prefix(place)?.strip_prefix(' ')?.splitn(2, ' ');
    let length: usize = words.next()?.parse().ok()?;
    let bytes = from_hex(words.next()?)?;
    if bytes.len() == length && String::from_utf8_lossy(&bytes).as_bytes() == &from_hex(text)?[..] {
        return Some(LOSSY);
    }
    None
}

fn from_hex(text: &str) -> Option<Vec<u8>> {
    let digit = |byte: u8| (byte as char).to_digit(16).map(|digit| digit as u8);
    let pair = |pair: &[u8]| match pair {
        [high, low] => Some(digit(*high)? * 16 + digit(*low)?),
        _ => None,
    };
    text.as_bytes().chunks(2).map(pair).collect()
}

/// A declarator on which the Rust panics because the product, taken from the left, leaves 64 bits. The exact product is 0 if any
/// dimension is, and too large otherwise, since no dimension after the overflow makes it smaller.
fn product(bytes: &[u8], other: &str) -> Option<&'static str> {
    let text = std::str::from_utf8(bytes).ok()?;
    let stars = text.len() - text.trim_start_matches('*').len();
    let name_end = text.find('[')?;
    let (dimensions, rest_at) = groups(text, name_end)?;
    let product = dimensions.iter().try_fold(1_u64, |product, number| product.checked_mul(*number));
    if product.is_some() {
        return None;
    }
    if !dimensions.contains(&0) {
        return if other == "refused 10" { Some(PRODUCT) } else { None };
    }
    let kind = if stars == 0 { "array" } else { "pointer-array" };
    let mut expected = format!("{} {} {} {}", kind, stars, name_end - stars, rest_at);
    if stars > 0 {
        expected.push_str(&format!(" {}", stars));
    }
    expected.push_str(&format!(" 0 {}", dimensions.len()));
    for number in &dimensions {
        expected.push_str(&format!(" {}", number));
    }
    if other == expected {
        Some(PRODUCT_ZERO)
    } else {
        None
    }
}

/// The complete groups from a place on, and the place after them.
fn groups(text: &str, mut at: usize) -> Option<(Vec<u64>, usize)> {
    let mut numbers = Vec::new();
    while text[at..].starts_with('[') {
        let inner = match text[at..].find(']') {
            Some(close) => &text[at + 1..at + close],
            None => break,
        };
        numbers.push(inner.parse().ok()?);
        at += inner.len() + 2;
    }
    Some((numbers, at))
}

/// What the Rust tells of a `NomError`: nom's kind of the read that failed, its offset, how many bytes were left for it, and the reader
/// around it with the place where that one began.
struct NomError<'a> {
    kind: &'a str,
    at: usize,
    left: usize,
    around: Option<(&'a str, usize)>,
}

impl<'a> NomError<'a> {
    fn told(line: &'a str) -> Option<NomError<'a>> {
        let words: Vec<&str> = line.strip_prefix("refused nom ")?.split(' ').collect();
        let number = |at: usize| words.get(at)?.parse().ok();
        let around = match words.get(3) {
            Some(reader) => Some((*reader, number(4)?)),
            None => None,
        };
        Some(NomError { kind: words[0], at: number(1)?, left: number(2)?, around })
    }

    /// The length of a mark: it is one of two bytes in a header, which nom tries in turn, and 4 bytes in a catalogue.
    fn mark(&self) -> usize {
        match self.around {
            Some(("Alt", _)) => 1,
            _ => 4,
        }
    }
}

/// A `NomError` of the Rust: here must stand 16 where bytes are missing or 17 where they differ, with the offset of the read that failed
/// in the Rust. nom says `Eof` where a number or a run is cut, and `Tag` of a mark that is wrong, of one that is cut, and of a string's
/// zero, which it misses where the string, and with it the payload, has ended.
fn malformed(bytes: &[u8], rust: &str, other: &str) -> Option<Vec<&'static str>> {
    let error = NomError::told(rust)?;
    let (number, at, rule) = match (error.kind, error.around) {
        ("Eof", _) => (16, error.at, None),
        ("Tag", Some(("Count", list))) if error.left == 0 => (16, last_string(bytes, list, error.at)?, Some(NO_ZERO)),
        ("Tag", Some(("Count", _))) => return None,
        ("Tag", _) if error.left < error.mark() => (16, error.at, Some(SHORT_MARK)),
        ("Tag", _) => (17, error.at, None),
        _ => return None,
    };
    if other == format!("refused {} {}", number, at) {
        Some(rule.into_iter().collect())
    } else {
        None
    }
}

/// Where the last string starts of a list that begins after the mark NAME or TYPE and a count and ends without a zero.
fn last_string(bytes: &[u8], list: usize, end: usize) -> Option<usize> {
    let mark = bytes.get(list.checked_sub(8)?..list - 4)?;
    if mark != b"NAME" && mark != b"TYPE" {
        return None;
    }
    let strings = bytes.get(list..end)?;
    let zero = strings.iter().rposition(|&byte| byte == 0);
    Some(list + zero.map_or(0, |zero| zero + 1))
}

/// A function pointer that the Rust refuses. Its error tells no place: which read fails, and where, is worked out from the bytes, and has
/// to have the Rust's kind.
fn function(bytes: &[u8], rust: &str, other: &str) -> Option<Vec<&'static str>> {
    let (kind, number, at) = function_fault(bytes)?;
    if rust != format!("refused nom {}", kind) || other != format!("refused {} {}", number, at) {
        return None;
    }
    Some(if kind == "Tag" && number == 16 { vec![SHORT_MARK] } else { Vec::new() })
}

/// nom's kind, the number and the offset of the first read that fails: twice a mark and the bytes to a `)`, which are cut where none comes.
fn function_fault(bytes: &[u8]) -> Option<(&'static str, u32, usize)> {
    let mut at = 0;
    for mark in [&b"(*"[..], &b"("[..]].iter() {
        if !bytes[at..].starts_with(mark) {
            return Some(("Tag", if bytes.len() - at < mark.len() { 16 } else { 17 }, at));
        }
        at += mark.len();
        match bytes[at..].iter().position(|&byte| byte == b')') {
            Some(run) => at += run + 1,
            None => return Some(("TakeUntil", 16, at)),
        }
    }
    None
}
