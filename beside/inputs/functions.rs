//! Function pointers by themselves, all UTF-8: every short word over the bytes that mean something in one, alone and after the first mark;
//! then whole ones, every beginning of each, and each with one character written over.

use crate::batch::Batch;
use crate::random::Random;
use std::io::{self, Write};

const ALPHABET: &[u8] = b"(*)f[";

/// The longest of the short words.
const SHORT: u32 = 4;

/// None has a `)`, which would end it.
const NAMES: &[&str] = &["f", "", "callback", "*f", "[3]", "a b", "(", "(*", "((*", "é", "日本", "\0", "f[2]"];
const ARGUMENTS: &[&str] = &["", "", "void", "int a[3]", "void *, int", "(", "(*", "(*g", "*", "é", "\0"];
const RESTS: &[&str] = &["", "", "", "[3]", ")", "))", "(", "()", "(*g)()", "a", " ", "é"];

pub fn write<W: Write>(random: &mut Random, count: usize, batch: &mut Batch<W>) -> io::Result<()> {
    batch.allow(count);
    for start in ["", "(*"].iter() {
        all_short(start, batch)?;
    }
    while !batch.full() {
        let text = whole(random);
        beginnings(&text, batch)?;
        written_over(random, &text, batch)?;
        for _ in 0..8 {
            batch.put(b'f', soup(random).as_bytes())?;
        }
    }
    Ok(())
}

fn all_short<W: Write>(start: &str, batch: &mut Batch<W>) -> io::Result<()> {
    for length in 0..=SHORT {
        for number in 0..ALPHABET.len().pow(length) {
            let mut text = start.as_bytes().to_vec();
            text.extend((0..length).map(|place| ALPHABET[number / ALPHABET.len().pow(place) % ALPHABET.len()]));
            batch.put(b'f', &text)?;
        }
    }
    Ok(())
}

/// Once in a while with a name and arguments that are long, so that a place has several digits.
fn whole(random: &mut Random) -> String {
    let times = if random.once_in(40) { 1 + random.below(40) } else { 1 };
    let name = random.pick(NAMES).repeat(times);
    let arguments = random.pick(ARGUMENTS).repeat(times);
    format!("(*{})({}){}", name, arguments, random.pick(RESTS))
}

/// The text cut before each of its characters, and whole.
fn beginnings<W: Write>(text: &str, batch: &mut Batch<W>) -> io::Result<()> {
    for (at, _) in text.char_indices() {
        batch.put(b'f', text[..at].as_bytes())?;
    }
    batch.put(b'f', text.as_bytes())
}

fn written_over<W: Write>(random: &mut Random, text: &str, batch: &mut Batch<W>) -> io::Result<()> {
    for (at, character) in text.char_indices() {
        let after = &text[at + character.len_utf8()..];
        batch.put(b'f', [&text[..at], &letter(random).to_string(), after].concat().as_bytes())?;
    }
    Ok(())
}

/// One that means something mostly, and any of one byte at times.
fn letter(random: &mut Random) -> char {
    if random.once_in(4) {
        return char::from(random.byte() & 127);
    }
    char::from(ALPHABET[random.below(ALPHABET.len())])
}

/// Letters, of which most begin as a function pointer does.
fn soup(random: &mut Random) -> String {
    let start = random.pick(&["(*", "(*", "(*f)", "(*f)(", ""]);
    let length = random.below(12);
    let letters: String = (0..length).map(|_| letter(random)).collect();
    [start, &letters].concat()
}
