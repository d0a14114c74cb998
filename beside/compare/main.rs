//! Compares the answers of two sides to one batch.
//!
//! usage: compare BATCH RUST OTHER [--no-minimums] [--model]
//!
//! RUST has the oracle's answers, or with `--model` those of a model, and OTHER those of the side that is compared, in the same form; but
//! where the oracle says `refused nom ..`, OTHER must say `refused 16 OFFSET` or `refused 17 OFFSET` as the rules have it. From a model no
//! difference is listed. Prints how many inputs gave each answer and how often each listed difference occurred. Exit 1: a difference that
//! is not listed (the first five are printed), answers that end early or late, or a class with too few inputs, which `--no-minimums`
//! allows. Exit 2: a file that cannot be read.

mod classes;
mod records;
mod rules;

use classes::Classes;
use records::{Answers, Batch, Input};
use std::collections::BTreeMap;
use std::io;

/// How many differences are printed, and how many bytes of an input.
const SHOWN: u64 = 5;
const SHOWN_BYTES: usize = 16384;

#[derive(Default)]
struct Comparison {
    inputs: u64,
    classes: Classes,
    listed: BTreeMap<&'static str, u64>,
    differing: u64,
    /// Who answers for OTHER to be held against.
    side: &'static str,
    /// The last input, if it was a declarator that is not UTF-8, with the other side's answer to it.
    waiting: Option<(Input, Vec<String>)>,
}

fn main() {
    let mut paths: Vec<String> = std::env::args().skip(1).collect();
    let has = |option: &str| paths.iter().any(|argument| argument == option);
    let (minimums, model) = (!has("--no-minimums"), has("--model"));
    paths.retain(|argument| argument != "--no-minimums" && argument != "--model");
    let outcome = match &paths[..] {
        [batch, rust, other] => run(batch, rust, other, minimums, if model { "model" } else { "Rust" }),
        _ => Err(io::Error::new(io::ErrorKind::InvalidInput, "usage: compare BATCH RUST OTHER [--no-minimums] [--model]")),
    };
    match outcome {
        Ok(true) => {}
        Ok(false) => std::process::exit(1),
        Err(error) => {
            eprintln!("compare: {}", error);
            std::process::exit(2)
        }
    }
}

fn run(batch: &str, rust: &str, other: &str, minimums: bool, side: &'static str) -> io::Result<bool> {
    let mut comparison = Comparison { side, ..Comparison::default() };
    let whole = comparison.read(Batch::open(batch)?, Answers::open(rust)?, Answers::open(other)?)?;
    comparison.print();
    let thin = if minimums { comparison.classes.thin(side == "model") } else { Vec::new() };
    for class in &thin {
        println!("thin: {}", class);
    }
    Ok(whole && comparison.differing == 0 && thin.is_empty())
}

impl Comparison {
    /// False if either side has not exactly one answer for each input.
    fn read(&mut self, mut batch: Batch, mut rust: Answers, mut other: Answers) -> io::Result<bool> {
        while let Some(input) = batch.next()? {
            match (rust.next()?, other.next()?) {
                (Some(rust), Some(other)) => self.add(input, rust, other),
                (rust, _) => {
                    let side = if rust.is_none() { self.side } else { "other side" };
                    println!("the answers of the {} end after {} inputs", side, self.inputs);
                    return Ok(false);
                }
            }
        }
        self.settle(None);
        let ended = rust.ended()? && other.ended()?;
        if !ended {
            println!("there are answers after the last input");
        }
        Ok(ended)
    }

    fn add(&mut self, input: Input, rust: Vec<String>, other: Vec<String>) {
        self.inputs += 1;
        self.classes.add(&input, &rust, &other);
        self.settle(Some((&input, &other)));
        let asked = input.kind != b'D' || rust != ["not-utf8"] || std::str::from_utf8(&input.bytes).is_ok();
        if !asked {
            self.waiting = Some((input, other));
        } else if self.side == "model" && rust != other {
            self.differ(&input, &rust, &other);
        } else if self.side != "model" && (rust != other || rules::names_nom(&rust) || unsound(&rust)) {
            self.judge(&input, &rust, &other);
        }
    }

    fn judge(&mut self, input: &Input, rust: &[String], other: &[String]) {
        match rules::listed(input, rust, other) {
            Some(rules) => rules.into_iter().for_each(|rule| self.count(rule)),
            None => self.differ(input, rust, other),
        }
    }

    /// Ends the wait of a declarator that is not UTF-8: the next input shows what the other side has to say of it.
    fn settle(&mut self, next: Option<(&Input, &Vec<String>)>) {
        let (input, answer) = match self.waiting.take() {
            Some(waiting) => waiting,
            None => return,
        };
        match next {
            Some((next, other)) if next.kind == b'D' && next.bytes == plain(&input.bytes) => {
                if *other == answer {
                    self.count(rules::NOT_UTF8);
                } else {
                    let mut held_to = vec!["not-utf8; the other side says of the next input:".to_string()];
                    held_to.extend_from_slice(other);
                    self.differ(&input, &held_to, &answer);
                }
            }
            _ => self.count(rules::NOT_UTF8_ALONE),
        }
    }

    fn count(&mut self, rule: &'static str) {
        *self.listed.entry(rule).or_insert(0) += 1;
    }

    fn differ(&mut self, input: &Input, rust: &[String], other: &[String]) {
        self.differing += 1;
        if self.differing > SHOWN {
            return;
        }
        println!("input {} differs: {} {}", self.inputs, input.kind as char, hex(&input.bytes));
        rust.iter().for_each(|line| println!("  {:5}  {}", self.side, line));
        other.iter().for_each(|line| println!("  other  {}", line));
    }

    fn print(&self) {
        println!("inputs: {}", self.inputs);
        self.classes.print();
        println!("listed differences:");
        for (rule, count) in &self.listed {
            println!("  {:9}  {}", count, rule);
        }
        println!("other differences: {}", self.differing);
    }
}

/// An answer that is a fault even where both sides give it.
fn unsound(rust: &[String]) -> bool {
    match rust {
        [line] => line == "oracle-inconsistent" || line.starts_with("bad-") || line == "panic",
        _ => rust.is_empty(),
    }
}

fn plain(bytes: &[u8]) -> Vec<u8> {
    bytes.iter().map(|&byte| if byte > 127 { b'a' } else { byte }).collect()
}

fn hex(bytes: &[u8]) -> String {
    let shown = &bytes[..bytes.len().min(SHOWN_BYTES)];
    let mut text: String = shown.iter().map(|byte| format!("{:02x}", byte)).collect();
    if shown.len() < bytes.len() {
        text.push_str(&format!(".. ({} bytes)", bytes.len()));
    }
    text
}
