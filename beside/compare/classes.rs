//! Counting inputs by kind and by the answer that ours is held against, and the least that a full run must have of each class. A
//! `NomError` of the Rust is counted as what it is here, 16 or 17.

use crate::records::Input;
use crate::rules;
use std::collections::BTreeMap;

#[derive(Default)]
pub struct Classes {
    kinds: BTreeMap<char, u64>,
    answers: BTreeMap<String, u64>,
}

const PRIMITIVES: [&str; 11] = ["u8", "char", "i8", "u16", "i16", "u32", "i32", "u64", "i64", "f32", "f64"];

impl Classes {
    pub fn add(&mut self, input: &Input, rust: &[String], other: &[String]) {
        *self.kinds.entry(input.kind as char).or_insert(0) += 1;
        let answer = if rules::names_nom(rust) { other } else { rust };
        let first = answer.first().map_or("", |line| &line[..]);
        match input.kind {
            b'F' => self.file(first, answer),
            b'P' => answer.iter().for_each(|line| self.value(line)),
            b'C' | b'c' => self.catalogue(input.kind, first, answer),
            b'I' => self.index(answer),
            b'W' => self.name(answer),
            b'O' => self.writing(&input.bytes, first),
            kind => self.count(kind, head(first)),
        }
    }

    fn count(&mut self, kind: u8, class: &str) {
        *self.answers.entry(format!("{} {}", kind as char, class)).or_insert(0) += 1;
    }

    fn file(&mut self, first: &str, rust: &[String]) {
        let words: Vec<&str> = first.split(' ').collect();
        if words[0] != "file" {
            return self.count(b'F', head(first));
        }
        self.count(b'F', &words[..4].join(" "));
        if rust.iter().filter(|line| line.starts_with("row 444e4131 ")).count() > 1 {
            self.count(b'F', "with several DNA1");
        }
    }

    fn value(&mut self, line: &str) {
        let words: Vec<&str> = line.split(' ').collect();
        let outcome = if words.last() == Some(&"panic") { "panic" } else { "value" };
        self.count(b'P', &format!("{} {} {}", words[0], words.get(1).unwrap_or(&""), outcome));
    }

    fn catalogue(&mut self, kind: u8, first: &str, rust: &[String]) {
        self.count(kind, head(first));
        if rust.iter().any(|line| line.contains(" lossy ")) {
            self.count(kind, "dna with lossy names");
        }
    }

    /// What building says, and what the search says of the tables that came in.
    fn index(&mut self, model: &[String]) {
        self.count(b'I', head(model.first().map_or("", |line| &line[..])));
        if let Some(line) = model.get(3) {
            self.count(b'I', &format!("search {}", head(line)));
        }
    }

    /// What a name says, and what its width is.
    fn name(&mut self, model: &[String]) {
        self.count(b'W', head(model.first().map_or("", |line| &line[..])));
        if let Some(line) = model.get(1) {
            self.count(b'W', &format!("then {}", head(line)));
        }
    }

    /// What writing says: of a file that is written its form, which the input tells, and of 13 and 19, which have two causes each, also
    /// the cause.
    fn writing(&mut self, input: &[u8], first: &str) {
        let words: Vec<&str> = first.split(' ').collect();
        let number = |place: usize| first_number(input, place);
        match words[..] {
            ["written", length] => {
                self.count(b'O', &format!("written {}", form(number(0), number(1), number(2))));
                if length == number(7).to_string() {
                    self.count(b'O', "written to the output's end");
                }
            }
            ["refused", "13"] if number(5) > number(6) / 7 => self.caused(first, "the row count"),
            ["refused", "13"] => self.caused(first, "a payload"),
            ["refused", "19", carried] if carried == number(5).to_string() => self.caused(first, "the header"),
            ["refused", "19", _] => self.caused(first, "a row"),
            _ => self.count(b'O', head(first)),
        }
    }

    /// A refusal of the writer, counted by itself and with its cause.
    fn caused(&mut self, first: &str, cause: &str) {
        self.count(b'O', head(first));
        self.count(b'O', &format!("{} of {}", head(first), cause));
    }

    pub fn print(&self) {
        println!("inputs by kind:");
        for (kind, count) in &self.kinds {
            println!("  {:9}  {}", count, kind);
        }
        println!("inputs by kind and answer (of P and W, each line; of I, the first and the fourth; of O, the first):");
        for (class, count) in &self.answers {
            println!("  {:9}  {}", count, class);
        }
    }

    /// The classes, or sums of classes, with fewer inputs than a full run must have.
    pub fn thin(&self, model: bool) -> Vec<String> {
        let one = |class: &str| *self.answers.get(class).unwrap_or(&0);
        let count = |classes: &str| -> u64 { classes.split(" + ").map(one).sum() };
        let least = match (model, self.kinds.keys().next()) {
            (true, Some('I')) => index_minimums(),
            (true, Some('W')) => width_minimums(),
            (true, Some('O')) => writer_minimums(),
            (true, _) => fault_minimums(),
            (false, Some('a')) => indexed_minimums(),
            (false, _) => minimums(),
        };
        let thin = least.into_iter().filter(|(class, least)| count(class) < *least);
        thin.map(|(class, least)| format!("{}: {} of at least {}", class, count(&class), least)).collect()
    }
}

/// An answer's first word; of a refusal, with its number.
fn head(line: &str) -> &str {
    let words = if line.starts_with("refused ") { 2 } else { 1 };
    match line.match_indices(' ').nth(words - 1) {
        Some((end, _)) => &line[..end],
        None => line,
    }
}

/// One of the 8-byte numbers that an input of kind O begins with; 0 if it is not there.
fn first_number(input: &[u8], place: usize) -> u64 {
    let bytes = input.get(8 * place..8 * place + 8).unwrap_or(&[]);
    bytes.iter().rev().fold(0, |value, byte| value << 8 | u64::from(*byte))
}

/// The words for a form as an input of kind O has it.
fn form(edition: u64, pointer_bytes: u64, order: u64) -> String {
    let edition = if edition == 0 { "legacy" } else { "new" };
    let order = if order == 0 { "little" } else { "big" };
    format!("{} {} {}", edition, 8 * pointer_bytes, order)
}

/// Of indexes over any numbers.
fn index_minimums() -> Vec<(String, u64)> {
    let answers = ["built", "refused 13", "refused 14", "search null", "search found", "search missing", "search refused 13", "search refused 14"];
    answers.iter().map(|answer| (format!("I {}", answer), 500)).collect()
}

/// Of names and declarators with their widths.
fn width_minimums() -> Vec<(String, u64)> {
    let names = ["value", "array", "pointer", "pointer-array", "function", "refused 9", "refused 10", "then width", "then refused 10", "then refused 15", "then none"];
    let records = ["width", "refused 10", "refused 15"];
    let of = |kind: char, answers: &[&str]| -> Vec<(String, u64)> { answers.iter().map(|answer| (format!("{} {}", kind, answer), 500)).collect() };
    [of('W', &names), of('w', &records)].concat()
}

/// Of scenes to be written. Refusal 10 is not here: a batch, whose inputs are shorter than 2^32 bytes, has no room for rows and payloads
/// that need 2^64.
fn writer_minimums() -> Vec<(String, u64)> {
    let forms = ["legacy 32 little", "legacy 32 big", "legacy 64 little", "legacy 64 big", "new 64 little"];
    let mut list: Vec<(String, u64)> = forms.iter().map(|form| (format!("O written {}", form), 1000)).collect();
    let ways = ["written to the output's end", "refused 13 of the row count", "refused 13 of a payload", "refused 19 of the header", "refused 19 of a row"];
    list.extend(ways.iter().map(|way| (format!("O {}", way), 500)));
    list.extend([3, 4, 5, 6, 16, 17, 18].iter().map(|number| (format!("O refused {}", number), 500)));
    list.push(("O bad-input".to_string(), 40));
    list
}

/// Of files, headers, catalogues and function pointers, cut or with a wrong mark.
fn fault_minimums() -> Vec<(String, u64)> {
    let mut classes = vec![forms().join(" + ")];
    classes.extend(["H header", "C dna", "c dna", "f fn"].iter().map(|class| class.to_string()));
    for kind in ["F", "H", "C", "c", "f"].iter() {
        classes.push(format!("{} refused 16", kind));
        classes.push(format!("{} refused 17", kind));
    }
    classes.into_iter().map(|class| (class, 500)).collect()
}

/// Of searches through an index.
fn indexed_minimums() -> Vec<(String, u64)> {
    let classes = [("a found", 500), ("a missing", 500), ("a null", 200), ("a refused 16 + a refused 17", 50)];
    classes.iter().map(|(class, least)| (class.to_string(), *least)).collect()
}

/// The classes of files that are read.
fn forms() -> Vec<String> {
    let mut list = Vec::new();
    for edition in ["legacy", "new"].iter() {
        for bits in ["32", "64"].iter() {
            for order in ["little", "big"].iter() {
                list.push(format!("F file {} {} {}", edition, bits, order));
            }
        }
    }
    list
}

fn minimums() -> Vec<(String, u64)> {
    let mut list: Vec<(String, u64)> = forms().into_iter().map(|form| (form, 1000)).collect();
    let mut least = |count: u64, class: String| list.push((class, count));
    for number in [3, 4, 5, 6, 16, 17].iter() {
        least(1000, format!("F refused {}", number));
    }
    least(100, "F refused 1".to_string());
    least(1000, "H header".to_string());
    least(100, "H refused 1".to_string());
    least(500, "H refused 16".to_string());
    least(500, "H refused 17".to_string());
    least(1, "N u8".to_string());
    least(1000, "F with several DNA1".to_string());
    for kind in ["value", "array", "pointer", "pointer-array", "fn", "refused 9", "panic", "not-utf8"].iter() {
        least(500, format!("D {}", kind));
    }
    for kind in ["C", "c"].iter() {
        least(1000, format!("{} dna", kind));
        least(1000, format!("{} refused 16", kind));
        least(1000, format!("{} refused 17", kind));
        least(200, format!("{} dna with lossy names", kind));
    }
    for kind in ["fn", "refused 16", "refused 17"].iter() {
        least(1000, format!("f {}", kind));
    }
    for kind in PRIMITIVES.iter() {
        for order in ["little", "big"].iter() {
            least(1000, format!("P {} {} value", kind, order));
            least(50, format!("P {} {} panic", kind, order));
        }
    }
    for kind in ["found", "missing", "null"].iter() {
        least(500, format!("A {}", kind));
    }
    least(50, "A refused 16 + A refused 17".to_string());
    list
}
