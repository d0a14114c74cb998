//! The lines of text that answer one record.

use crate::batch::{read_input, Input, Record, INDEX_KIND};
use crate::faults;
use crate::index::{build, index_lookup, plain_lookup, Finding, Refusal};
use crate::widths::{name_lines, record_lines, NAME_KIND, RECORD_KIND};
use crate::writer;
use crate::writer_records::WRITER_KIND;

const BAD_INPUT: &str = "bad-input\n";

/// All lines of the answer, without the line `.` that ends it. A record of a
/// kind that is none of these has no rule and is answered `bad-input` too.
pub fn answer(record: &Record) -> String {
    match record.kind {
        INDEX_KIND => index_lines(&record.input),
        NAME_KIND => name_lines(&record.input),
        RECORD_KIND => record_lines(&record.input),
        WRITER_KIND => writer::lines(&record.input).unwrap_or_else(|| BAD_INPUT.to_string()),
        kind => faults::lines(kind, &record.input).unwrap_or_else(|| BAD_INPUT.to_string()),
    }
}

fn index_lines(input: &[u8]) -> String {
    match read_input(input) {
        Some(input) => lines(&input).concat(),
        None => BAD_INPUT.to_string(),
    }
}

/// The six lines, each with its newline.
pub fn lines(input: &Input) -> [String; 6] {
    let mut heads = input.heads.clone();
    let mut links = input.links.clone();
    let built = build(
        &input.table,
        input.rows,
        input.buckets,
        &mut heads,
        &mut links,
    );
    [
        line(building_text(built)),
        line(numbers_text("heads", &heads)),
        line(numbers_text("links", &links)),
        line(finding_text(lookup_with(input, &input.heads, &input.links))),
        line(finding_text(lookup_with(input, &heads, &links))),
        line(finding_text(plain_lookup(
            &input.table,
            input.rows,
            input.address,
        ))),
    ]
}

fn lookup_with(input: &Input, heads: &[u64], links: &[u64]) -> Result<Finding, Refusal> {
    index_lookup(
        &input.table,
        input.rows,
        input.buckets,
        heads,
        links,
        input.address,
    )
}

fn line(text: String) -> String {
    text + "\n"
}

fn building_text(built: Result<(), Refusal>) -> String {
    match built {
        Ok(()) => "built".to_string(),
        Err(refusal) => refusal_text(refusal),
    }
}

fn finding_text(found: Result<Finding, Refusal>) -> String {
    match found {
        Ok(Finding::Null) => "null".to_string(),
        Ok(Finding::Row(row)) => format!("found {}", row),
        Ok(Finding::Missing) => "missing".to_string(),
        Err(refusal) => refusal_text(refusal),
    }
}

fn refusal_text(refusal: Refusal) -> String {
    match refusal {
        Refusal::NotThere => "refused 13".to_string(),
        Refusal::NoIndex { buckets, rows } => format!("refused 14 {} {}", buckets, rows),
    }
}

fn numbers_text(name: &str, numbers: &[u64]) -> String {
    let mut text = name.to_string();
    for number in numbers {
        text.push(' ');
        text.push_str(&number.to_string());
    }
    text
}
