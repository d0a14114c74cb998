//! A model of the index over the row table, of declarators and their widths,
//! of files, headers, catalogues and function pointers with the place of what
//! does not read, and of the writer, written from documents 01 and 02 without
//! the code. The library answers the same batches (blendscan/asks.c, and of
//! the faults the program of crates/vectors), and beside/run holds the two
//! texts against each other.
//!
//!     model indexes SEED COUNT >batch     writes COUNT generated records
//!     model widths SEED COUNT >batch      the same, of names and declarators
//!     model faults SEED COUNT >batch      the same, of files, headers and catalogues, and of function pointers
//!     model writes SEED COUNT >batch      the same, of scenes to be written
//!     model answer <batch >answers        answers each record

mod answer;
mod batch;
mod fault_catalogues;
mod fault_damages;
mod fault_drafts;
mod fault_files;
mod fault_inputs;
mod fault_reads;
mod fault_samples;
#[cfg(test)]
mod fault_tests;
mod faults;
mod index;
mod inputs;
mod random;
mod row_inputs;
mod table_inputs;
#[cfg(test)]
mod tests;
mod width_inputs;
#[cfg(test)]
mod width_tests;
mod widths;
mod writer;
mod writer_bytes;
mod writer_catalogues;
mod writer_faults;
mod writer_headers;
mod writer_inputs;
#[cfg(test)]
mod writer_law_tests;
mod writer_records;
mod writer_scenes;
#[cfg(test)]
mod writer_tests;

use std::io::{self, BufReader, BufWriter, Write};

const USAGE: &str = "usage: model indexes|widths|faults|writes SEED COUNT >batch | model answer <batch >answers";

fn main() {
    let words: Vec<String> = std::env::args().skip(1).collect();
    let words: Vec<&str> = words.iter().map(String::as_str).collect();
    let done = match words.as_slice() {
        ["indexes", seed, count] => write_inputs(seed, count, inputs::record),
        ["widths", seed, count] => write_inputs(seed, count, width_inputs::record),
        ["faults", seed, count] => write_inputs(seed, count, fault_inputs::record),
        ["writes", seed, count] => write_inputs(seed, count, writer_inputs::record),
        ["answer"] => write_answers(),
        _ => stop(USAGE),
    };
    if let Err(error) = done {
        stop(&format!("model: {}", error));
    }
}

fn stop(message: &str) -> ! {
    eprintln!("{}", message);
    std::process::exit(2)
}

fn write_inputs(
    seed: &str,
    count: &str,
    record: fn(&mut random::Random) -> batch::Record,
) -> io::Result<()> {
    let (seed, count): (u64, u64) = match (seed.parse(), count.parse()) {
        (Ok(seed), Ok(count)) => (seed, count),
        _ => stop(USAGE),
    };
    let stdout = io::stdout();
    let mut target = BufWriter::new(stdout.lock());
    let mut random = random::Random::new(seed);
    for _ in 0..count {
        batch::write_record(&mut target, &record(&mut random))?;
    }
    target.flush()
}

fn write_answers() -> io::Result<()> {
    let stdin = io::stdin();
    let stdout = io::stdout();
    let mut source = BufReader::new(stdin.lock());
    let mut target = BufWriter::new(stdout.lock());
    while let Some(record) = batch::read_record(&mut source)? {
        target.write_all(answer::answer(&record).as_bytes())?;
        target.write_all(b".\n")?;
    }
    target.flush()
}
