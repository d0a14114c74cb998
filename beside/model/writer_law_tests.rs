//! Laws that request 5 promises of the writer, and what the generator promises, tried over generated
//! inputs.

use crate::fault_files::Edition::{Legacy, New};
use crate::fault_files::{self, read_file, Block};
use crate::fault_samples::{catalogue, file, form, Plan};
use crate::random::Random;
use crate::writer::{lines, write};
use crate::writer_faults::Fault;
use crate::writer_inputs::{malformed, well_formed, with_faults};
use crate::writer_records::{input_bytes, Header, Input};

const TRIES: u32 = 5000;
/// In place of a refusal's number.
const WRITTEN: u32 = 0;

#[test]
fn just_the_malformed_inputs_are_bad() {
    let mut random = Random::new(3);
    for _ in 0..TRIES {
        let input = well_formed(&mut random);
        assert_eq!(lines(&input_bytes(&input)).unwrap().lines().count(), 2);
        assert_eq!(lines(&malformed(&mut random, &input)), None);
    }
}

/// What each fault done alone may be refused by.
#[test]
fn each_fault_alone() {
    let faults: [(Fault, &[u32]); 11] = [
        (Fault::RowCount, &[13]),
        (Fault::ZeroAddress, &[3]),
        (Fault::Outside, &[13]),
        (Fault::Code, &[5]),
        (Fault::PrincipalCount, &[4]),
        // A New header's order may be changed, and its catalogue still read.
        (Fault::Catalogue, &[16, 17, 19, WRITTEN]),
        // An earlier DNA1 may become the last row.
        (Fault::LastRow, &[6, WRITTEN]),
        (Fault::Form, &[19]),
        (Fault::Version, &[19]),
        (Fault::RowNumber, &[19]),
        (Fault::ShortOutput, &[18]),
    ];
    let mut random = Random::new(4);
    for (fault, allowed) in faults {
        for _ in 0..TRIES / 5 {
            let outcome = write(&with_faults(&mut random, &[fault]));
            let number = outcome.map_or_else(|refusal| refusal.number, |_| WRITTEN);
            assert!(allowed.contains(&number), "{:?}: {}", fault, number);
        }
    }
}

/// "Reading what it wrote, with enough rows, gives the same header, the same code, address, index
/// and count in each row, and the same payload bytes, with the offsets of the new file".
#[test]
fn what_is_written_reads_as_the_rows() {
    let mut random = Random::new(5);
    for _ in 0..TRIES {
        let input = with_faults(&mut random, &[]);
        let written = write(&input).expect("a scene without faults");
        let file = read_file(&written).ok().expect("a file that reads");
        assert_eq!(file.end, written.len());
        assert_eq!(file.blocks.len() as u64, input.count);
        assert_same_header(&file.header, &input.header);
        let mut at = [12, 17][(input.header.edition == New) as usize];
        for (block, asked) in file.blocks.iter().zip(input.table.chunks(7)) {
            let read = numbers(block);
            assert_eq!(read[..4], asked[..4]);
            assert_eq!(read[4..], [at, at + block_header(&input.header), asked[6]]);
            at = read[5] + read[6];
            let (start, length) = (asked[5] as usize, asked[6] as usize);
            assert_eq!(block.payload, &input.source[start..start + length]);
        }
        assert_eq!(at + 4, written.len() as u64);
    }
}

fn assert_same_header(read: &fault_files::Header, asked: &Header) {
    assert_eq!(read.edition, asked.edition);
    assert_eq!(read.pointer_bytes, asked.pointer_bytes);
    assert_eq!(read.order, asked.order);
    assert_eq!(read.version, 100 * asked.major + asked.minor);
}

/// The length of a block header in a form that can be written.
fn block_header(header: &Header) -> u64 {
    match (header.edition, header.pointer_bytes) {
        (Legacy, 4) => 20,
        (Legacy, _) => 24,
        (New, _) => 32,
    }
}

/// The row of a block that was read.
fn numbers(block: &Block) -> [u64; 7] {
    let add = |code: u64, byte: &u8| code << 8 | u64::from(*byte);
    [
        block.code.iter().fold(0, add),
        block.address,
        block.index,
        block.count,
        block.at as u64,
        block.payload_at as u64,
        block.payload.len() as u64,
    ]
}

/// "A Legacy file with three version digits, read and written again, has the same bytes up to the
/// end mark."
#[test]
fn legacy_files_are_written_again() {
    let mut random = Random::new(6);
    for _ in 0..TRIES {
        let bytes = legacy_file(&mut random);
        let file = read_file(&bytes).ok().expect("a file that reads");
        let header = Header {
            edition: Legacy,
            pointer_bytes: file.header.pointer_bytes,
            order: file.header.order,
            major: file.header.version / 100,
            minor: file.header.version % 100,
        };
        let rows: Vec<[u64; 7]> = file.blocks.iter().map(numbers).collect();
        let input = Input {
            header,
            count: rows.len() as u64,
            table: rows.concat(),
            output: vec![77; file.end],
            source: bytes.clone(),
        };
        assert_eq!(write(&input).expect("a file"), bytes[..file.end]);
    }
}

fn legacy_file(random: &mut Random) -> Vec<u8> {
    let mut form = form(random);
    form.new = false;
    let plan = Plan {
        form,
        catalogues: vec![catalogue(random, form.order, false)],
        ends_with_catalogue: true,
        longest_payload: 24,
    };
    let mut bytes = file(random, &plan).bytes;
    let digits = format!("{:03}", random.below(1000));
    bytes[9..12].copy_from_slice(digits.as_bytes());
    bytes
}

/// "Bytes after the written length are unchanged, and a refusal changes nothing."
#[test]
fn the_rest_of_the_output_is_unchanged() {
    let mut random = Random::new(7);
    for _ in 0..TRIES {
        let input = well_formed(&mut random);
        let written = write(&input).unwrap_or_default();
        let text = lines(&input_bytes(&input)).unwrap();
        let after = input.output[written.len()..]
            .iter()
            .map(|byte| format!("{:02x}", byte));
        assert!(text.ends_with(&(after.collect::<String>() + "\n")));
    }
}
