//! Checks of the model: examples worked out by hand from the documents, and laws
//! that the documents promise, tried over generated inputs.
//!
//! Build and run: `rustc --test --edition 2018 main.rs -o model_tests`.

use crate::answer::{answer, lines};
use crate::batch::{input_bytes, read_record, write_record, Input, Record, INDEX_KIND};
use crate::index::{code_number, kind, Kind};
use crate::inputs::{malformed, record, well_formed};
use crate::random::Random;

const TRIES: u32 = 100_000;

/// Rows of a code and an address, with the other five numbers 9.
fn table(rows: &[(&[u8; 4], u64)]) -> Vec<u64> {
    let row = |(code, address): &(&[u8; 4], u64)| vec![code_number(code), *address, 9, 9, 9, 9, 9];
    rows.iter().flat_map(row).collect()
}

/// Four rows, two buckets: rows 0, 1 and 3 have odd addresses, row 2 an even one.
fn example() -> Input {
    Input {
        rows: 4,
        buckets: 2,
        address: 5,
        table: table(&[(b"GLOB", 5), (b"DATA", 7), (b"OB\0\0", 4), (b"DATA", 5)]),
        heads: vec![77, 77, 77],
        links: vec![77, 77, 77, 77, 77],
    }
}

fn said(input: &Input) -> String {
    lines(input).concat()
}

#[test]
fn builds_rising_chains_and_leaves_numbers_past_them() {
    let expected = "built\nheads 3 1 77\nlinks 2 4 0 0 77\nrefused 13\nfound 3\nfound 3\n";
    assert_eq!(said(&example()), expected);
}

#[test]
fn refuses_in_the_order_13_14_null() {
    let mut input = example();
    input.address = 0;
    input.rows = 5;
    input.buckets = 0;
    assert_eq!(lines(&input)[0], "refused 13\n");
    assert_eq!(lines(&input)[5], "refused 13\n");
    input.rows = 4;
    assert_eq!(lines(&input)[3], "refused 14 1 4\n");
    assert_eq!(lines(&input)[5], "null\n");
    input.buckets = 4;
    assert_eq!(lines(&input)[0], "refused 14 4 4\n");
    input.buckets = 3;
    assert_eq!(lines(&input)[3], "null\n");
    input.links.truncate(3);
    assert_eq!(lines(&input)[3], "refused 14 3 4\n");
}

#[test]
fn zeroes_the_heads_of_no_rows() {
    let mut input = example();
    input.rows = 0;
    let expected = "built\nheads 0 0 77\nlinks 77 77 77 77 77\nrefused 13\nmissing\nmissing\n";
    assert_eq!(said(&input), expected);
}

#[test]
fn follows_a_chain_that_is_not_its_own() {
    let mut input = example();
    let ways: [(u64, [u64; 4], &str); 7] = [
        (1, [2, 4, 0, 0], "found 3\n"),
        // The match's own link is not read.
        (1, [2, 4, 0, u64::MAX], "found 3\n"),
        // A row of the other bucket is only passed.
        (3, [0, 0, 4, 0], "found 3\n"),
        (1, [0, 0, 0, 0], "missing\n"),
        (1, [1, 0, 0, 0], "refused 13\n"),
        (2, [0, 1, 0, 0], "refused 13\n"),
        (5, [0, 0, 0, 0], "refused 13\n"),
    ];
    for (head, links, expected) in ways {
        input.heads = vec![u64::MAX, head];
        input.links = links.to_vec();
        assert_eq!(lines(&input)[3], expected);
    }
}

#[test]
fn tells_kinds_by_the_code_alone() {
    assert_eq!(kind(0), Kind::Principal);
    assert_eq!(kind(0xffff_0000), Kind::Principal);
    assert_eq!(kind(0x4441_5441), Kind::Data);
    assert_eq!(kind(0x1_4441_5441), Kind::Unknown);
    assert_eq!(kind(0x1_0000_0000), Kind::Unknown);
    assert_eq!(kind(0x4f42_0100), Kind::Unknown);
    assert_eq!(kind(code_number(b"ENDB")), Kind::Unknown);
}

#[test]
fn answers_as_the_plain_lookup_where_built() {
    let mut random = Random::new(1);
    for _ in 0..TRIES {
        let lines = lines(&well_formed(&mut random));
        assert!(lines[0] != "built\n" || lines[4] == lines[5]);
    }
}

#[test]
fn a_refused_building_changes_nothing() {
    let mut random = Random::new(2);
    for _ in 0..TRIES {
        let input = well_formed(&mut random);
        let lines = lines(&input);
        if lines[0] != "built\n" {
            let numbers = |line: &str| -> Vec<u64> {
                line.split_whitespace()
                    .skip(1)
                    .map(|word| word.parse().unwrap())
                    .collect()
            };
            assert_eq!(numbers(&lines[1]), input.heads);
            assert_eq!(numbers(&lines[2]), input.links);
            assert_eq!(lines[0], lines[3]);
            assert_eq!(lines[0], lines[4]);
        }
    }
}

#[test]
fn just_the_malformed_records_are_bad_input() {
    let mut random = Random::new(3);
    for _ in 0..TRIES {
        let input = well_formed(&mut random);
        let good = Record {
            kind: INDEX_KIND,
            input: input_bytes(&input),
        };
        assert_eq!(answer(&good).lines().count(), 6);
        let bad = Record {
            kind: INDEX_KIND,
            input: malformed(&mut random, &input),
        };
        assert_eq!(answer(&bad), "bad-input\n");
    }
}

#[test]
fn records_are_read_as_written() {
    let mut random = Random::new(4);
    for _ in 0..1000 {
        let written = record(&mut random);
        let mut bytes = Vec::new();
        write_record(&mut bytes, &written).unwrap();
        let mut source = bytes.as_slice();
        let read = read_record(&mut source).unwrap().unwrap();
        assert!(read.kind == written.kind && read.input == written.input);
        assert!(read_record(&mut source).unwrap().is_none());
    }
}
