//! Files and refusals of the writer, worked out by hand from documents 01 and 02.

use crate::answer::answer;
use crate::batch::Record;
use crate::fault_files::Edition::{self, Legacy, New};
use crate::fault_reads::Order::{self, Big, Little};
use crate::index::code_number;
use crate::writer::{check_length, check_room, lines, needed_bytes, write, Refusal, Row};
use crate::writer_records::{input_bytes, Header, Input, WRITER_KIND};

const MOST_32: u64 = 0xffff_ffff;

/// The listing's catalogue: name "x", type "int" of size 4, a struct of type 0, the field (0, 0).
const LITTLE_CATALOGUE: &[u8; 52] =
    b"SDNANAME\x01\0\0\0x\0\0\0TYPE\x01\0\0\0int\0TLEN\x04\0\0\0STRC\
    \x01\0\0\0\0\0\x01\0\0\0\0\0";
const BIG_CATALOGUE: &[u8; 52] = b"SDNANAME\0\0\0\x01x\0\0\0TYPE\0\0\0\x01int\0TLEN\0\x04\0\0STRC\
    \0\0\0\x01\0\0\0\x01\0\0\0\0";

fn header(edition: Edition, pointer_bytes: u64, order: Order, version: (u64, u64)) -> Header {
    let (major, minor) = version;
    Header {
        edition,
        pointer_bytes,
        order,
        major,
        minor,
    }
}

/// The catalogue of the header's order lies before "hull" in the source; the rows are the listing's:
/// first an object with the payload "hull", then the catalogue. The output holds 77s.
fn scene(header: Header) -> Input {
    let catalogue = match header.order {
        Little => LITTLE_CATALOGUE,
        Big => BIG_CATALOGUE,
    };
    let table = [
        [code_number(b"OB\0\0"), 16, 3, 1, 0, 54, 4],
        [code_number(b"DNA1"), 32, 0, 1, u64::MAX, 0, 52],
    ];
    Input {
        header,
        count: 2,
        table: table.concat(),
        output: vec![77; 160],
        source: [&catalogue[..], b"..hull"].concat(),
    }
}

fn listing() -> Input {
    scene(header(Legacy, 8, Little, (2, 80)))
}

fn first_line(input: &Input) -> String {
    let text = lines(&input_bytes(input)).expect("an input of its form");
    text.lines().next().unwrap_or("").to_string()
}

/// Numbers of row 0 or 1 by their places, set in turn: the first line after each.
fn assert_after(mut input: Input, changes: &[(usize, usize, u64, &str)]) {
    for (row, place, number, expected) in changes {
        input.table[7 * row + place] = *number;
        assert_eq!(first_line(&input), *expected, "{:?}", (row, place, number));
    }
}

fn assert_written(input: &Input, parts: &[&[u8]]) {
    let file = parts.concat();
    assert_eq!(write(input).expect("a file"), file);
    let mut text = format!("written {}\noutput ", file.len());
    let unchanged = vec![77; input.output.len() - file.len()];
    for byte in file.iter().chain(&unchanged) {
        text += &format!("{:02x}", byte);
    }
    assert_eq!(lines(&input_bytes(input)).unwrap(), text + "\n");
}

#[test]
fn the_file_of_the_listing() {
    let parts: [&[u8]; 6] = [
        b"BLENDER-v280",
        b"OB\0\0\x04\0\0\0\x10\0\0\0\0\0\0\0\x03\0\0\0\x01\0\0\0",
        b"hull",
        b"DNA1\x34\0\0\0\x20\0\0\0\0\0\0\0\0\0\0\0\x01\0\0\0",
        LITTLE_CATALOGUE,
        b"ENDB",
    ];
    assert_eq!(parts.concat().len(), 120);
    assert_written(&listing(), &parts);
    // The same file is its own source, by the rows that document 01 lists.
    let mut again = listing();
    again.source = parts.concat();
    again.table[4..7].copy_from_slice(&[12, 36, 4]);
    again.table[11..14].copy_from_slice(&[40, 64, 52]);
    again.output.truncate(120);
    assert_written(&again, &parts);
}

#[test]
fn the_other_legacy_forms() {
    let object: &[u8] = b"OB\0\0\0\0\0\x04\0\0\0\x10\0\0\0\x03\0\0\0\x01hull";
    let dna: &[u8] = b"DNA1\0\0\0\x34\0\0\0\x20\0\0\0\0\0\0\0\x01";
    let narrow = scene(header(Legacy, 4, Big, (0, 0)));
    let parts: [&[u8]; 5] = [b"BLENDER_V000", object, dna, BIG_CATALOGUE, b"ENDB"];
    assert_written(&narrow, &parts);

    let object = b"OB\0\0\0\0\0\x04\0\0\0\0\0\0\0\x10\0\0\0\x03\0\0\0\x01hull";
    let dna = b"DNA1\0\0\0\x34\0\0\0\0\0\0\0\x20\0\0\0\0\0\0\0\x01";
    let wide = scene(header(Legacy, 8, Big, (9, 99)));
    let parts: [&[u8]; 5] = [b"BLENDER-V999", object, dna, BIG_CATALOGUE, b"ENDB"];
    assert_written(&wide, &parts);

    let object = b"OB\0\0\x04\0\0\0\x10\0\0\0\x03\0\0\0\x01\0\0\0hull";
    let dna = b"DNA1\x34\0\0\0\x20\0\0\0\0\0\0\0\x01\0\0\0";
    let narrow = scene(header(Legacy, 4, Little, (2, 7)));
    let parts: [&[u8]; 5] = [b"BLENDER_v207", object, dna, LITTLE_CATALOGUE, b"ENDB"];
    assert_written(&narrow, &parts);
}

/// Index before the address, size and count of 8 bytes after it.
#[test]
fn the_new_form() {
    let mut input = scene(header(New, 8, Little, (5, 1)));
    input.output = vec![77; 200];
    input.table[0] = code_number(b"DATA");
    input.table[1] = 0x0102_0304_0506_0708;
    input.table[2] = MOST_32;
    input.table[3] = u64::MAX - 1;
    let parts: [&[u8]; 8] = [
        b"BLENDER17-01v0501",
        b"DATA\xff\xff\xff\xff\x08\x07\x06\x05\x04\x03\x02\x01\x04\0\0\0\0\0\0\0",
        b"\xfe\xff\xff\xff\xff\xff\xff\xff",
        b"hull",
        b"DNA1\0\0\0\0\x20\0\0\0\0\0\0\0\x34\0\0\0\0\0\0\0",
        b"\x01\0\0\0\0\0\0\0",
        LITTLE_CATALOGUE,
        b"ENDB",
    ];
    assert_eq!(parts.concat().len(), 17 + 32 + 4 + 32 + 52 + 4);
    assert_written(&input, &parts);
}

/// The same payload twice, one payload within another, an empty one at the source's end.
#[test]
fn payloads_are_shared() {
    let mut input = listing();
    let dna1 = input.table[7..14].to_vec();
    let rows = [
        vec![code_number(b"REND"), 1, 2, 3, 0, 58, 0],
        vec![code_number(b"TEST"), 1, 2, 3, 0, 0, 8],
        dna1.clone(),
        dna1,
    ];
    input.table = rows.concat();
    input.count = 4;
    input.output = vec![77; 300];
    let numbers = b"\x01\0\0\0\0\0\0\0\x02\0\0\0\x03\0\0\0";
    let dna = b"DNA1\x34\0\0\0\x20\0\0\0\0\0\0\0\0\0\0\0\x01\0\0\0";
    let parts: [&[u8]; 11] = [
        b"BLENDER-v280",
        b"REND\0\0\0\0",
        numbers,
        b"TEST\x08\0\0\0",
        numbers,
        b"SDNANAME",
        dna,
        LITTLE_CATALOGUE,
        dna,
        LITTLE_CATALOGUE,
        b"ENDB",
    ];
    assert_written(&input, &parts);
}

#[test]
fn counts_rows_first() {
    let mut input = listing();
    // A row of the table that is counted no more, and six numbers that are no row.
    input.table.extend_from_slice(&[0; 13]);
    assert_eq!(first_line(&input), "written 120");
    input.count = 3;
    assert_eq!(first_line(&input), "refused 3");
    for count in [4, 1 << 61, 1 << 63, u64::MAX] {
        input.count = count;
        assert_eq!(first_line(&input), "refused 13");
    }
    input.count = 0;
    input.header.major = 10;
    assert_eq!(first_line(&input), "refused 6");
    input.table.clear();
    assert_eq!(first_line(&input), "refused 6");
    input.count = 1;
    assert_eq!(first_line(&input), "refused 13");
}

/// In one row: 3, 13, the code; of two rows, the first.
#[test]
fn refuses_row_by_row() {
    let ended = code_number(b"ENDB");
    let changes = [
        (1, 1, 0, "refused 3"),
        (0, 0, ended, "refused 5"),
        (0, 6, 5, "refused 13"),
        (0, 1, 0, "refused 3"),
        (0, 1, 1, "refused 13"),
        (0, 6, 4, "refused 5"),
        (0, 0, code_number(b"ME\0\0"), "refused 3"),
        (0, 3, 1 << 32, "refused 4"),
        (0, 3, 1, "refused 3"),
        (1, 1, 32, "written 120"),
        (1, 6, 51, "refused 16 50"),
        (0, 3, 0, "refused 4"),
        (0, 0, code_number(b"DATA"), "refused 16 50"),
        (1, 0, ended, "refused 5"),
        (1, 0, code_number(b"GLOB"), "refused 6"),
        // Four bytes remain and differ from the mark, then only three remain, then none.
        (0, 0, code_number(b"DNA1"), "refused 17 0"),
        (0, 6, 3, "refused 16 0"),
        (0, 6, 0, "refused 16 0"),
        (0, 5, 59, "refused 13"),
        (0, 5, 58, "refused 16 0"),
    ];
    assert_after(listing(), &changes);
}

#[test]
fn codes() {
    let with_1 = [
        (0, "written 120"),
        (0xffff_0000, "written 120"),
        (code_number(b"REND"), "written 120"),
        (code_number(b"TEST"), "written 120"),
        (code_number(b"GLOB"), "written 120"),
        (code_number(b"DATA"), "written 120"),
        (code_number(b"ENDB"), "refused 5"),
        (code_number(b"EN\0\0"), "written 120"),
        (code_number(b"OB\0\x01"), "refused 5"),
        (code_number(b"OB\x01\0"), "refused 5"),
        (1, "refused 5"),
        (MOST_32, "refused 5"),
        (1 << 32, "refused 5"),
        (1 << 32 | code_number(b"DATA"), "refused 5"),
        (1 << 63 | code_number(b"OB\0\0"), "refused 5"),
        (code_number(b"OB\0\0") << 32, "refused 5"),
        (u64::MAX, "refused 5"),
    ];
    for (code, expected) in with_1 {
        assert_after(listing(), &[(0, 0, code, expected)]);
    }
    let high = 1 << 32 | code_number(b"DNA1");
    assert_after(listing(), &[(1, 0, high, "refused 5")]);
}

#[test]
fn payloads_outside_the_source() {
    let ways = [
        (58, 0, "written 116"),
        (59, 0, "refused 13"),
        (58, 1, "refused 13"),
        (0, 58, "written 174"),
        (0, 59, "refused 13"),
        (u64::MAX, 0, "refused 13"),
        (u64::MAX, 1, "refused 13"),
        (u64::MAX, 2, "refused 13"),
        (1, u64::MAX, "refused 13"),
        (u64::MAX, u64::MAX, "refused 13"),
        (1 << 63, 1 << 63, "refused 13"),
        ((1 << 32) + 54, 4, "refused 13"),
        (54, (1 << 32) + 4, "refused 13"),
    ];
    for (at, length, expected) in ways {
        let mut input = listing();
        input.output = vec![77; 200];
        input.table[5] = at;
        input.table[6] = length;
        assert_eq!(first_line(&input), expected, "{} {}", at, length);
    }
    let mut input = listing();
    input.source.clear();
    assert_eq!(first_line(&input), "refused 13");
}

/// The offset is the payload's own, and the payload's end cuts, not the source's.
#[test]
fn catalogues_that_do_not_read() {
    let mut input = listing();
    input.source = [b"before", &LITTLE_CATALOGUE[..], b"after"].concat();
    input.table[5..7].copy_from_slice(&[0, 4]);
    input.table[12] = 6;
    assert_eq!(first_line(&input), "written 120");
    let starts = [
        0, 4, 8, 12, 14, 16, 20, 24, 28, 32, 34, 36, 40, 44, 46, 48, 50,
    ];
    for length in 0..52 {
        input.table[13] = length;
        let cut = starts.iter().rev().find(|at| **at <= length).unwrap();
        assert_eq!(first_line(&input), format!("refused 16 {}", cut));
    }
    input.table[13] = 57;
    assert_eq!(first_line(&input), "written 125");
    for at in [0, 4, 16, 28, 36] {
        let mut spoiled = input.clone();
        spoiled.source[6 + at] = b'x';
        assert_eq!(first_line(&spoiled), format!("refused 17 {}", at));
    }
    // A count of 2^24 strings, whose zeros are found as far as the catalogue goes.
    input.header.order = Big;
    assert_eq!(first_line(&input), "refused 16 52");
}

/// The catalogue is read in the header's order also where 19 refuses that order.
#[test]
fn catalogues_of_a_new_header_in_the_big_order() {
    let mut input = scene(header(New, 8, Big, (5, 1)));
    assert_eq!(first_line(&input), "refused 19 2");
    input.source[0..52].copy_from_slice(LITTLE_CATALOGUE);
    assert_eq!(first_line(&input), "refused 16 52");
}

#[test]
fn headers_without_room() {
    let ways = [
        (Legacy, 8, Little, (9, 99), "written 120"),
        (Legacy, 8, Little, (10, 0), "refused 19 2"),
        (Legacy, 8, Little, (9, 100), "refused 19 2"),
        (Legacy, 4, Big, (2, 100), "refused 19 2"),
        (Legacy, 4, Big, (0, 0), "written 112"),
        (Legacy, 4, Big, (65535, 65535), "refused 19 2"),
        (New, 8, Little, (10, 0), "written 141"),
        (New, 8, Little, (99, 99), "written 141"),
        (New, 8, Little, (99, 100), "refused 19 2"),
        (New, 8, Little, (100, 0), "refused 19 2"),
        (New, 8, Big, (5, 1), "refused 19 2"),
        (New, 4, Little, (5, 1), "refused 19 2"),
        (New, 4, Big, (5, 1), "refused 19 2"),
    ];
    for (edition, pointer_bytes, order, version, expected) in ways {
        let header = header(edition, pointer_bytes, order, version);
        assert_eq!(first_line(&scene(header)), expected, "{:?}", header);
    }
}

/// The header's 19 carries the row count and comes first, then the first row's.
#[test]
fn rows_without_room() {
    let narrow = scene(header(Legacy, 4, Little, (2, 80)));
    let changes = [
        (1, 1, MOST_32, "written 112"),
        (1, 2, MOST_32, "written 112"),
        (1, 3, MOST_32, "written 112"),
        (1, 1, 1 << 32, "refused 19 1"),
        (0, 2, 1 << 32, "refused 19 0"),
        (1, 1, 1, "refused 19 0"),
        (0, 2, 0, "written 112"),
        (1, 3, 1 << 32, "refused 19 1"),
        (0, 3, 1 << 32, "refused 4"),
        (0, 0, code_number(b"DATA"), "refused 19 0"),
        (1, 0, code_number(b"DATA"), "refused 6"),
    ];
    assert_after(narrow, &changes);
    let wide = [
        (1, 1, u64::MAX, "written 120"),
        (1, 2, 1 << 32, "refused 19 1"),
        (1, 2, 0, "written 120"),
        (1, 3, u64::MAX, "refused 19 1"),
    ];
    assert_after(listing(), &wide);
    let new = [
        (1, 1, u64::MAX, "written 141"),
        (1, 3, u64::MAX, "written 141"),
        (1, 2, MOST_32, "written 141"),
        (1, 2, 1 << 32, "refused 19 1"),
    ];
    assert_after(scene(header(New, 8, Little, (5, 1))), &new);
    assert_after(
        scene(header(Legacy, 8, Little, (10, 0))),
        &[(0, 2, 1 << 32, "refused 19 2")],
    );
}

#[test]
fn outputs_that_are_too_short() {
    let mut input = listing();
    input.output = vec![77; 120];
    assert_eq!(first_line(&input), "written 120");
    for length in [119, 116, 12, 1] {
        input.output.truncate(length);
        let text = format!("refused 18 120\noutput {}\n", "4d".repeat(length));
        assert_eq!(lines(&input_bytes(&input)).unwrap(), text);
    }
    input.output.clear();
    let text = "refused 18 120\noutput \n";
    assert_eq!(lines(&input_bytes(&input)).unwrap(), text);
    input.header.minor = 100;
    assert_eq!(first_line(&input), "refused 19 2");
}

/// A row that no input has: its payload is longer than any source in a batch.
fn long_row(payload_length: u64) -> Row {
    Row {
        code: code_number(b"DATA"),
        address: 1,
        index: 0,
        count: 1,
        payload_at: 0,
        payload_length,
    }
}

fn refused<T>(number: u32, carried: Option<u64>) -> Result<T, Refusal> {
    Err(Refusal { number, carried })
}

#[test]
fn sizes_without_room() {
    let rows = [long_row(MOST_32), long_row(1 << 32)];
    for order in [Little, Big] {
        for pointer_bytes in [4, 8] {
            let legacy = header(Legacy, pointer_bytes, order, (2, 80));
            assert_eq!(check_room(&legacy, &rows[..1]), Ok(()));
            assert_eq!(check_room(&legacy, &rows), refused(19, Some(1)));
        }
    }
    let new = header(New, 8, Little, (5, 1));
    assert_eq!(check_room(&new, &rows), Ok(()));
}

#[test]
fn lengths_above_64_bits() {
    let most = u128::from(u64::MAX);
    assert_eq!(check_length(most, 0), refused(18, Some(u64::MAX)));
    assert_eq!(check_length(most + 1, 0), refused(10, None));
    let rows = [long_row(1 << 63); 3];
    let new = header(New, 8, Little, (5, 1));
    assert_eq!(needed_bytes(&new, &rows[..2]), (1 << 64) + 85);
    let narrow = header(Legacy, 4, Little, (2, 80));
    assert_eq!(needed_bytes(&narrow, &rows), (3 << 63) + 76);
}

#[test]
fn inputs_that_are_not_of_the_form() {
    let said = |input: Vec<u8>| {
        let kind = WRITER_KIND;
        answer(&Record { kind, input })
    };
    let good = input_bytes(&listing());
    assert!(said(good.clone()).starts_with("written 120\n"));
    assert_eq!(said(good[..63].to_vec()), "bad-input\n");
    // Without its source, the last byte of the output, and the last number of the table.
    let shortest = 64 + 8 * 14 + 160;
    assert!(said(good[..shortest].to_vec()).starts_with("refused 13\n"));
    assert_eq!(said(good[..shortest - 1].to_vec()), "bad-input\n");
    let ways = [
        (0, 2),
        (1, 5),
        (2, 2),
        (3, 65536),
        (4, 65536),
        (6, 1 << 61),
        (7, u64::MAX),
    ];
    for (place, number) in ways {
        let mut bad = good.clone();
        bad[8 * place..8 * place + 8].copy_from_slice(&u64::to_le_bytes(number));
        assert_eq!(said(bad), "bad-input\n");
    }
}
