//! Examples and edges of kinds F, H, C, c and f, written from documents 01 and 02 without the code.

use crate::fault_inputs;
use crate::fault_reads::Order::{self, Big, Little};
use crate::faults::lines;
use crate::random::Random;

/// Where the reads of the listing's catalogue begin.
const CATALOGUE_STARTS: [usize; 17] = [
    0, 4, 8, 12, 14, 16, 20, 24, 28, 32, 34, 36, 40, 44, 46, 48, 50,
];

fn answer(kind: u8, input: &[u8]) -> String {
    lines(kind, input).expect("a kind that is answered")
}

fn asserts(kind: u8, examples: &[(&[u8], &str)]) {
    for (input, expected) in examples {
        let shown = String::from_utf8_lossy(input);
        let expected = format!("{}\n", expected);
        assert_eq!(answer(kind, input), expected, "{:?}", shown);
    }
}

fn number(value: u64, length: usize, order: Order) -> Vec<u8> {
    match order {
        Little => value.to_le_bytes()[..length].to_vec(),
        Big => value.to_be_bytes()[8 - length..].to_vec(),
    }
}

/// A block of a Legacy file with 64-bit pointers in the little order: 24 bytes, then the payload.
/// The index is the listing's: 0 for DNA1, else 3.
fn block(code: &[u8; 4], size: u64, address: u64, count: u64, payload: &[u8]) -> Vec<u8> {
    let index = if code == b"DNA1" { 0 } else { 3 };
    [
        code,
        number(size, 4, Little).as_slice(),
        &number(address, 8, Little),
        &number(index, 4, Little),
        &number(count, 4, Little),
        payload,
    ]
    .concat()
}

fn file(blocks: &[Vec<u8>]) -> Vec<u8> {
    [b"BLENDER-v280", blocks.concat().as_slice(), b"ENDB"].concat()
}

/// The listing's catalogue: name "x", type "int" of size 4, a struct of type 0, the field (0, 0).
fn catalogue(order: Order) -> Vec<u8> {
    [
        b"SDNANAME",
        number(1, 4, order).as_slice(),
        b"x\0\0\0TYPE",
        &number(1, 4, order),
        b"int\0TLEN",
        &number(4, 2, order),
        b"\0\0STRC",
        &number(1, 4, order),
        &number(0, 2, order),
        &number(1, 2, order),
        &[0; 4],
    ]
    .concat()
}

fn dna1(payload: &[u8]) -> Vec<u8> {
    block(b"DNA1", payload.len() as u64, 32, 1, payload)
}

fn scene() -> Vec<u8> {
    file(&[
        block(b"OB\0\0", 4, 16, 1, b"hull"),
        dna1(&catalogue(Little)),
    ])
}

fn patched(bytes: &[u8], at: usize, with: &[u8]) -> Vec<u8> {
    let mut patched = bytes.to_vec();
    patched[at..at + with.len()].copy_from_slice(with);
    patched
}

fn first_line(kind: u8, input: &[u8]) -> String {
    answer(kind, input).lines().next().unwrap_or("").to_string()
}

/// The last of the places that a cut to so many bytes has left.
fn last_start(starts: &[usize], length: usize) -> usize {
    let left = starts.iter().filter(|at| **at <= length);
    left.copied().max().expect("a place that is left")
}

/// Every cut of at least `shortest` bytes is refused by 16 at the last of `starts` it has left.
fn assert_cuts(kind: u8, whole: &[u8], shortest: usize, starts: &[usize]) {
    for length in shortest..whole.len() {
        let expected = format!("refused 16 {}", last_start(starts, length));
        assert_eq!(first_line(kind, &whole[..length]), expected);
    }
}

#[test]
fn headers_are_read() {
    let examples: [(&[u8], &str); 8] = [
        (b"BLENDER-v280", "header legacy 64 little 2 80 12"),
        (b"BLENDER_V279rest", "header legacy 32 big 2 79 12"),
        (b"BLENDER17-01v0501", "header new 64 little 5 1 17"),
        (b"BLENDER17_01V0501x", "header new 32 big 5 1 17"),
        (b"BLENDER\0\xff_--v1234", "header new 32 little 12 34 17"),
        (b"BLENDER-v2x0", "header legacy 64 little 0 20 12"),
        (b"BLENDER-vxyz", "header legacy 64 little 0 0 12"),
        (b"BLENDER17-01v99\xff9", "header new 64 little 9 99 17"),
    ];
    asserts(b'H', &examples);
}

#[test]
fn headers_are_refused() {
    let examples: [(&[u8], &str); 18] = [
        (b"", "refused 1"),
        (b"BLENDE", "refused 1"),
        (b"BLENDEr-v280", "refused 1"),
        (b"BLENDER", "refused 16 7"),
        (b"BLENDER-", "refused 16 8"),
        (b"BLENDER-x", "refused 17 8"),
        (b"BLENDER-v", "refused 16 9"),
        (b"BLENDER-v28", "refused 16 9"),
        (b"BLENDER1", "refused 16 7"),
        (b"BLENDER17", "refused 16 9"),
        (b"BLENDER17x", "refused 17 9"),
        (b"BLENDER17-", "refused 16 10"),
        (b"BLENDER17-0", "refused 16 10"),
        (b"BLENDER17-01", "refused 16 12"),
        (b"BLENDER17-01w", "refused 17 12"),
        (b"BLENDER17-01v", "refused 16 13"),
        (b"BLENDER17-01v050", "refused 16 13"),
        (b"BLENDERxv280", "refused 17 9"),
    ];
    asserts(b'H', &examples);
    asserts(b'F', &examples);
}

#[test]
fn files_without_blocks() {
    let examples: [(&[u8], &str); 5] = [
        (b"BLENDER-v280", "refused 16 12"),
        (b"BLENDER-v280EN", "refused 16 12"),
        (b"BLENDER-v280ENDx", "refused 16 16"),
        (b"BLENDER-v280ENDB", "refused 6"),
        (b"BLENDER17-01v0501ENDBx", "refused 6"),
    ];
    asserts(b'F', &examples);
}

#[test]
fn the_scene_of_the_listing() {
    let expected = "file legacy 64 little 2 80 2 120 1 1 1 1\n\
                    row 4f420000 16 3 1 12 36 4 80da8ccc11daadf6\n\
                    row 444e4131 32 0 1 40 64 52 65a7d625b7162ce0\n";
    assert_eq!(answer(b'F', &scene()), expected);
    let with_more = [scene(), b"later".to_vec()].concat();
    assert_eq!(answer(b'F', &with_more), expected);
}

/// The address and the numbers of the catalogue follow the file's order; index, size and count of
/// New are always little.
#[test]
fn block_headers_by_form() {
    let check = |header: &[u8], numbers: [Vec<u8>; 4], order: Order, words: &str| {
        let code_and_numbers = [b"DNA1".to_vec(), numbers.concat()].concat();
        let bytes = [header, &code_and_numbers, &catalogue(order), b"ENDB"].concat();
        let (at, payload_at) = (header.len(), header.len() + code_and_numbers.len());
        let row = format!("\nrow 444e4131 {} {} {} 52 ", words, at, payload_at);
        let text = answer(b'F', &bytes);
        assert!(text.contains(&row), "{} in {}", row, text);
    };
    let legacy = |order: Order, address: Vec<u8>| {
        let [size, index, count] = [52, 3, 0xffff_fffe].map(|value| number(value, 4, order));
        [size, address, index, count]
    };
    let narrow = legacy(Little, number(0x0102, 4, Little));
    check(b"BLENDER_v280", narrow, Little, "258 3 4294967294");
    let wide = legacy(Big, number(1 << 32, 8, Big));
    check(b"BLENDER-V280", wide, Big, "4294967296 3 4294967294");
    let new = |address: Vec<u8>| {
        let [size, count] = [52, 1 << 40].map(|value| number(value, 8, Little));
        [number(3, 4, Little), address, size, count]
    };
    let narrow = new(number(0x0102, 4, Big));
    check(b"BLENDER17_01V0501", narrow, Big, "258 3 1099511627776");
    let wide = new(number(1 << 32, 8, Big));
    let words = "4294967296 3 1099511627776";
    check(b"BLENDER17-01V0501", wide, Big, words);
}

/// The block given is the first of two, at offset 12, its payload at 36.
fn assert_first_block(block: Vec<u8>, expected: &str) {
    let bytes = file(&[block, dna1(&catalogue(Little))]);
    assert_eq!(first_line(b'F', &bytes), expected);
}

#[test]
fn blocks_are_taken() {
    let expected = "file legacy 64 little 2 80 2 116 1 1 1 1";
    assert_first_block(block(b"\0\0\0\0", 0, 16, 1, b""), expected);
    assert_first_block(block(b"REND", 0, 16, 7, b""), expected);
    let expected = "file legacy 64 little 2 80 2 124 1 1 1 1";
    assert_first_block(block(b"DATA", 8, 16, 1, b"ENDBENDB"), expected);
}

#[test]
fn the_parts_of_a_block_are_checked_in_order() {
    assert_first_block(block(b"\0\0\0\0", 0, 16, 2, b""), "refused 4");
    assert_first_block(block(b"OB\0\0", 2, 16, 0, b"ab"), "refused 4");
    assert_first_block(block(b"OB\0\0", 1000, 16, 2, b""), "refused 16 36");
    assert_first_block(block(b"REND", 0, 0, 1, b""), "refused 3");
    assert_first_block(block(b"ABCD", 1000, 0, 2, b""), "refused 3");
    assert_first_block(block(b"ABCD", 1000, 16, 1, b""), "refused 16 36");
    assert_first_block(block(b"ABCD", 0, 16, 1, b""), "refused 5");
    assert_first_block(block(b"OB\0x", 0, 16, 1, b""), "refused 5");
    assert_first_block(block(b"DNA1", 4, 16, 1, b"SDNB"), "refused 17 36");
    assert_first_block(block(b"DNA1", 3, 16, 1, b"SDN"), "refused 16 36");
}

#[test]
fn files_are_cut() {
    let starts = [7, 8, 9, 12, 16, 20, 28, 32, 36, 40, 44, 48, 56, 60, 64, 116];
    assert_cuts(b'F', &scene(), 7, &starts);
    let zero_address = patched(&scene(), 20, &[0; 8]);
    assert_eq!(first_line(b'F', &zero_address[..27]), "refused 16 20");
    assert_eq!(first_line(b'F', &zero_address[..28]), "refused 3");
}

#[test]
fn the_last_block_must_be_the_catalogue() {
    let dna = dna1(&catalogue(Little));
    let data = block(b"DATA", 0, 16, 1, b"");
    let ends_with_data = file(&[dna.clone(), data.clone()]);
    assert_eq!(first_line(b'F', &ends_with_data), "refused 6");
    let several = file(&[dna.clone(), data, dna.clone()]);
    let expected = "file legacy 64 little 2 80 3 192 1 1 1 1";
    assert_eq!(first_line(b'F', &several), expected);
    let spoiled = patched(&dna, 24 + 16, b"X");
    assert_eq!(first_line(b'F', &file(&[spoiled, dna])), "refused 17 52");
}

#[test]
fn sizes_at_the_edges() {
    let start = b"BLENDER17-01v0501DNA1".to_vec();
    let (index, address) = (number(3, 4, Little), number(16, 8, Little));
    let bytes = [start, index, address, vec![0; 16], catalogue(Little)].concat();
    let line = |size: u64| first_line(b'F', &patched(&bytes, 33, &size.to_le_bytes()));
    let wrapped = 49u64.wrapping_neg();
    for size in [53, 1 << 31, 1 << 32, 1 << 63, wrapped, u64::MAX] {
        assert_eq!(line(size), "refused 16 49");
    }
    assert_eq!(line(52), "refused 16 101");
    assert_eq!(line(51), "refused 16 99");
}

#[test]
fn counts_at_the_edges() {
    let whole = catalogue(Little);
    for at in [8, 20, 40] {
        for count in [100, 1 << 30, 1 << 31, u64::from(u32::MAX)] {
            let bytes = patched(&whole, at, &number(count, 4, Little));
            assert_eq!(answer(b'C', &bytes), "refused 16 52\n");
        }
    }
    let fields = patched(&whole, 46, &[0xff; 2]);
    assert_eq!(answer(b'C', &fields), "refused 16 52\n");
}

#[test]
fn catalogues_are_read() {
    let lines = "dna 1 1 1 1 52\nname 1 78\ntype 4 3 696e74\nstruct 0 0 1\nfield 0 0\n";
    assert_eq!(answer(b'C', &catalogue(Little)), lines);
    assert_eq!(answer(b'c', &catalogue(Big)), lines);
    let with_more = [catalogue(Little), vec![7; 5]].concat();
    assert_eq!(answer(b'C', &with_more), lines);
    let padded = patched(&patched(&catalogue(Little), 14, b"ab"), 34, b"cd");
    assert_eq!(answer(b'C', &padded), lines);
    let empty = b"SDNANAME\0\0\0\0TYPE\0\0\0\0TLENSTRC\0\0\0\0";
    assert_eq!(answer(b'C', empty), "dna 0 0 0 0 32\n");
    assert_eq!(answer(b'c', empty), "dna 0 0 0 0 32\n");
}

/// Padding is over the whole list: "ab", "" and "c" take 6 bytes, so 2 follow. Two types need no
/// padding of their sizes.
#[test]
fn a_catalogue_of_several() {
    let bytes = b"SDNANAME\0\0\0\x03ab\0\0c\0..TYPE\0\0\0\x02int\0\0...TLEN\0\x04\0\x08\
                  STRC\0\0\0\x02\0\x01\0\x02\0\0\0\x01\x01\0\0\x02\0\x01\0\0";
    let expected = "dna 3 2 2 2 68\nname 2 6162\nname 0\nname 1 63\ntype 4 3 696e74\ntype 8 0\n\
                    struct 1 0 2\nstruct 1 2 0\nfield 0 1\nfield 256 2\n";
    assert_eq!(answer(b'c', bytes), expected);
}

#[test]
fn catalogues_are_cut() {
    assert_cuts(b'C', &catalogue(Little), 0, &CATALOGUE_STARTS);
    assert_cuts(b'c', &catalogue(Big), 0, &CATALOGUE_STARTS);
}

#[test]
fn catalogues_have_wrong_marks() {
    let whole = catalogue(Little);
    for at in [0, 4, 16, 28, 36] {
        let spoiled = patched(&whole, at, b"x");
        assert_eq!(answer(b'C', &spoiled), format!("refused 17 {}\n", at));
        let short = &spoiled[..at + 3];
        assert_eq!(answer(b'C', short), format!("refused 16 {}\n", at));
    }
}

#[test]
fn a_string_without_its_zero() {
    let bytes = b"SDNANAME\x02\0\0\0ab\0cdefghijklmnop";
    assert_eq!(answer(b'C', bytes), "refused 16 15\n");
}

/// In a file the offset counts from the file's start, and the payload's end cuts, not the file's.
#[test]
fn catalogues_are_cut_inside_a_file() {
    let whole = catalogue(Little);
    for length in 0..whole.len() {
        let at = 36 + last_start(&CATALOGUE_STARTS, length);
        assert_first_block(dna1(&whole[..length]), &format!("refused 16 {}", at));
    }
}

#[test]
fn function_pointers() {
    let examples: [(&[u8], &str); 17] = [
        (b"(*f)()", "fn 2 1 6 0"),
        (b"(*)()", "fn 2 0 5 0"),
        (b"(*f)(int a)[3]", "fn 2 1 11 3"),
        (b"(*(*f)((x)))", "fn 2 3 10 2"),
        (b"(*\xff\0)())", "fn 2 2 7 1"),
        (b"", "refused 16 0"),
        (b"(", "refused 16 0"),
        (b"x", "refused 16 0"),
        (b"(x", "refused 17 0"),
        (b"*f", "refused 17 0"),
        (b"(*", "refused 16 2"),
        (b"(*f", "refused 16 2"),
        (b"(*f)", "refused 16 4"),
        (b"(*f)x", "refused 17 4"),
        (b"(*f))(", "refused 17 4"),
        (b"(*f)(", "refused 16 5"),
        (b"(*f)(int", "refused 16 5"),
    ];
    asserts(b'f', &examples);
}

#[test]
fn other_kinds_have_no_answer() {
    for kind in (0..=255).filter(|kind| !b"FHCcf".contains(kind)) {
        assert_eq!(lines(kind, b"(*f)()"), None);
    }
}

#[test]
fn generated_inputs_are_answered() {
    let mut random = Random::new(1);
    for _ in 0..2000 {
        let record = fault_inputs::record(&mut random);
        assert!(answer(record.kind, &record.input).ends_with('\n'));
    }
}
