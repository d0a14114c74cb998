//! Examples of document 01 and of CR 2 of document 02, and others worked out by
//! hand from their rules. Written without the code.

use crate::widths::{name_lines, record_lines};

const VALUE: u64 = 0;
const ARRAY: u64 = 1;
const POINTER: u64 = 2;
const POINTER_ARRAY: u64 = 3;
const FUNCTION: u64 = 4;

const HALF: u64 = 1 << 63;

/// The answer for a name, with its lines parted by a slash.
fn asked(of_type: u64, pointer_bytes: u64, name: &[u8]) -> String {
    let mut input = bytes(&[of_type, pointer_bytes]);
    input.extend(name);
    one_line(&name_lines(&input))
}

/// The answer for a field of 4 bytes to a value and 8 to a pointer.
fn usual(name: &[u8]) -> String {
    asked(4, 8, name)
}

/// The width of a record whose other numbers mean nothing.
fn made(kind: u64, rest_length: u64, length: u64, of_type: u64, pointer_bytes: u64) -> String {
    let numbers = [
        kind,
        7,
        u64::MAX,
        9,
        rest_length,
        u64::MAX,
        length,
        u64::MAX,
        of_type,
        pointer_bytes,
    ];
    one_line(&record_lines(&bytes(&numbers)))
}

fn bytes(numbers: &[u64]) -> Vec<u8> {
    let parts: Vec<[u8; 8]> = numbers.iter().map(|number| number.to_le_bytes()).collect();
    parts.concat()
}

/// Every line must have its newline.
fn one_line(lines: &str) -> String {
    assert!(lines.ends_with('\n'));
    lines.trim_end_matches('\n').replace('\n', " / ")
}

#[test]
fn examples_of_document_01() {
    assert_eq!(usual(b"a[3"), "array 0 1 1 2 0 1 0 / refused 15");
    assert_eq!(usual(b"a[]"), "refused 9 / none");
    assert_eq!(usual(b"a[+3]"), "array 0 1 5 0 0 3 1 / width 12");
    assert_eq!(usual(b"a[-0]"), "refused 9 / none");
    assert_eq!(usual(b"*m[2][3]"), "pointer-array 1 1 8 0 1 6 2 / width 48");
    assert_eq!(usual(b"(*f)"), "value 0 4 4 0 0 1 0 / width 4");
    assert_eq!(usual(b"(*f)()"), "function 2 1 6 0 0 1 0 / width 8");
    assert_eq!(usual(b""), "value 0 0 0 0 0 1 0 / width 4");
}

#[test]
fn example_of_change_request_2() {
    assert_eq!(usual(b"mat[4"), "array 0 3 3 2 0 1 0 / refused 15");
    assert_eq!(usual(b"mat[4]"), "array 0 3 6 0 0 4 1 / width 16");
}

#[test]
fn pointer_bytes_are_4_or_8() {
    assert_eq!(asked(1, 4, b"**p"), "pointer 2 1 3 0 2 1 0 / width 4");
    assert_eq!(asked(1, 8, b"**p"), "pointer 2 1 3 0 2 1 0 / width 8");
    assert_eq!(asked(1, 0, b"**p"), "pointer 2 1 3 0 2 1 0 / width 8");
    assert_eq!(
        asked(1, 4 + (1 << 32), b"*"),
        "pointer 1 0 1 0 1 1 0 / width 8"
    );
    assert_eq!(
        asked(1, 4, b"*m[2][3]"),
        "pointer-array 1 1 8 0 1 6 2 / width 24"
    );
    assert_eq!(asked(1, 4, b"(*f)()"), "function 2 1 6 0 0 1 0 / width 4");
}

#[test]
fn function_pointers_need_all_their_parts() {
    assert_eq!(usual(b"(*)()"), "function 2 0 5 0 0 1 0 / width 8");
    assert_eq!(usual(b"(**f)(int)"), "function 2 2 10 0 0 1 0 / width 8");
    assert_eq!(usual(b"(*f[2])([x])"), "function 2 4 12 0 0 1 0 / width 8");
    assert_eq!(usual(b"(*f)(("), "value 0 6 6 0 0 1 0 / width 4");
    assert_eq!(usual(b"(*f) ()"), "value 0 7 7 0 0 1 0 / width 4");
    assert_eq!(usual(b"(f)()"), "value 0 5 5 0 0 1 0 / width 4");
    assert_eq!(usual(b"*(*f)()"), "pointer 1 6 7 0 1 1 0 / width 8");
    assert_eq!(usual(b"(*f[2])("), "array 0 3 6 2 0 2 1 / refused 15");
    assert_eq!(usual(b"(*f)[x]"), "refused 9 / none");
}

#[test]
fn function_pointers_with_a_rest_have_no_width() {
    assert_eq!(usual(b"(*f)()[3]"), "function 2 1 6 3 0 1 0 / refused 15");
    assert_eq!(usual(b"(*f)()[x]"), "function 2 1 6 3 0 1 0 / refused 15");
    assert_eq!(usual(b"(*f)(())"), "function 2 1 7 1 0 1 0 / refused 15");
}

#[test]
fn groups_end_at_the_first_byte_outside() {
    assert_eq!(usual(b"a[2]x[]"), "array 0 1 4 3 0 2 1 / refused 15");
    assert_eq!(usual(b"a[2]]"), "array 0 1 4 1 0 2 1 / refused 15");
    assert_eq!(usual(b"a]b[2]"), "array 0 3 6 0 0 2 1 / width 8");
    assert_eq!(usual(b"*["), "pointer-array 1 0 1 1 1 1 0 / refused 15");
    assert_eq!(usual(b"[5]"), "array 0 0 3 0 0 5 1 / width 20");
    assert_eq!(usual(b"a[[3]"), "refused 9 / none");
    assert_eq!(usual(b"\xff[3]\xff"), "array 0 1 4 1 0 3 1 / refused 15");
}

#[test]
fn a_size_is_decimal_up_to_the_greatest_number() {
    assert_eq!(
        asked(1, 8, b"a[18446744073709551615]"),
        "array 0 1 23 0 0 18446744073709551615 1 / width 18446744073709551615"
    );
    assert_eq!(usual(b"a[18446744073709551616]"), "refused 9 / none");
    assert_eq!(usual(b"a[18446744073709551620][0]"), "refused 9 / none");
    assert_eq!(
        usual(b"a[+000000000000000000000007]"),
        "array 0 1 28 0 0 7 1 / width 28"
    );
    let refused: [&[u8]; 8] = [
        b"a[+]", b"a[++1]", b"a[ 1]", b"a[1 ]", b"a[0x1]", b"a[/]", b"a[:]", b"a[\xb2]",
    ];
    for name in refused.iter() {
        assert_eq!(usual(name), "refused 9 / none");
    }
}

#[test]
fn the_product_of_the_sizes_is_exact() {
    assert_eq!(
        asked(1, 8, b"a[6700417][2753074036095]"),
        "array 0 1 25 0 0 18446744073709551615 2 / width 18446744073709551615"
    );
    assert_eq!(usual(b"a[4294967296][4294967296]"), "refused 10 / none");
    assert_eq!(
        usual(b"a[4294967296][4294967296][0]"),
        "array 0 1 28 0 0 0 3 / width 0"
    );
    assert_eq!(
        usual(b"a[0][4294967296][4294967296]x"),
        "array 0 1 28 1 0 0 3 / refused 15"
    );
    assert_eq!(usual(b"a[4294967296][4294967296][]"), "refused 9 / none");
    assert_eq!(usual(b"a[4294967296][4294967296]["), "refused 10 / none");
}

#[test]
fn a_width_above_the_greatest_number_is_refused() {
    assert_eq!(
        asked(2, 8, b"a[9223372036854775808]"),
        "array 0 1 22 0 0 9223372036854775808 1 / refused 10"
    );
    assert_eq!(
        asked(2, 8, b"a[9223372036854775807]"),
        "array 0 1 22 0 0 9223372036854775807 1 / width 18446744073709551614"
    );
    assert_eq!(
        asked(0, 8, b"a[9223372036854775808]"),
        "array 0 1 22 0 0 9223372036854775808 1 / width 0"
    );
    assert_eq!(
        asked(0, 8, b"*a[2305843009213693952]"),
        "pointer-array 1 1 23 0 1 2305843009213693952 1 / refused 10"
    );
    assert_eq!(
        asked(0, 4, b"*a[2305843009213693952]"),
        "pointer-array 1 1 23 0 1 2305843009213693952 1 / width 9223372036854775808"
    );
}

#[test]
fn a_rest_is_refused_before_a_width_too_large() {
    assert_eq!(
        asked(2, 8, b"a[9223372036854775808] "),
        "array 0 1 22 1 0 9223372036854775808 1 / refused 15"
    );
}

#[test]
fn records_by_hand_use_only_the_numbers_of_their_kind() {
    assert_eq!(made(VALUE, 0, HALF, 6, 4), "width 6");
    assert_eq!(made(ARRAY, 0, 3, 6, 4), "width 18");
    assert_eq!(made(POINTER, 0, HALF, 6, 4), "width 4");
    assert_eq!(made(POINTER_ARRAY, 0, 3, HALF, 5), "width 24");
    assert_eq!(made(FUNCTION, 0, HALF, HALF, 0), "width 8");
    assert_eq!(made(ARRAY, 0, 0, HALF, 4), "width 0");
    assert_eq!(made(ARRAY, 0, HALF, 2, 4), "refused 10");
    assert_eq!(made(POINTER_ARRAY, 0, HALF, 0, 4), "refused 10");
}

#[test]
fn records_by_hand_with_a_rest_have_no_width() {
    for kind in VALUE..=FUNCTION {
        for rest_length in [1, 1 << 32, u64::MAX].iter() {
            assert_eq!(made(kind, *rest_length, 1, 1, 4), "refused 15");
            assert_eq!(made(kind, *rest_length, HALF, HALF, 8), "refused 15");
        }
    }
}

#[test]
fn malformed_inputs() {
    assert_eq!(one_line(&name_lines(&[])), "bad-input");
    assert_eq!(one_line(&name_lines(&[0; 15])), "bad-input");
    assert_eq!(one_line(&record_lines(&[0; 79])), "bad-input");
    assert_eq!(one_line(&record_lines(&[0; 81])), "bad-input");
    assert_eq!(made(FUNCTION + 1, 0, 1, 1, 4), "bad-input");
    assert_eq!(made(1 << 32, 1, 1, 1, 4), "bad-input");
}
