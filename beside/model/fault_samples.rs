//! Headers, catalogues and files that read, written from documents 01 and 02 without the code.

use crate::fault_drafts::{Draft, What};
use crate::fault_reads::Order;
use crate::random::Random;

const LETTERS: &[u8] = b"abcdefghijklmnopqrstuvwxyzABCDXYZ_019";
const TAKEN_CODES: [&[u8; 4]; 4] = [b"REND", b"TEST", b"GLOB", b"DATA"];
const PRINCIPAL_CODES: [[u8; 2]; 6] = [*b"OB", *b"ME", *b"EN", *b"DA", [0, 0], [0, b'x']];
/// Some have a half of zeros, so that a reader of the other pointer size would see address 0.
const ADDRESSES: [u64; 7] = [1, 16, 1 << 24, 1 << 31, 1 << 32, 1 << 63, u64::MAX];
/// Counts that only a Principal may not have.
const COUNTS: [u64; 6] = [0, 1, 1, 2, 1 << 31, u64::MAX];

#[derive(Clone, Copy)]
pub struct Form {
    pub new: bool,
    pub wide: bool,
    pub order: Order,
}

pub fn form(random: &mut Random) -> Form {
    Form {
        new: random.chance(50),
        wide: random.chance(50),
        order: random.pick(&[Order::Little, Order::Big]),
    }
}

/// Bytes of any value, with more zeros than chance would give.
pub fn any_bytes(random: &mut Random, length: u64) -> Vec<u8> {
    let zeros = random.pick(&[0, 10, 50, 100]);
    let mut byte = || {
        if random.chance(zeros) {
            0
        } else {
            random.number() as u8
        }
    };
    (0..length).map(|_| byte()).collect()
}

pub fn letters(random: &mut Random, length: u64) -> Vec<u8> {
    (0..length).map(|_| random.pick(LETTERS)).collect()
}

pub fn header(random: &mut Random, form: Form) -> Draft {
    let mut draft = Draft::default();
    draft.add(What::Mark, b"BLENDER");
    if form.new {
        let unchecked = unchecked_bytes(random, b"17");
        draft.add(What::Run, &unchecked);
    }
    draft.add(What::Mark, if form.wide { b"-" } else { b"_" });
    if form.new {
        let unchecked = unchecked_bytes(random, b"01");
        draft.add(What::Run, &unchecked);
    }
    let little = form.order == Order::Little;
    draft.add(What::Mark, if little { b"v" } else { b"V" });
    let version = version(random, if form.new { 4 } else { 3 });
    draft.add(What::Run, &version);
    draft
}

fn unchecked_bytes(random: &mut Random, usual: &[u8]) -> Vec<u8> {
    if random.chance(70) {
        return usual.to_vec();
    }
    any_bytes(random, usual.len() as u64)
}

fn version(random: &mut Random, length: u64) -> Vec<u8> {
    let digits = random.pick(&[100, 100, 100, 60, 0]);
    let mut byte = || {
        if random.chance(digits) {
            return random.pick(b"0123456789");
        }
        random.number() as u8
    };
    (0..length).map(|_| byte()).collect()
}

/// `large` brings the catalogue to some thousand bytes at most.
pub fn catalogue(random: &mut Random, order: Order, large: bool) -> Draft {
    let [names, types, structs, fields] = if large {
        [50, 30, 15, 10]
    } else {
        [6, 5, 4, 4]
    };
    let mut draft = Draft::default();
    draft.add(What::Mark, b"SDNA");
    let names = random.below(names);
    add_strings(&mut draft, random, b"NAME", names, order);
    let types = random.below(types);
    add_strings(&mut draft, random, b"TYPE", types, order);
    draft.add(What::Mark, b"TLEN");
    for _ in 0..types {
        draft.add_number(What::Value, random.number(), 2, order);
    }
    if types % 2 == 1 {
        add_padding(&mut draft, random, 2);
    }
    draft.add(What::Mark, b"STRC");
    let structs = random.below(structs);
    draft.add_number(What::Extent, structs, 4, order);
    for _ in 0..structs {
        add_struct(&mut draft, random, fields, order);
    }
    if random.chance(30) {
        let length = 1 + random.below(12);
        let tail = any_bytes(random, length);
        draft.add(What::Run, &tail);
    }
    draft
}

fn add_strings(draft: &mut Draft, random: &mut Random, mark: &[u8], count: u64, order: Order) {
    draft.add(What::Mark, mark);
    draft.add_number(What::Extent, count, 4, order);
    let start = draft.bytes.len();
    for _ in 0..count {
        let mut string = name(random);
        string.push(0);
        draft.add(What::String, &string);
    }
    let length = (draft.bytes.len() - start) % 4;
    if length != 0 {
        add_padding(draft, random, 4 - length as u64);
    }
}

fn add_padding(draft: &mut Draft, random: &mut Random, length: u64) {
    let padding = any_bytes(random, length);
    draft.add(What::Padding, &padding);
}

fn add_struct(draft: &mut Draft, random: &mut Random, fields: u64, order: Order) {
    let fields = random.below(fields);
    draft.add_number(What::Value, random.below(300), 2, order);
    draft.add_number(What::Extent, fields, 2, order);
    for _ in 0..2 * fields {
        let number = random.pick(&[0, 1, 2, 3, 0x100, 0xffff]);
        draft.add_number(What::Value, number, 2, order);
    }
}

/// A name of 0 to 20 bytes without a zero, short ones more often.
fn name(random: &mut Random) -> Vec<u8> {
    let longest = random.below(21);
    let length = random.below(longest + 1);
    let mut name = letters(random, length);
    match random.below(10) {
        0 | 1 => name.insert(0, b'*'),
        2 | 3 => name.extend_from_slice(b"[3]"),
        4 => name = [b"(*", name.as_slice(), b")()"].concat(),
        5 => name
            .iter_mut()
            .for_each(|byte| *byte = 1 + random.below(255) as u8),
        _ => {}
    }
    name.truncate(20);
    name
}

/// What a file is made of besides chance. The catalogues are its DNA1 payloads, damaged or not:
/// the last of them, if `ends_with_catalogue`, is the last block's.
pub struct Plan {
    pub form: Form,
    pub catalogues: Vec<Draft>,
    pub ends_with_catalogue: bool,
    pub longest_payload: u64,
}

/// A file whose every block has a payload of the size it tells, an address and a code.
pub fn file(random: &mut Random, plan: &Plan) -> Draft {
    let mut draft = Draft::default();
    let header = header(random, plan.form);
    draft.add_draft(What::Run, &header);
    for (number, catalogue) in plan.catalogues.iter().enumerate() {
        let blocks = random.below(if number == 0 { 4 } else { 2 });
        add_blocks(&mut draft, random, plan, blocks);
        let (code, count) = (*b"DNA1", random.pick(&COUNTS));
        add_block_header(
            &mut draft,
            random,
            plan.form,
            code,
            catalogue.bytes.len(),
            count,
        );
        draft.add_draft(What::Payload, catalogue);
    }
    if !plan.ends_with_catalogue {
        let least = plan.catalogues.len().min(1) as u64;
        let blocks = least + random.below(3);
        add_blocks(&mut draft, random, plan, blocks);
    }
    draft.add(What::Mark, b"ENDB");
    if random.chance(35) {
        let length = 1 + random.below(40);
        let tail = any_bytes(random, length);
        draft.add(What::Run, &tail);
    }
    draft
}

fn add_blocks(draft: &mut Draft, random: &mut Random, plan: &Plan, count: u64) {
    for _ in 0..count {
        let length = random.below(plan.longest_payload);
        let payload = match random.below(6) {
            0 => Vec::new(),
            1 => [b"ENDB", letters(random, length).as_slice()].concat(),
            2 => [b"DNA1", any_bytes(random, length).as_slice()].concat(),
            _ => any_bytes(random, length),
        };
        let (code, count) = code_and_count(random);
        add_block_header(draft, random, plan.form, code, payload.len(), count);
        draft.add(What::Payload, &payload);
    }
}

fn code_and_count(random: &mut Random) -> ([u8; 4], u64) {
    if random.chance(45) {
        return (*random.pick(&TAKEN_CODES), random.pick(&COUNTS));
    }
    let [first, second] = random.pick(&PRINCIPAL_CODES);
    ([first, second, 0, 0], 1)
}

fn add_block_header(
    draft: &mut Draft,
    random: &mut Random,
    form: Form,
    code: [u8; 4],
    size: usize,
    count: u64,
) {
    let principal = code[2..] == [0, 0];
    let count_what = if principal {
        What::PrincipalCount
    } else {
        What::Value
    };
    draft.add(What::Code, &code);
    if form.new {
        draft.add_number(What::Value, random.below(1000), 4, Order::Little);
        add_address(draft, random, form);
        draft.add_number(What::Extent, size as u64, 8, Order::Little);
        draft.add_number(count_what, count, 8, Order::Little);
    } else {
        draft.add_number(What::Extent, size as u64, 4, form.order);
        add_address(draft, random, form);
        draft.add_number(What::Value, random.below(1000), 4, form.order);
        draft.add_number(count_what, count, 4, form.order);
    }
}

fn add_address(draft: &mut Draft, random: &mut Random, form: Form) {
    let length = if form.wide { 8 } else { 4 };
    let any = random.number();
    let mut address = random.pick(&ADDRESSES);
    if random.chance(30) {
        address = any;
    }
    if !form.wide && address as u32 == 0 {
        address = 7;
    }
    draft.add_number(What::Address, address, length, form.order);
}
