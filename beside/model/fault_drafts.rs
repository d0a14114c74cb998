//! Inputs that know where their parts lie, written from documents 01 and 02 without the code.
//!
//! A part is what document 02's request 3 calls one read, so that a damage can be aimed at it.

use crate::fault_reads::Order;
use crate::random::Random;

#[derive(Clone, Copy, Debug, PartialEq)]
pub enum What {
    /// A mark of the header or the catalogue, or the end mark.
    Mark,
    Code,
    Address,
    /// The count in the header of a Principal, which must be 1.
    PrincipalCount,
    /// A number that says how much is to be read.
    Extent,
    /// A number that may have any value.
    Value,
    String,
    Padding,
    Payload,
    /// Unchecked bytes and version bytes of the header, and bytes that are never read.
    Run,
}

pub const EVERY_WHAT: [What; 10] = [
    What::Mark,
    What::Code,
    What::Address,
    What::PrincipalCount,
    What::Extent,
    What::Value,
    What::String,
    What::Padding,
    What::Payload,
    What::Run,
];

/// `order` matters for numbers alone.
#[derive(Clone, Copy)]
pub struct Part {
    pub what: What,
    pub at: usize,
    pub length: usize,
    order: Order,
}

#[derive(Default)]
pub struct Draft {
    pub bytes: Vec<u8>,
    pub parts: Vec<Part>,
}

impl Draft {
    pub fn add(&mut self, what: What, bytes: &[u8]) {
        self.add_part(what, bytes.len(), Order::Little);
        self.bytes.extend_from_slice(bytes);
    }

    /// A number of so many bytes; what does not fit in them is dropped.
    pub fn add_number(&mut self, what: What, number: u64, length: usize, order: Order) {
        self.add_part(what, length, order);
        self.bytes.extend(number_bytes(number, length, order));
    }

    /// The other draft as one part, with its own parts inside.
    pub fn add_draft(&mut self, what: What, draft: &Draft) {
        let start = self.bytes.len();
        self.add(what, &draft.bytes);
        self.parts.extend(draft.parts.iter().map(|part| Part {
            at: start + part.at,
            ..*part
        }));
    }

    pub fn number(&self, part: Part) -> u64 {
        let bytes = &self.bytes[part.at..part.at + part.length];
        let add = |value: u64, byte: &u8| value << 8 | u64::from(*byte);
        match part.order {
            Order::Little => bytes.iter().rev().fold(0, add),
            Order::Big => bytes.iter().fold(0, add),
        }
    }

    pub fn set_number(&mut self, part: Part, number: u64) {
        let bytes = number_bytes(number, part.length, part.order);
        self.bytes.splice(part.at..part.at + part.length, bytes);
    }

    /// Forgets the parts that do not lie wholly before `end`.
    pub fn forget_from(&mut self, end: usize) {
        self.parts.retain(|part| part.at + part.length <= end);
    }

    /// Some part of this sort, if there is one.
    pub fn pick(&self, random: &mut Random, what: What) -> Option<Part> {
        let fits = |part: &&Part| part.what == what;
        let count = self.parts.iter().filter(fits).count();
        let number = random.below(count as u64) as usize;
        self.parts.iter().filter(fits).nth(number).copied()
    }

    fn add_part(&mut self, what: What, length: usize, order: Order) {
        let at = self.bytes.len();
        self.parts.push(Part {
            what,
            at,
            length,
            order,
        });
    }
}

fn number_bytes(number: u64, length: usize, order: Order) -> Vec<u8> {
    let mut bytes = number.to_le_bytes()[..length].to_vec();
    if order == Order::Big {
        bytes.reverse();
    }
    bytes
}
