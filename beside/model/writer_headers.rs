//! Headers to be written: those that their form has room for, and those it has none for.

use crate::fault_files::Edition::{self, Legacy, New};
use crate::fault_reads::Order::{self, Big, Little};
use crate::random::Random;
use crate::writer_records::Header;

type Form = (Edition, u64, Order);

const WRITTEN_FORMS: [Form; 5] = [
    (Legacy, 4, Little),
    (Legacy, 4, Big),
    (Legacy, 8, Little),
    (Legacy, 8, Big),
    (New, 8, Little),
];

const UNWRITTEN_FORMS: [Form; 3] = [(New, 4, Little), (New, 4, Big), (New, 8, Big)];

/// Both editions have room for these.
const VERSIONS: [(u64, u64); 8] = [
    (0, 0),
    (2, 79),
    (2, 80),
    (5, 1),
    (9, 99),
    (9, 0),
    (0, 99),
    (0, 9),
];

/// Only New has room for these.
const NEW_VERSIONS: [(u64, u64); 4] = [(10, 0), (99, 99), (12, 34), (99, 0)];

/// Neither has room for these. Some would fit if the minor were carried over into the major, some
/// if only 8 bits were kept, some if the digits were counted together.
const LARGE_VERSIONS: [(u64, u64); 16] = [
    (100, 0),
    (100, 100),
    (9, 100),
    (2, 100),
    (0, 100),
    (0, 999),
    (99, 100),
    (0, 9999),
    (98, 199),
    (256, 0),
    (2, 256),
    (258, 336),
    (999, 9),
    (65535, 0),
    (0, 65535),
    (65535, 65535),
];

pub fn header(random: &mut Random, form_has_room: bool, version_has_room: bool) -> Header {
    let (edition, pointer_bytes, order) = if form_has_room {
        random.pick(&WRITTEN_FORMS)
    } else {
        random.pick(&UNWRITTEN_FORMS)
    };
    let (major, minor) = if version_has_room {
        version(random, edition)
    } else {
        large_version(random, edition)
    };
    Header {
        edition,
        pointer_bytes,
        order,
        major,
        minor,
    }
}

fn version(random: &mut Random, edition: Edition) -> (u64, u64) {
    let majors = if edition == Legacy { 10 } else { 100 };
    let any = (random.below(majors), random.below(100));
    let both = random.pick(&VERSIONS);
    let new = random.pick(&NEW_VERSIONS);
    match edition {
        Legacy => random.pick(&[any, both]),
        New => random.pick(&[any, both, new]),
    }
}

fn large_version(random: &mut Random, edition: Edition) -> (u64, u64) {
    let large = random.pick(&LARGE_VERSIONS);
    let new = random.pick(&NEW_VERSIONS);
    match edition {
        Legacy => random.pick(&[large, new, (10, 0), (9, 100)]),
        New => random.pick(&[large, (100, 0), (99, 100)]),
    }
}
