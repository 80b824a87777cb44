//! The lookup.

use super::check::{probe, Probe};
use super::digests::{fnv1a64, Crc32c};
use super::header::{Header, DONE, INVALID_INPUT, NEEDS_REBUILD, NOT_PRESENT};
use super::layout::{u64_at, Options};

/// The answer, the slot, the revision and the number of buckets examined: 0 where the answer leaves them open.
#[derive(Clone, Copy, Debug, Default, PartialEq, Eq)]
pub struct Lookup {
    pub answer: u32,
    pub slot: u64,
    pub revision: i64,
    pub buckets: u64,
}

fn refused(answer: u32) -> Lookup {
    Lookup {
        answer,
        ..Lookup::default()
    }
}

pub fn lookup<C: Crc32c>(image: &[u8], options: &Options, key: &[u8]) -> Lookup {
    let header = match Header::judge::<C>(image, options) {
        Ok(header) => header,
        Err(number) => return refused(number),
    };
    let layout = &header.layout;
    if key.len() != layout.key_size {
        return refused(INVALID_INPUT);
    }
    match probe(image, &header, key, fnv1a64(key)) {
        Probe::Found { slot, examined, .. } => Lookup {
            answer: DONE,
            slot: slot as u64,
            revision: u64_at(layout.slot(image, slot), layout.revision_at()) as i64,
            buckets: examined as u64,
        },
        Probe::Absent { examined } => Lookup {
            answer: NOT_PRESENT,
            buckets: examined as u64,
            ..Lookup::default()
        },
        Probe::Broken => refused(NEEDS_REBUILD),
    }
}
