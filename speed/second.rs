//! Lookups that the second program made, by speed/lookups.py: every side must give its numbers before it is timed.

use crate::lookups::differ;
use crate::ordinary::layout::Options;
use crate::ordinary::lookup::Lookup;
use crate::sides::lookups;

/// What is left of them.
struct Cases<'a>(&'a [u8]);

impl<'a> Cases<'a> {
    fn bytes(&mut self, count: usize) -> &'a [u8] {
        let (bytes, rest) = self.0.split_at(count);
        self.0 = rest;
        bytes
    }

    fn number(&mut self) -> u64 {
        u64::from_le_bytes(self.bytes(8).try_into().unwrap())
    }

    fn counted(&mut self) -> &'a [u8] {
        let count = self.number() as usize;
        self.bytes(count)
    }

    fn options(&mut self) -> Options {
        Options {
            key_size: self.number(),
            index_size: self.number(),
            slot_capacity: self.number(),
            user_version: self.number(),
            ordered: self.number(),
            role: self.number(),
        }
    }

    fn lookup(&mut self) -> Lookup {
        Lookup {
            answer: self.number() as u32,
            slot: self.number(),
            revision: self.number() as i64,
            buckets: self.number(),
        }
    }
}

/// The number of lookups; Err says which side gives other numbers.
pub fn compare(file: &[u8]) -> Result<usize, String> {
    let mut cases = Cases(file);
    let mut compared = 0;
    while !cases.0.is_empty() {
        let (options, image) = (cases.options(), cases.counted());
        for _ in 0..cases.number() {
            let (key, wanted) = (cases.counted(), cases.lookup());
            for (name, lookup) in lookups() {
                let found = lookup(image, &options, key);
                if found != wanted {
                    return Err(differ(name, &found, &wanted));
                }
            }
            compared += 1;
        }
    }
    Ok(compared)
}
