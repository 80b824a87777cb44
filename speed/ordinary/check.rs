//! The probe for a key, and the full check.

use super::digests::{fnv1a64, OneTable};
use super::header::{Header, DONE, NEEDS_REBUILD};
use super::layout::{u64_at, Options, EMPTY, TOMBSTONE};

pub enum Probe {
    Found {
        slot: usize,
        bucket: usize,
        examined: usize,
    },
    Absent {
        examined: usize,
    },
    Broken,
}

pub fn probe(image: &[u8], header: &Header, key: &[u8], hash: u64) -> Probe {
    let layout = &header.layout;
    let mut bucket = layout.home(hash);
    for examined in 1..=layout.bucket_count {
        match layout.bucket(image, bucket) {
            (_, EMPTY) => return Probe::Absent { examined },
            (_, TOMBSTONE) => {}
            (hash64, slot_plus1) => {
                let slot = (slot_plus1 - 1) as usize;
                if slot >= header.slot_highwater {
                    return Probe::Broken;
                }
                let bytes = layout.slot(image, slot);
                if hash64 == hash && layout.key_in(bytes) == key {
                    return if u64_at(bytes, 0) == 1 {
                        Probe::Found {
                            slot,
                            bucket,
                            examined,
                        }
                    } else {
                        Probe::Broken
                    };
                }
            }
        }
        bucket = layout.next_bucket(bucket);
    }
    Probe::Broken
}

/// Whether every FULL bucket points at a live slot and carries its key's hash, and FULL and TOMBSTONE are as many as the
/// header says.
fn buckets_fit(image: &[u8], header: &Header) -> bool {
    let layout = &header.layout;
    let mut full = 0;
    let mut tombstones = 0;
    for bucket in layout.buckets(image) {
        match bucket {
            (_, EMPTY) => {}
            (_, TOMBSTONE) => tombstones += 1,
            (hash64, slot_plus1) => {
                if slot_plus1 > header.slot_highwater as u64 {
                    return false;
                }
                let slot = layout.slot(image, slot_plus1 as usize - 1);
                if u64_at(slot, 0) != 1 || fnv1a64(layout.key_in(slot)) != hash64 {
                    return false;
                }
                full += 1;
            }
        }
    }
    full == header.live_count && tombstones == header.bucket_tombstones
}

/// Whether every slot given out is live or deleted, a probe for a live one's key finds it, the live ones are as many as
/// the header says, and keys do not fall where the image is ordered.
fn slots_fit(image: &[u8], header: &Header) -> bool {
    let layout = &header.layout;
    let mut live = 0;
    let mut last: &[u8] = &[];
    let slots = layout.slots(image).take(header.slot_highwater);
    for (number, bytes) in slots.enumerate() {
        let key = layout.key_in(bytes);
        match u64_at(bytes, 0) {
            0 => {}
            1 => match probe(image, header, key, fnv1a64(key)) {
                Probe::Found { slot, .. } if slot == number => live += 1,
                _ => return false,
            },
            _ => return false,
        }
        if layout.ordered && key < last {
            return false;
        }
        last = key;
    }
    live == header.live_count
}

/// The full check, where the header test has passed.
pub fn passes(image: &[u8], header: &Header) -> bool {
    buckets_fit(image, header) && slots_fit(image, header)
}

#[inline(never)]
pub fn full_check(image: &[u8], options: &Options) -> u32 {
    match Header::judge::<OneTable>(image, options) {
        Ok(header) if passes(image, &header) => DONE,
        Ok(_) => NEEDS_REBUILD,
        Err(number) => number,
    }
}
