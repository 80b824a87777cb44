//! The commit.

use std::collections::HashSet;
use std::hash::{BuildHasherDefault, Hash, Hasher};

use super::check::{passes, probe, Probe};
use super::digests::fnv1a64;
use super::header::{Header, DONE, FULL, INVALID_INPUT, NEEDS_REBUILD, OUT_OF_ORDER};
use super::layout::{put_u64, u64_at, Layout, Options, EMPTY, KEY_AT, TOMBSTONE};

pub const BATCH_LIMIT: usize = 1024;

/// A key with the hash that the format asks for, which serves the set of keys too.
#[derive(Clone, Copy, PartialEq, Eq)]
struct Key<'a> {
    hash: u64,
    bytes: &'a [u8],
}

impl Hash for Key<'_> {
    fn hash<H: Hasher>(&self, state: &mut H) {
        state.write_u64(self.hash);
    }
}

#[derive(Default)]
struct AsItIs(u64);

impl Hasher for AsItIs {
    fn write(&mut self, _: &[u8]) {
        unreachable!("a key's hash is a u64");
    }

    fn write_u64(&mut self, hash: u64) {
        self.0 = hash;
    }

    fn finish(&self) -> u64 {
        self.0
    }
}

#[derive(Clone, Copy)]
struct Record<'a> {
    key: Key<'a>,
    bytes: &'a [u8],
}

impl Record<'_> {
    fn is_put(&self) -> bool {
        u64_at(self.bytes, 0) == 1
    }
}

/// What a batch does, each record by its turn: a put or a delete of a live key, and the new keys in the order in which
/// they get their slots.
pub struct Plan<'a> {
    puts: Vec<(usize, Record<'a>)>,
    deletes: Vec<(usize, usize, Record<'a>)>,
    new: Vec<Record<'a>>,
}

fn is_zero(bytes: &[u8]) -> bool {
    bytes.iter().all(|&byte| byte == 0)
}

fn well_formed(layout: &Layout, record: &[u8]) -> bool {
    let revision_at = layout.revision_at();
    let index_end = layout.index_at() + layout.index_size;
    let content = &record[revision_at..index_end];
    is_zero(&record[KEY_AT + layout.key_size..revision_at])
        && is_zero(&record[index_end..])
        && match u64_at(record, 0) {
            0 => is_zero(content),
            meta => meta == 1,
        }
}

fn batch_fits(layout: &Layout, batch: &[u8]) -> bool {
    let mut records = batch.chunks_exact(layout.slot_size);
    records.len() <= BATCH_LIMIT
        && records.remainder().is_empty()
        && records.all(|record| well_formed(layout, record))
}

/// The last record for each key, in the batch's order.
fn deciding_records<'a>(layout: &Layout, batch: &'a [u8]) -> Vec<Record<'a>> {
    let records = batch.chunks_exact(layout.slot_size);
    let mut seen: HashSet<Key, BuildHasherDefault<AsItIs>> =
        HashSet::with_capacity_and_hasher(records.len(), Default::default());
    let mut deciding = Vec::with_capacity(records.len());
    for bytes in records.rev() {
        let key = layout.key_in(bytes);
        let key = Key {
            hash: fnv1a64(key),
            bytes: key,
        };
        if seen.insert(key) {
            deciding.push(Record { key, bytes });
        }
    }
    deciding.reverse();
    deciding
}

impl<'a> Plan<'a> {
    pub fn of(image: &[u8], header: &Header, batch: &'a [u8]) -> Plan<'a> {
        let deciding = deciding_records(&header.layout, batch);
        let mut plan = Plan {
            puts: Vec::new(),
            deletes: Vec::new(),
            new: Vec::with_capacity(deciding.len()),
        };
        for record in deciding {
            match probe(image, header, record.key.bytes, record.key.hash) {
                Probe::Found { slot, .. } if record.is_put() => plan.puts.push((slot, record)),
                Probe::Found { slot, bucket, .. } => plan.deletes.push((slot, bucket, record)),
                _ if record.is_put() => plan.new.push(record),
                _ => {}
            }
        }
        if header.layout.ordered {
            plan.new.sort_unstable_by_key(|record| record.key.bytes);
        }
        plan
    }

    fn room_test(&self, image: &[u8], header: &Header) -> Result<(), u32> {
        let layout = &header.layout;
        if self.new.len() > layout.slot_capacity - header.slot_highwater {
            return Err(FULL);
        }
        if let (true, Some(first), true) =
            (layout.ordered, self.new.first(), header.slot_highwater > 0)
        {
            let last = layout.slot(image, header.slot_highwater - 1);
            if first.key.bytes < layout.key_in(last) {
                return Err(OUT_OF_ORDER);
            }
        }
        Ok(())
    }

    /// Changes the image; the header's counters are brought up to date, and written last.
    pub fn act(&self, image: &mut [u8], mut header: Header) {
        let layout = header.layout;
        let content = layout.revision_at()..layout.index_at() + layout.index_size;
        for (slot, record) in &self.puts {
            layout.slot_mut(image, *slot)[content.clone()]
                .copy_from_slice(&record.bytes[content.clone()]);
        }
        for (slot, bucket, record) in &self.deletes {
            put_u64(layout.slot_mut(image, *slot), 0, 0);
            layout.put_bucket(image, *bucket, record.key.hash, TOMBSTONE);
        }
        header.live_count -= self.deletes.len();
        header.bucket_tombstones += self.deletes.len();
        for record in &self.new {
            let slot = header.slot_highwater;
            layout.slot_mut(image, slot).copy_from_slice(record.bytes);
            if index_slot(image, &layout, record.key.hash, slot) == TOMBSTONE {
                header.bucket_tombstones -= 1;
            }
            header.slot_highwater += 1;
            header.live_count += 1;
        }
        if 4 * header.bucket_tombstones > layout.bucket_count {
            rebuild(image, &header);
            header.bucket_tombstones = 0;
        }
        header.publish(image);
    }
}

/// Points the first bucket on the way of an absent key that is not FULL at its slot, and says what it was.
fn index_slot(image: &mut [u8], layout: &Layout, hash: u64, slot: usize) -> u64 {
    let mut bucket = layout.home(hash);
    loop {
        let (_, slot_plus1) = layout.bucket(image, bucket);
        if slot_plus1 == EMPTY || slot_plus1 == TOMBSTONE {
            layout.put_bucket(image, bucket, hash, slot as u64 + 1);
            return slot_plus1;
        }
        bucket = layout.next_bucket(bucket);
    }
}

fn rebuild(image: &mut [u8], header: &Header) {
    let layout = &header.layout;
    image[layout.buckets_offset..].fill(0);
    for slot in 0..header.slot_highwater {
        let bytes = layout.slot(image, slot);
        if u64_at(bytes, 0) == 1 {
            let hash = fnv1a64(layout.key_in(bytes));
            index_slot(image, layout, hash, slot);
        }
    }
}

fn try_commit(image: &mut [u8], options: &Options, batch: &[u8]) -> Result<(), u32> {
    let header = Header::judge_change(image, options)?;
    if !batch_fits(&header.layout, batch) {
        return Err(INVALID_INPUT);
    }
    if !passes(image, &header) {
        return Err(NEEDS_REBUILD);
    }
    let plan = Plan::of(image, &header, batch);
    plan.room_test(image, &header)?;
    plan.act(image, header);
    Ok(())
}

#[inline(never)]
pub fn commit(image: &mut [u8], options: &Options, batch: &[u8]) -> u32 {
    match try_commit(image, options, batch) {
        Ok(()) => DONE,
        Err(number) => number,
    }
}
