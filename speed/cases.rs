//! Keys, batches and images to measure on.

use std::ops::Range;

use crate::ordinary::commit::Plan;
use crate::ordinary::digests::OneTable;
use crate::ordinary::header::{set_buckets, Header};
use crate::ordinary::layout::{put_u64, Layout, Options, KEY_AT};
use crate::sides::{begun_image, set_user_fields};

pub const LOCK_HELD: u64 = 2;
pub const KEY_SIZE: usize = 12;

/// Numbers that look random and are the same in every run (splitmix64).
pub struct Random(pub u64);

impl Random {
    pub fn next(&mut self) -> u64 {
        self.0 = self.0.wrapping_add(0x9E3779B97F4A7C15);
        let mixed = (self.0 ^ (self.0 >> 30)).wrapping_mul(0xBF58476D1CE4E5B9);
        let mixed = (mixed ^ (mixed >> 27)).wrapping_mul(0x94D049BB133111EB);
        mixed ^ (mixed >> 31)
    }

    pub fn below(&mut self, bound: usize) -> usize {
        (self.next() % bound as u64) as usize
    }

    fn shuffle<T>(&mut self, values: &mut [T]) {
        for last in (1..values.len()).rev() {
            values.swap(last, self.below(last + 1));
        }
    }
}

#[derive(Clone, Copy)]
pub enum Keys {
    SerialsRising,
    SerialsShuffled,
    Random,
}

/// A key as the plant has them, CM1-2351-034: rising with its number.
fn serial(number: usize) -> Vec<u8> {
    let (line, week, sensor) = (
        1 + number / 10_000_000,
        number / 1_000 % 10_000,
        number % 1_000,
    );
    format!("CM{line}-{week:04}-{sensor:03}").into_bytes()
}

fn serials(numbers: Range<usize>) -> Vec<Vec<u8>> {
    numbers.map(serial).collect()
}

/// A key above every serial, as an ordered image asks of new keys.
fn random_key(random: &mut Random) -> Vec<u8> {
    let mut key: Vec<u8> = (0..KEY_SIZE).map(|_| random.next() as u8).collect();
    key[0] |= 0x80;
    key
}

/// So many keys that are above the serials below a number.
fn new_keys(keys: Keys, above: usize, count: usize) -> Vec<Vec<u8>> {
    let mut random = Random(count as u64);
    let mut made = match keys {
        Keys::Random => (0..count).map(|_| random_key(&mut random)).collect(),
        _ => serials(above..above + count),
    };
    if let Keys::SerialsShuffled = keys {
        random.shuffle(&mut made);
    }
    made
}

/// All zero but for its key.
pub fn delete_record(layout: &Layout, key: &[u8]) -> Vec<u8> {
    let mut record = vec![0; layout.slot_size];
    record[KEY_AT..KEY_AT + key.len()].copy_from_slice(key);
    record
}

pub fn put_record(layout: &Layout, key: &[u8], revision: u64) -> Vec<u8> {
    let mut record = delete_record(layout, key);
    put_u64(&mut record, 0, 1);
    put_u64(&mut record, layout.revision_at(), revision);
    let index_at = layout.index_at();
    record[index_at..index_at + layout.index_size].fill(b'+' ^ revision as u8);
    record
}

fn puts(layout: &Layout, keys: &[Vec<u8>]) -> Vec<u8> {
    let records = keys.iter().zip(0..);
    records
        .flat_map(|(key, revision)| put_record(layout, key, revision))
        .collect()
}

/// The slots and buckets of an image, and how many keys are live in it.
pub struct Shape {
    pub slot_capacity: u64,
    pub bucket_count: usize,
    pub live: usize,
}

impl std::fmt::Display for Shape {
    fn fmt(&self, out: &mut std::fmt::Formatter) -> std::fmt::Result {
        write!(
            out,
            "slot_capacity {}, {} buckets, {} live keys",
            self.slot_capacity, self.bucket_count, self.live
        )
    }
}

/// An image that holds the serials of a range.
pub struct Image {
    pub options: Options,
    pub bytes: Vec<u8>,
    layout: Layout,
    live: Range<usize>,
}

impl Image {
    pub fn of(shape: &Shape, ordered: bool) -> Image {
        let options = Options {
            key_size: KEY_SIZE as u64,
            index_size: 20,
            slot_capacity: shape.slot_capacity,
            user_version: 1,
            ordered: u64::from(ordered),
            role: LOCK_HELD,
        };
        let layout = Layout::with(&options, shape.slot_capacity as usize, shape.bucket_count);
        let live = 2_300_000..2_300_000 + shape.live;
        let mut bytes = begun_image(&options);
        set_buckets(&mut bytes, &layout);
        load(&mut bytes, &options, &puts(&layout, &serials(live.clone())));
        Image {
            options,
            bytes,
            layout,
            live,
        }
    }

    /// So many keys to look up, one behind the other, in any order: live ones, or such as are not there.
    pub fn asked(&self, found: bool, count: usize) -> Vec<u8> {
        let mut random = Random(count as u64);
        let Range { start, end } = self.live;
        let (from, many) = if found {
            (start, end - start)
        } else {
            (end, 5_000_000)
        };
        (0..count)
            .flat_map(|_| serial(from + random.below(many)))
            .collect()
    }

    /// All of them set, or all zero.
    pub fn set_user_fields(&mut self, set: bool) {
        set_user_fields(&mut self.bytes, &self.options, set);
    }

    /// A batch of count new keys.
    pub fn new_keys(&self, keys: Keys, count: usize) -> Vec<u8> {
        puts(&self.layout, &new_keys(keys, self.live.end, count))
    }

    /// A batch that deletes count of the live keys, from anywhere among them.
    pub fn deletes(&self, count: usize) -> Vec<u8> {
        let mut keys = serials(self.live.clone());
        Random(count as u64).shuffle(&mut keys);
        keys[..count]
            .iter()
            .flat_map(|key| delete_record(&self.layout, key))
            .collect()
    }
}

/// Puts any number of records at once, without a commit's tests: a large image is not filled in batches, each with a
/// full check.
fn load(image: &mut [u8], options: &Options, batch: &[u8]) {
    let header = Header::judge::<OneTable>(image, options)
        .map_err(|number| format!("header test: {number}"))
        .unwrap();
    Plan::of(image, &header, batch).act(image, header);
}
