//! That both sides are the same function: random batches, with keys that come again, deletes, puts on live keys and
//! malformed records, on small images that fill up, are rebuilt and are damaged.

use crate::cases::{delete_record, put_record, Random, LOCK_HELD};
use crate::ordinary::layout::{Layout, Options};
use crate::sides::{begun_image, BESIDE, SIDES};

const COMMITS: usize = 60;
const LARGEST_BATCH: usize = 12;

fn options(random: &mut Random, ordered: u64) -> Options {
    Options {
        key_size: 1 + random.below(20) as u64,
        index_size: random.below(20) as u64,
        slot_capacity: 8 + random.below(200) as u64,
        user_version: random.next(),
        ordered,
        role: LOCK_HELD,
    }
}

/// One of about 30 keys near a number: with a number that goes up, keys of an ordered image mostly rise.
fn key(random: &mut Random, layout: &Layout, near: usize) -> Vec<u8> {
    let mut key = vec![b'K'; layout.key_size];
    key[layout.key_size - 1] = (near + random.below(30)) as u8;
    key
}

fn batch(random: &mut Random, layout: &Layout, near: usize) -> Vec<u8> {
    let mut batch = Vec::new();
    for _ in 0..random.below(LARGEST_BATCH) {
        let key = key(random, layout, near);
        let mut record = put_record(layout, &key, random.next());
        if random.below(3) == 0 {
            record = delete_record(layout, &key);
        }
        if random.below(200) == 0 {
            record[random.below(layout.slot_size)] ^= 4;
        }
        batch.extend(record);
    }
    batch
}

/// Commits by both sides to copies of an image, and full checks of what they leave.
fn commit_by_both(image: &[u8], options: &Options, batch: &[u8]) -> Result<Vec<u8>, String> {
    let mut results = SIDES.iter().map(|side| {
        let mut copy = image.to_vec();
        let answer = (side.commit)(&mut copy, options, batch);
        (answer, (side.full_check)(&copy, options), copy)
    });
    let (library, other) = (results.next().unwrap(), results.next().unwrap());
    if library != other {
        return Err(format!(
            "commit and full check answer {} and {} by the library, {} and {} by {BESIDE}, or the images differ",
            library.0, library.1, other.0, other.1
        ));
    }
    Ok(library.2)
}

fn try_image(random: &mut Random, ordered: u64) -> Result<(), String> {
    let options = options(random, ordered);
    let layout = Layout::of(&options);
    let mut image = begun_image(&options);
    for turn in 0..COMMITS {
        let batch = batch(random, &layout, 2 * turn);
        let mut damaged = image.clone();
        damaged[random.below(layout.total_size)] ^= 1 << random.below(8);
        let slot_capacity = options.slot_capacity * random.below(2) as u64; // or as the header says
        let asked = Options {
            slot_capacity,
            ..options
        };
        commit_by_both(&damaged, &asked, &batch)?;
        image = commit_by_both(&image, &asked, &batch)?;
    }
    Ok(())
}

/// The number of commits; Err says how the two differ.
pub fn try_random_batches(images: usize) -> Result<usize, String> {
    let mut random = Random(1);
    for number in 0..images {
        try_image(&mut random, number as u64 % 2)?;
    }
    Ok(2 * COMMITS * images)
}
