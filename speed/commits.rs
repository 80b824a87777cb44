//! Times of a commit, and of the full check that it makes.

use crate::cases::{Image, Keys, Shape};
use crate::measure::{less, measure, Measured};
use crate::ordinary::commit::BATCH_LIMIT;
use crate::ordinary::layout::CAPACITY_LIMIT;
use crate::table::{heading, row, rows_by_size, Reading};

const SIZES: [usize; 3] = [64, 256, BATCH_LIMIT];

const SMALL: Shape = Shape {
    slot_capacity: 4096,
    bucket_count: 8192,
    live: 1000,
};

/// A partner's, since create gives at least two buckets for each slot; with room for a batch of new keys.
const HALF_FULL: Shape = Shape {
    slot_capacity: 5120,
    bucket_count: 8192,
    live: 4096,
};

const LARGE: Shape = Shape {
    slot_capacity: CAPACITY_LIMIT,
    bucket_count: 2_097_152,
    live: 524_288,
};

const KINDS: [(&str, bool, Keys); 4] = [
    ("unordered, serials rising", false, Keys::SerialsRising),
    ("ordered, serials rising", true, Keys::SerialsRising),
    ("ordered, serials shuffled", true, Keys::SerialsShuffled),
    ("ordered, random keys", true, Keys::Random),
];

const READINGS: [(&str, Reading); 2] = [
    ("the full check", |measured| &measured.full_check),
    ("an empty commit", |measured| &measured.empty_commit),
];

fn by_size(ordered: bool, keys: Keys, rounds: usize) -> Result<Vec<(usize, Measured)>, String> {
    let image = Image::of(&SMALL, ordered);
    let of_size = |count| {
        let batch = image.new_keys(keys, count);
        Ok((count, measure(&image, &batch, rounds)?))
    };
    SIZES.iter().copied().map(of_size).collect()
}

fn small_image(rounds: usize) -> Result<(), String> {
    let mut by_kind = Vec::new();
    for (_, ordered, keys) in KINDS {
        by_kind.push(by_size(ordered, keys, rounds)?);
    }
    println!("{SMALL}; median (quartiles) of {rounds} rounds.");
    println!("growth: the time of a record in the largest batch over that in the smallest.");
    for (name, taken_off) in READINGS {
        println!("\nNanoseconds per record of a commit of new keys, less {name}");
        heading("image and keys", "records");
        for ((kind, ..), by_size) in KINDS.iter().zip(&by_kind) {
            rows_by_size(kind, by_size, taken_off);
        }
    }
    println!("\nMicroseconds of what was taken off");
    heading("image", "");
    for (name, by_size) in [("unordered", &by_kind[0]), ("ordered", &by_kind[1])] {
        let (_, measured) = &by_size[0];
        row(
            &format!("{name}, full check"),
            "",
            &measured.full_check,
            1e3,
        );
        row(
            &format!("{name}, empty commit"),
            "",
            &measured.empty_commit,
            1e3,
        );
    }
    Ok(())
}

/// The largest batches, where half of the buckets are live. The deletes leave a TOMBSTONE in an eighth of the buckets; the
/// index is rebuilt where more than a quarter have one, so no rebuild is in these times.
fn half_full_image(rounds: usize) -> Result<(), String> {
    let image = Image::of(&HALF_FULL, false);
    let new_keys = image.new_keys(Keys::SerialsRising, BATCH_LIMIT);
    let batches = [
        ("new keys", new_keys),
        ("deletes", image.deletes(BATCH_LIMIT)),
    ];
    println!("\nNanoseconds per record of a commit where half of the buckets are live, less an empty commit");
    println!("{HALF_FULL}; {rounds} rounds.");
    heading("unordered, serials", "records");
    for (name, batch) in batches {
        let measured = measure(&image, &batch, rounds)?;
        let times = less(&measured.commit, &measured.empty_commit, BATCH_LIMIT);
        row(name, &BATCH_LIMIT.to_string(), &times, 1.0);
    }
    Ok(())
}

fn large_image(rounds: usize) -> Result<(), String> {
    let image = Image::of(&LARGE, false);
    let batch = image.new_keys(Keys::SerialsRising, BATCH_LIMIT);
    let measured = measure(&image, &batch, rounds)?;
    println!("\nMilliseconds on the largest image");
    println!("{LARGE}; {rounds} rounds.");
    heading("unordered, serials rising", "records");
    row("full check", "", &measured.full_check, 1e6);
    row("commit", "0", &measured.empty_commit, 1e6);
    row(
        "commit of new keys",
        &BATCH_LIMIT.to_string(),
        &measured.commit,
        1e6,
    );
    Ok(())
}

pub fn time(small: usize, large: usize) -> Result<(), String> {
    small_image(small)?;
    half_full_image(small)?;
    large_image(large)
}
