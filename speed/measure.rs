//! Times of both sides, by turns, each on its own copy of the same image.

use std::time::Instant;

use crate::cases::Image;
use crate::sides::{Side, BESIDE, SIDES};

/// For each side, the library first, the nanoseconds of every round.
pub type Times = [Vec<f64>; 2];

/// Of the same rounds.
#[derive(Default)]
pub struct Measured {
    pub full_check: Times,
    pub empty_commit: Times,
    pub commit: Times,
}

/// A median between the quartiles.
pub struct Spread {
    low: f64,
    pub median: f64,
    high: f64,
}

impl Spread {
    pub fn of(values: impl Iterator<Item = f64>) -> Spread {
        let mut values: Vec<f64> = values.collect();
        values.sort_by(f64::total_cmp);
        let at = |part: usize| values[(values.len() - 1) * part / 4];
        Spread {
            low: at(1),
            median: at(2),
            high: at(3),
        }
    }

    /// Low quartile, median and high quartile, with tabs between them.
    pub fn values(&self, digits: usize) -> String {
        let [low, median, high] = [self.low, self.median, self.high];
        format!("{low:.digits$}\t{median:.digits$}\t{high:.digits$}")
    }

    pub fn text(&self, digits: usize) -> String {
        let [low, median, high] = [self.low, self.median, self.high];
        format!("{median:.digits$} ({low:.digits$} to {high:.digits$})")
    }
}

/// Makes one call by each side on a fresh copy of the image, and keeps its time. Both must answer 0 and leave the same
/// bytes.
fn by_turns(
    image: &[u8],
    copies: &mut [Vec<u8>; 2],
    times: &mut Times,
    call: impl Fn(&Side, &mut [u8]) -> u32,
) -> Result<(), String> {
    for ((side, copy), times) in SIDES.iter().zip(copies.iter_mut()).zip(times) {
        copy.copy_from_slice(image);
        let began = Instant::now();
        let answer = call(side, copy);
        times.push(began.elapsed().as_nanos() as f64);
        if answer != 0 {
            return Err(format!("a call that is measured answers {answer}"));
        }
    }
    if copies[0] != copies[1] {
        return Err(format!(
            "a call that is measured leaves other bytes by the library than by {BESIDE}"
        ));
    }
    Ok(())
}

/// Full check, empty commit and commit of the batch, by both sides, so many rounds.
pub fn measure(image: &Image, batch: &[u8], rounds: usize) -> Result<Measured, String> {
    let Image { options, bytes, .. } = image;
    let mut copies = [bytes.clone(), bytes.clone()];
    let mut measured = Measured::default();
    let full_check = |side: &Side, copy: &mut [u8]| (side.full_check)(copy, options);
    let empty_commit = |side: &Side, copy: &mut [u8]| (side.commit)(copy, options, &[]);
    let commit = |side: &Side, copy: &mut [u8]| (side.commit)(copy, options, batch);
    for _ in 0..rounds {
        by_turns(bytes, &mut copies, &mut measured.full_check, full_check)?;
        by_turns(bytes, &mut copies, &mut measured.empty_commit, empty_commit)?;
        by_turns(bytes, &mut copies, &mut measured.commit, commit)?;
    }
    Ok(measured)
}

/// For each round, what a call takes more than another one, over a number of records.
pub fn less(times: &Times, other: &Times, count: usize) -> Times {
    let of_side = |side: usize| {
        let pairs = times[side].iter().zip(&other[side]);
        pairs
            .map(|(time, other)| (time - other) / count as f64)
            .collect()
    };
    [of_side(0), of_side(1)]
}

pub fn ratio(times: &Times) -> Spread {
    Spread::of(
        times[0]
            .iter()
            .zip(&times[1])
            .map(|(library, other)| library / other),
    )
}
