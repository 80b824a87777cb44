//! Times of a lookup, by turns on the same image and keys.

use std::time::Instant;

use crate::cases::{Image, Shape, KEY_SIZE};
use crate::measure::Spread;
use crate::ordinary::lookup::Lookup;
use crate::sides::{lookups, LookupCall};

/// Slots, and live keys per bucket.
#[derive(Clone, Copy, PartialEq)]
struct Filled {
    slots: u64,
    percent: usize,
}

/// Which lookups are timed.
struct Case {
    filled: Filled,
    /// Whether user_flags and user_data are set.
    user: bool,
    /// Whether the keys come from all over the image, so that no cache of the processor holds what they need, or are few and
    /// asked again and again.
    far: bool,
    found: bool,
}

/// How many, each time that it is a case's turn.
pub struct Rounds {
    pub turns: usize,
    pub near: usize,
    pub far: usize,
}

/// Of each side, the nanoseconds of a lookup in every round.
type Times = Vec<Vec<f64>>;

const SLOTS: [u64; 3] = [512, 4_096, 1_048_576];
const NEAR_KEYS: usize = 1_024;
const FAR_KEYS: usize = 131_072;
/// How many lookups a profiler is shown.
const PROFILED: usize = 1 << 24;

pub fn differ(name: &str, found: &Lookup, wanted: &Lookup) -> String {
    format!("a lookup by {name} gives {found:?}, and not {wanted:?}")
}

/// A call that the compiler can't see through, so that it is compiled for no key and no options in particular.
fn hidden(lookup: &LookupCall) -> LookupCall {
    unsafe { std::ptr::read_volatile(lookup) }
}

/// That the others find what the library finds.
fn compare(image: &Image, keys: &[u8]) -> Result<(), String> {
    let Image { options, bytes, .. } = image;
    let sides = lookups();
    for key in keys.chunks_exact(KEY_SIZE) {
        let wanted = (sides[0].1)(bytes, options, key);
        for (name, lookup) in &sides[1..] {
            let found = lookup(bytes, options, key);
            if found != wanted {
                return Err(differ(name, &found, &wanted));
            }
        }
    }
    Ok(())
}

fn measure(image: &Image, keys: &[u8], rounds: usize, times: &mut Times) {
    let Image { options, bytes, .. } = image;
    let keys = keys.chunks_exact(KEY_SIZE);
    for _ in 0..rounds {
        for ((_, lookup), times) in lookups().iter().zip(times.iter_mut()) {
            let lookup = hidden(lookup);
            let began = Instant::now();
            for key in keys.clone() {
                lookup(bytes, options, key);
            }
            times.push(began.elapsed().as_nanos() as f64 / keys.len() as f64);
        }
    }
}

/// How much of a side's time the library takes, round by round.
fn ratio(times: &Times, side: usize) -> Spread {
    let pairs = times[0].iter().zip(&times[side]);
    Spread::of(pairs.map(|(library, other)| library / other))
}

fn nanoseconds(times: &Times, side: usize) -> Spread {
    Spread::of(times[side].iter().copied())
}

impl Filled {
    fn image(&self) -> Image {
        let bucket_count = 2 * self.slots as usize;
        let shape = Shape {
            slot_capacity: self.slots,
            bucket_count,
            live: bucket_count * self.percent / 100,
        };
        Image::of(&shape, false)
    }
}

impl Case {
    /// How many keys are asked in a round.
    fn count(&self) -> usize {
        if self.far {
            FAR_KEYS
        } else {
            NEAR_KEYS
        }
    }

    /// Those keys, and the image that is so filled made ready for them.
    fn keys(&self, image: &mut Image) -> Vec<u8> {
        image.set_user_fields(self.user);
        image.asked(self.found, self.count())
    }

    /// One turn, on the image that is so filled.
    fn take_turn(
        &self,
        image: &mut Image,
        rounds: &Rounds,
        times: &mut Times,
    ) -> Result<(), String> {
        let keys = self.keys(image);
        if times[0].is_empty() {
            compare(image, &keys)?;
        }
        let rounds = if self.far { rounds.far } else { rounds.near };
        measure(image, &keys, rounds, times);
        Ok(())
    }

    fn fields(&self) -> [String; 5] {
        [
            self.filled.slots.to_string(),
            self.filled.percent.to_string(),
            if self.user { "set" } else { "zero" }.to_string(),
            if self.found { "found" } else { "absent" }.to_string(),
            if self.far { "far apart" } else { "few" }.to_string(),
        ]
    }

    fn name(&self) -> String {
        let [slots, percent, user, found, far] = self.fields();
        format!("{slots} slots, {percent} %, user {user}, {found}, {far}")
    }
}

fn fillings() -> impl Iterator<Item = Filled> {
    let filled = |slots| [25, 50].map(|percent| Filled { slots, percent });
    SLOTS.into_iter().flat_map(filled)
}

fn cases() -> Vec<Case> {
    let mut cases = Vec::new();
    for filled in fillings() {
        for (user, far) in [(false, false), (true, false), (false, true), (true, true)] {
            if !far || filled.slots == SLOTS[2] {
                cases.extend([true, false].map(|found| Case {
                    filled,
                    user,
                    far,
                    found,
                }));
            }
        }
    }
    cases
}

/// Every case and its times. Each has its turn again and again, so that what else the machine does for a while reaches few
/// rounds of any.
fn all(rounds: &Rounds) -> Result<Vec<(Case, Times)>, String> {
    let mut images: Vec<_> = fillings().map(|filled| (filled, filled.image())).collect();
    let sides = lookups().len();
    let with_times = |case| (case, vec![Vec::new(); sides]);
    let mut measured: Vec<_> = cases().into_iter().map(with_times).collect();
    for _ in 0..rounds.turns {
        for (case, times) in &mut measured {
            let mut so_filled = images
                .iter_mut()
                .filter(|(filled, _)| *filled == case.filled);
            let (_, image) = so_filled.next().unwrap();
            case.take_turn(image, rounds, times)?;
        }
    }
    Ok(measured)
}

fn line(first: &str, cells: impl Iterator<Item = String>) {
    let cells: String = cells.map(|cell| format!("{cell:>28}")).collect();
    println!("{first:<52}{cells}");
}

fn table(
    heading: &str,
    measured: &[(Case, Times)],
    sides: std::ops::Range<usize>,
    cell: impl Fn(&Times, usize) -> String,
) {
    println!("\n{heading}");
    let all = lookups();
    line(
        "image, live keys per bucket, user fields, key",
        sides.clone().map(|side| all[side].0.to_string()),
    );
    for (case, times) in measured {
        line(&case.name(), sides.clone().map(|side| cell(times, side)));
    }
}

/// Prints nanoseconds and ratios, and gives them as lines with tabs, one for each case and side.
pub fn time(rounds: &Rounds) -> Result<String, String> {
    let measured = all(rounds)?;
    let sides = lookups();
    let [near, far] = [rounds.near, rounds.far].map(|many| many * rounds.turns);
    table(
        &format!("Nanoseconds of a lookup; rounds of {NEAR_KEYS} keys: {near}; far apart, of {FAR_KEYS} keys: {far}"),
        &measured,
        0..sides.len(),
        |times, side| nanoseconds(times, side).text(1),
    );
    table(
        "The library's time over the other's",
        &measured,
        1..sides.len(),
        |times, side| ratio(times, side).text(3),
    );
    let mut lines = String::new();
    for (case, times) in &measured {
        for (side, (name, _)) in sides.iter().enumerate() {
            let (taken, over) = (nanoseconds(times, side), ratio(times, side));
            let fields = [
                &case.fields()[..],
                &[name.to_string(), taken.values(1), over.values(3)],
            ];
            lines += &(fields.concat().join("\t") + "\n");
        }
    }
    Ok(lines)
}

/// The library's lookups of one case alone, for a profiler.
pub fn only(name: &str) -> Result<(), String> {
    let named = |case: &Case| case.name() == name;
    let case = cases()
        .into_iter()
        .find(named)
        .ok_or_else(|| format!("no case is called '{name}': the tables have their names"))?;
    let mut image = case.filled.image();
    let keys = case.keys(&mut image);
    let mut library = vec![Vec::new()];
    measure(&image, &keys, PROFILED / case.count(), &mut library);
    Ok(())
}
