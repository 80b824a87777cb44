//! The tables that are printed.

use crate::measure::{less, ratio, Measured, Spread, Times};
use crate::sides::BESIDE;

/// What is taken off a commit.
pub type Reading = fn(&Measured) -> &Times;

fn line(cells: [&str; 5]) {
    let [first, second, library, other, over] = cells;
    let text = format!("{first:<27}{second:>8}  {library:>24}  {other:>24}  {over:>22}");
    println!("{}", text.trim_end());
}

pub fn heading(first: &str, second: &str) {
    let over = format!("library / {BESIDE}");
    line([first, second, "library", BESIDE, &over]);
}

fn spread_of(times: &Times, side: usize, unit: f64) -> Spread {
    Spread::of(times[side].iter().map(|time| time / unit))
}

pub fn row(first: &str, second: &str, times: &Times, unit: f64) {
    let [library, other] = [0, 1].map(|side| spread_of(times, side, unit).text(1));
    line([first, second, &library, &other, &ratio(times).text(2)]);
}

/// A row for each number of records, and then how a record's time grows from the
/// smallest batch to the largest.
pub fn rows_by_size(name: &str, by_size: &[(usize, Measured)], taken_off: Reading) {
    let mut per_record = Vec::new();
    for (count, measured) in by_size {
        let times = less(&measured.commit, taken_off(measured), *count);
        row(name, &count.to_string(), &times, 1.0);
        per_record.push(times);
    }
    let (few, many) = (&per_record[0], &per_record[by_size.len() - 1]);
    let median = |times, side| spread_of(times, side, 1.0).median;
    let [library, other] =
        [0, 1].map(|side| format!("{:.2}", median(many, side) / median(few, side)));
    line(["", "growth", &library, &other, ""]);
}
