//! The library beside an ordinary implementation in Rust, or beside the library of another revision: first that they are the
//! same functions, then their times.
//!
//! usage: speed [--brief] CASES TABLE
//!        speed --only CASE
//!   CASES   lookups by the second program, as speed/lookups.py writes them
//!   TABLE   where the times of lookups are written, a line for each case and implementation
//!   CASE    of whose lookups the library's alone are made, for a profiler: a name in the table that is printed

mod cases;
mod commits;
mod lookups;
mod measure;
#[cfg_attr(beside, allow(unused))] // only images are filled by it then
mod ordinary;
mod same;
mod second;
mod sides;
mod table;

struct Rounds {
    random_images: usize,
    lookups: lookups::Rounds,
    small_commits: usize,
    large_commits: usize,
}

const WHOLE: Rounds = Rounds {
    random_images: 200,
    lookups: lookups::Rounds {
        turns: 7,
        near: 43,
        far: 3,
    },
    small_commits: 1501,
    large_commits: 15,
};

const BRIEF: Rounds = Rounds {
    random_images: 40,
    lookups: lookups::Rounds {
        turns: 1,
        near: 5,
        far: 1,
    },
    small_commits: 51,
    large_commits: 3,
};

fn run(rounds: &Rounds, cases: &str, table: &str) -> Result<(), String> {
    let told = |error| format!("{cases} or {table}: {error}");
    let lookups = second::compare(&std::fs::read(cases).map_err(told)?)?;
    let commits = same::try_random_batches(rounds.random_images)?;
    println!("All gave the second program's numbers in {lookups} lookups, and the same answers and bytes in {commits} random");
    println!("commits; they do so in every one that is timed.");
    let lines = lookups::time(&rounds.lookups)?;
    std::fs::write(table, lines).map_err(told)?;
    commits::time(rounds.small_commits, rounds.large_commits)
}

fn main() {
    let words: Vec<String> = std::env::args().skip(1).collect();
    let done = match words.iter().map(String::as_str).collect::<Vec<_>>()[..] {
        ["--brief", cases, table] => run(&BRIEF, cases, table),
        ["--only", case] => lookups::only(case),
        [cases, table] => run(&WHOLE, cases, table),
        _ => Err("usage: speed [--brief] CASES TABLE, or speed --only CASE".to_string()),
    };
    if let Err(message) = done {
        eprintln!("speed: {message}");
        std::process::exit(1);
    }
}
