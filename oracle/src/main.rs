//! Runs the static library beside the published Rust, on the same inputs.
//!
//!     oracle compare [AREA..] [ROUNDS]    every answer compared; the last line counts calls and differences
//!     oracle bench [AREA..]               both measured; one Markdown table
//!     oracle fuzz MINUTES [SEED]          mutated captures for so long
//!     oracle fundamental                  prints the tables of currents that lag and of distorted ones
//!     oracle replay                       writes the data of the replay programs from the Rust's answers
//!
//! An area is one file with `ROUNDS`, `compare` and `bench`, and one line below.

mod common;
mod fuzz;
mod lines;
mod mutate;
mod replay;
#[path = "../gen/signal.rs"]
mod signal;
mod wall;

use common::{Log, Table};
use std::process::ExitCode;

/// What one area offers.
struct Area {
    name: &'static str,
    /// The rounds of a full comparison.
    rounds: u64,
    compare: fn(u64, &mut Log),
    bench: fn(&mut Table),
}

macro_rules! areas {
    ($($name:ident,)*) => {
        $(mod $name;)*
        const AREAS: &[Area] = &[$(Area {
            name: stringify!($name),
            rounds: $name::ROUNDS,
            compare: $name::compare,
            bench: $name::bench,
        },)*];
    };
}

// one name a line
areas! {
    number,
    power,
    samples,
    timing,
    quality,
    spectrum,
    fundamental,
    generator,
    port,
    figures,
    capture,
    signals,
    report,
}

fn usage() -> ExitCode {
    let names: Vec<_> = AREAS.iter().map(|area| area.name).collect();
    eprintln!(
        "oracle compare [AREA..] [ROUNDS] | oracle bench [AREA..] | oracle fuzz MINUTES [SEED] | oracle fundamental | oracle replay; areas: {}",
        names.join(" ")
    );
    ExitCode::from(2)
}

/// The areas named, all of them where none is, and the number given, if any. None: a word is neither.
fn selected(words: &[String]) -> Option<(Vec<&'static Area>, Option<u64>)> {
    let mut areas = Vec::new();
    let mut rounds = None;
    for word in words {
        match (AREAS.iter().find(|area| area.name == word), word.parse()) {
            (Some(area), _) => areas.push(area),
            (None, Ok(number)) => rounds = Some(number),
            (None, Err(_)) => return None,
        }
    }
    if areas.is_empty() {
        areas = AREAS.iter().collect();
    }
    Some((areas, rounds))
}

fn compare(areas: &[&Area], rounds: Option<u64>) -> ExitCode {
    let mut log = Log::new();
    for area in areas {
        (area.compare)(rounds.unwrap_or(area.rounds), &mut log);
        log.close(area.name);
    }
    ended(&log)
}

/// Counts everything; any difference is a failure.
fn ended(log: &Log) -> ExitCode {
    println!("{} calls, {} differences", log.calls(), log.differences());
    ExitCode::from((log.differences() > 0) as u8)
}

fn bench(areas: &[&Area]) -> ExitCode {
    let mut table = Table::new();
    for area in areas {
        (area.bench)(&mut table);
    }
    ExitCode::SUCCESS
}

fn fuzz(words: &[String]) -> ExitCode {
    let numbers: Option<Vec<u64>> = words.iter().map(|word| word.parse().ok()).collect();
    let mut log = Log::new();
    match numbers.as_deref() {
        Some([minutes]) => fuzz::fuzz(*minutes, 1, &mut log),
        Some([minutes, seed]) => fuzz::fuzz(*minutes, *seed, &mut log),
        _ => return usage(),
    }
    log.close("fuzz");
    ended(&log)
}

fn main() -> ExitCode {
    let words: Vec<String> = std::env::args().skip(1).collect();
    let chosen = words.get(1..).and_then(selected);
    match (words.first().map(String::as_str), chosen) {
        (Some("fuzz"), _) => fuzz(&words[1..]),
        (Some("compare"), Some((areas, rounds))) => compare(&areas, rounds),
        (Some("bench"), Some((areas, None))) => bench(&areas),
        (Some("fundamental"), Some((_, None))) if words.len() == 1 => fundamental::print(),
        (Some("replay"), Some((_, None))) if words.len() == 1 => replay::write(),
        _ => usage(),
    }
}
