//! Signal by value, in both editions: sequences of calls, every field and every sample after each, against the Rust's `Signal`; every bin; every number that an
//! edition may have. THD is always that of a reading of 01 and 02 over a table made here, and within 0.05 points of the Rust's, which has 16 orders, or of
//! its text with 40, where 01 claims it. The two counts come from a reading of 02 over the Rust's samples.

mod calls;
pub mod editions;
mod inputs;
mod orders;
mod sequences;
mod thd;
mod unknown;

use crate::common::{black_box, Log, Table};
use crate::generator::wave_of;
use crate::signal::Signal;
use calls::{Call, Maker};
pub use thd::Quarter;

/// Sequences of each half of a full comparison: in edition 1 alone, and in both.
pub const ROUNDS: u64 = 120_000;

pub fn compare(rounds: u64, log: &mut Log) {
    sequences::compare(rounds, log);
    orders::compare(rounds, log);
    unknown::compare(log);
}

// ---------------------------------------------------------------------------- times

const NAMES: [&str; 4] = ["DC", "PWM", "triangular", "sawtooth"];

/// A wave of amplitude 5 in an edition.
fn made(wave: u8, frequency: f32, edition: u8, samples: &mut [f32]) -> tilljingle::Settings {
    Maker::Wave(wave, 5.0, frequency).ours(edition, samples).signal
}

/// One call of set_phase on n samples of a wave, on both sides.
fn row(table: &mut Table, name: &str, wave: u8, frequency: f32, edition: u8, n: usize) {
    let (mut ours, mut theirs) = (vec![0f32; n], vec![0f32; n]);
    let mut state = made(wave, frequency, edition, &mut ours);
    let mut signal = Signal::new(wave_of(wave), 5.0, frequency, &mut theirs);
    table.row(
        name,
        n,
        || black_box(&mut signal).set_phase(black_box(30.0)),
        || state = black_box(Call::Phase(black_box(30.0)).ours(state, black_box(&mut ours))).signal,
    );
}

/// The same of edition 2, against edition 1.
fn row_of_editions(table: &mut Table, wave: u8, frequency: f32, n: usize) {
    let (mut first, mut second) = (vec![0f32; n], vec![0f32; n]);
    let mut one = made(wave, frequency, 1, &mut first);
    let mut two = made(wave, frequency, 2, &mut second);
    table.row(
        &format!(
            "set_phase, {}, frequency {}, edition 2, against our edition 1",
            NAMES[wave as usize], frequency
        ),
        n,
        || one = black_box(Call::Phase(black_box(30.0)).ours(one, black_box(&mut first))).signal,
        || two = black_box(Call::Phase(black_box(30.0)).ours(two, black_box(&mut second))).signal,
    );
}

/// A port setting is timed in the area `port`. The Rust has 16 orders in its rows.
pub fn bench(table: &mut Table) {
    for (wave, name) in (0..).zip(NAMES) {
        row(table, &format!("set_phase, {name}, frequency 0"), wave, 0.0, 1, 1024);
    }
    for (wave, name) in (0..).zip(NAMES).skip(1) {
        row(table, &format!("set_phase, {name}, frequency 5"), wave, 5.0, 1, 1024);
        let name = format!("set_phase, {name}, frequency 5, edition 2, against the Rust's 16 orders");
        row(table, &name, wave, 5.0, 2, 1024);
    }
    for (n, frequency) in [(64, 1.0), (1024, 5.0), (1024, 31.0), (4096, 5.0)] {
        row_of_editions(table, 1, frequency, n);
    }
}
