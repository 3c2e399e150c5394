//! Frequency and slew rate.

use crate::common::{bits32, black_box, edges32, list32, Check, Kind, Log, Random, Table, KINDS};
use crate::signal::{measure_frequency, slew_rate};
use tilljingle::raw::{tj_measure_frequency, tj_slew_rate, Figure};

/// Random captures of a full comparison, for each call.
pub const ROUNDS: u64 = 1_000_000;

fn our_frequency(samples: &[f32], rate: f32) -> Figure {
    unsafe { tj_measure_frequency(samples.as_ptr(), samples.len(), rate) }
}

fn our_slew(samples: &[f32], rate: f32) -> Figure {
    unsafe { tj_slew_rate(samples.as_ptr(), samples.len(), rate) }
}

/// The most samples that are taken.
const LONGEST: usize = 65536;

struct Checks {
    codes: Check,
    frequency: Check,
    cycles: Check,
    slew: Check,
    refused: Check,
}

impl Checks {
    fn open(log: &mut Log) -> Checks {
        Checks {
            codes: log.check("up to 65,536 samples: 0"),
            frequency: log.check("tj_measure_frequency"),
            cycles: log.check("tj_measure_frequency, where the Rust answers other than 0"),
            slew: log.check("tj_slew_rate"),
            refused: log.check("more than 65,536 samples: 3 and 0.0"),
        }
    }

    fn see(&self, log: &mut Log, samples: &[f32], rate: f32) {
        let words = || format!("{} at {}", list32(samples), bits32(rate));
        let (frequency, slew) = (our_frequency(samples, rate), our_slew(samples, rate));
        log.see(self.codes, (frequency.code, slew.code) == (0, 0), words);
        let theirs = measure_frequency(samples, rate);
        let check = if theirs == 0.0 { self.frequency } else { self.cycles };
        log.see32(check, frequency.value, theirs, words);
        log.see32(self.slew, slew.value, slew_rate(samples, rate), words);
    }
}

/// Every list of this many of the values, one after the other.
fn each_list(values: &[f32], n: u32, mut see: impl FnMut(&[f32])) {
    for number in 0..values.len().pow(n) {
        let mut rest = number;
        let list: Vec<f32> = (0..n)
            .map(|_| {
                let value = values[rest % values.len()];
                rest /= values.len();
                value
            })
            .collect();
        see(&list);
    }
}

/// All lists of up to 7 of five values; and every period of up to 4 of four values, at every length to 40.
fn small(checks: &Checks, log: &mut Log) {
    for n in 0..=7 {
        each_list(&[-1.0, 0.0, 1.0, f32::NAN, f32::INFINITY], n, |list| checks.see(log, list, 6.0));
    }
    for period in 1..=4 {
        each_list(&[-1.0, 0.0, 2.0, f32::NAN], period, |turn| {
            for n in 0..=40 {
                let list: Vec<f32> = turn.iter().copied().cycle().take(n).collect();
                checks.see(log, &list, 40.0);
            }
        });
    }
}

/// A wave with an offset, and now and then a sample of another sort.
fn wave(random: &mut Random, n: usize) -> Vec<f32> {
    let (turn, offset) = (random.unit() * 3.2, random.below(7) as f64 - 3.0);
    let size = 2f64.powf(random.unit() * 40.0 - 20.0);
    let strange = random.below(4) == 0;
    (0..n)
        .map(|i| match random.below(30) {
            0 if strange => random.sample(Kind::Special),
            _ => (((i as f64 * turn).sin() + offset) * size) as f32,
        })
        .collect()
}

fn rate(random: &mut Random) -> f32 {
    match random.below(4) {
        0 => random.pick(&edges32()),
        1 => random.sample(Kind::Mixed),
        _ => random.below(1_000_000) as f32 + 1.0,
    }
}

pub fn compare(rounds: u64, log: &mut Log) {
    let checks = Checks::open(log);
    small(&checks, log);
    let mut random = Random::new(5);
    for round in 0..rounds {
        let n = random.below(81) as usize;
        let samples = match round % 2 {
            0 => wave(&mut random, n),
            _ => {
                let kind = random.pick(&KINDS);
                random.samples(kind, n)
            }
        };
        let rate = rate(&mut random);
        checks.see(log, &samples, rate);
    }
    for rate in edges32() {
        checks.see(log, &[-1.0, 1.0, -1.0, 1.0, -1.0, 1.0], rate);
    }
    // the limit, on both sides
    for kind in KINDS {
        let long = random.samples(kind, LONGEST + 1);
        checks.see(log, &long[..LONGEST], 48000.0);
        for figure in [our_frequency(&long, 48000.0), our_slew(&long, 48000.0)] {
            log.see(checks.refused, figure.code == 3 && figure.value == 0.0, || format!("{figure:?}"));
        }
    }
    let long = wave(&mut random, LONGEST);
    checks.see(log, &long, 48000.0);
}

pub fn bench(table: &mut Table) {
    for n in [4096, LONGEST] {
        let samples: Vec<f32> = (0..n).map(|i| (i as f32 * 0.37).sin() * 3.0 + 0.2).collect();
        table.row(
            "measure_frequency",
            n,
            || drop(black_box(measure_frequency(black_box(&samples), black_box(48000.0)))),
            || drop(black_box(our_frequency(black_box(&samples), black_box(48000.0)))),
        );
        table.row(
            "slew_rate",
            n,
            || drop(black_box(slew_rate(black_box(&samples), black_box(48000.0)))),
            || drop(black_box(our_slew(black_box(&samples), black_box(48000.0)))),
        );
    }
}
