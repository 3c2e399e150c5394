//! Whole turns of a sine as voltage, and currents that lag, or that are distorted and do not: the power of the fundamental beside the nonactive power.

use super::{ours, BOUND, GRID};
use crate::common::Log;
use std::f64::consts::PI;
use std::process::ExitCode;

/// The height of the voltage; that of the currents is 1. A sine that lags by an angle has then its cosine as active power and its sine as reactive power.
const HEIGHT: f64 = 2.0;

/// Currents of no phase shift, of the sine at each place: before and after the voltage's peak they are the same.
const DISTORTED: [(&str, fn(f64) -> f64); 6] = [
    ("clipped at half its height", |x| x.clamp(-0.5, 0.5)),
    ("with a third harmonic of a third", |x| x + (3.0 * x - 4.0 * x * x * x) / 3.0),
    ("square", |x| x.signum() * (x.abs() > 1e-9) as u8 as f64),
    ("square pulses above 0.8 of the peak", |x| x.signum() * (x.abs() > 0.8) as u8 as f64),
    ("a rectifier's, above 0.9 of the peak", |x| x.signum() * (x.abs() - 0.9).max(0.0) * 10.0),
    ("half-wave", |x| x.max(0.0)),
];

/// Of n samples at a bin, the sine that lags by so many degrees.
fn sine(n: usize, bin: usize, lag: f64) -> Vec<f64> {
    let angle = |i: usize| 2.0 * PI * (bin * i % n) as f64 / n as f64 - lag.to_radians();
    (0..n).map(|i| angle(i).sin()).collect()
}

fn samples(of: Vec<f64>, shape: impl Fn(f64) -> f64) -> Vec<f32> {
    of.into_iter().map(|x| shape(x) as f32).collect()
}

/// Active and reactive power of the fundamental, and the nonactive power of the whole.
struct Shown {
    active: f64,
    reactive: f64,
    nonactive: f64,
}

/// The number that 01 calls q.
fn nonactive(voltage: &[f32], current: &[f32]) -> f32 {
    tilljingle::compute_power(voltage, current, 1.0).expect("slices of one length").nonactive
}

fn measured(n: usize, bin: usize, current: &[f32]) -> Shown {
    let voltage = samples(sine(n, bin, 0.0), |x| HEIGHT * x);
    let power = ours(&voltage, current, bin);
    assert_eq!(power.code, 0);
    Shown {
        active: power.active as f64,
        reactive: power.reactive as f64,
        nonactive: nonactive(&voltage, current) as f64,
    }
}

fn lagging(n: usize, bin: usize, lag: f64) -> Shown {
    measured(n, bin, &samples(sine(n, bin, lag), |x| x))
}

fn distorted(n: usize, bin: usize, shape: fn(f64) -> f64) -> Shown {
    measured(n, bin, &samples(sine(n, bin, 0.0), shape))
}

/// The bins that are tried: an odd one takes the samples of bin 1 in another order.
fn bins(n: usize) -> impl Iterator<Item = usize> {
    [1, 3].into_iter().filter(move |bin| *bin < n / 2)
}

/// At one length, over every whole degree and every distorted current: how far active and reactive power are from cosine and sine, the largest reactive and
/// the smallest nonactive power of a distorted current.
struct Worst {
    active: f64,
    reactive: f64,
    unshifted: f64,
    nonactive: f64,
}

fn worst(n: usize) -> Worst {
    let mut worst = Worst {
        active: 0.0,
        reactive: 0.0,
        unshifted: 0.0,
        nonactive: f64::INFINITY,
    };
    for bin in bins(n) {
        for lag in (0..=360).map(f64::from) {
            let shown = lagging(n, bin, lag);
            worst.active = worst.active.max((shown.active - lag.to_radians().cos()).abs());
            worst.reactive = worst.reactive.max((shown.reactive - lag.to_radians().sin()).abs());
        }
        for (_, shape) in DISTORTED {
            let shown = distorted(n, bin, shape);
            worst.unshifted = worst.unshifted.max(shown.reactive.abs());
            worst.nonactive = worst.nonactive.min(shown.nonactive);
        }
    }
    worst
}

pub fn compare(log: &mut Log) {
    let lags = log.check("sines that lag by 0 to 360 degrees: within Mv·Mi/2^22 of cosine and sine");
    let unshifted = log.check("distorted currents of no phase shift: reactive power within Mv·Mi/2^22 of 0");
    let other = log.check("the same, from 8 samples on: nonactive power above 0.1");
    for n in GRID {
        let worst = worst(n);
        let within = |off: f64| off <= HEIGHT * BOUND;
        log.see(lags, within(worst.active) && within(worst.reactive), || format!("{n} samples"));
        log.see(unshifted, within(worst.unshifted), || format!("{n} samples"));
        if n > 4 {
            log.see(other, worst.nonactive > 0.1, || format!("{n} samples: {}", worst.nonactive));
        }
    }
}

/// A figure with four digits behind the point, and no sign before a zero.
fn rounded(x: f64) -> String {
    format!("{:.4}", (x * 1e4).round() / 1e4 + 0.0)
}

fn print_row(current: &str, shown: Shown) {
    let [active, reactive, nonactive] = [shown.active, shown.reactive, shown.nonactive].map(rounded);
    println!("| {current} | {active} | {reactive} | {nonactive} |");
}

/// Both tables, in Markdown: currents at 256 samples, and the worst of every length.
pub fn print() -> ExitCode {
    println!("| current, from a sine of height 1 | fundamental active | fundamental reactive | nonactive |");
    println!("|---|---:|---:|---:|");
    for lag in (0..=360).step_by(30) {
        print_row(&format!("sine, lagging by {lag} degrees"), lagging(256, 1, lag as f64));
    }
    for (name, shape) in DISTORTED {
        print_row(&format!("{name}, no phase shift"), distorted(256, 1, shape));
    }
    println!();
    println!("| samples | active off the cosine | reactive off the sine | reactive, no phase shift | nonactive, no phase shift |");
    println!("|---:|---:|---:|---:|---:|");
    for n in GRID {
        let worst = worst(n);
        let [active, reactive, unshifted] = [worst.active, worst.reactive, worst.unshifted].map(|x| format!("{x:.1e}"));
        println!("| {n} | {active} | {reactive} | {unshifted} | {} |", rounded(worst.nonactive));
    }
    ExitCode::SUCCESS
}
