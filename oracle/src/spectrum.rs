//! The magnitude spectrum, against the Rust's: within M/2^20 on finite samples, and bit for bit against the Rust's operations over the table's sines.

use crate::common::{bits64, black_box, list32, Check, Kind, Log, Random, Table, KINDS};
use crate::signal::dft_magnitude_spectrum;
use tilljingle::raw::{tj_dft_magnitude_spectrum, tj_dft_magnitude_spectrum_in};

/// Spectra of 64 samples of a full comparison: fewer of longer ones, as many of shorter.
pub const ROUNDS: u64 = 10_000;

/// The lengths on the grid.
const GRID: [usize; 14] = [0, 1, 2, 4, 8, 16, 32, 64, 128, 256, 512, 1024, 2048, 4096];

/// What stands in lent memory before a call, to be seen again where nothing is written.
const BEFORE: f32 = -77.25;

fn plain(samples: &[f32], output: &mut [f32]) -> u8 {
    unsafe { tj_dft_magnitude_spectrum(samples.as_ptr(), samples.len(), output.as_mut_ptr(), output.len()) }
}

fn with_scratch(samples: &[f32], scratch: &mut [f64], output: &mut [f32]) -> u8 {
    unsafe {
        tj_dft_magnitude_spectrum_in(
            samples.as_ptr(),
            samples.len(),
            scratch.as_mut_ptr(),
            scratch.len(),
            output.as_mut_ptr(),
            output.len(),
        )
    }
}

/// How many spectra of this length a comparison makes.
fn share(rounds: u64, n: usize) -> u64 {
    let n = n.max(1) as u64;
    (rounds * 4096 / (n * n)).clamp(12, rounds.max(12))
}

// ---------------------------------------------------------------------------- inputs

/// How many kinds of samples `within_claim` makes.
pub const SHAPES: u64 = 8;

/// A size from 1 to 2^30.
pub fn size(random: &mut Random) -> f64 {
    2f64.powf(random.unit() * 30.0)
}

/// Finite samples of which the largest has a size from 1 to 2^30.
fn within_claim(random: &mut Random, shape: u64, n: usize) -> Vec<f32> {
    let size = size(random);
    let bin = random.below(n as u64 / 2 + 1) as f64;
    shaped(random, shape, n, size, bin)
}

/// Samples of this size, with turns of this bin where the shape has turns.
pub fn shaped(random: &mut Random, shape: u64, n: usize, size: f64, bin: f64) -> Vec<f32> {
    let turn = 2.0 * std::f64::consts::PI;
    let phase = random.unit() * turn;
    let wave = |i: usize, bin: f64| (turn * bin * i as f64 / n as f64 + phase).sin();
    let mut out: Vec<f32> = (0..n)
        .map(|i| match shape {
            0 => size * (random.unit() * 2.0 - 1.0),
            1 => size * wave(i, bin),
            2 => size * wave(i, bin + 0.37),
            3 => size * wave(i, bin).signum(),
            4 => size,
            5 => (i == 0) as u8 as f64 * size,
            6 => size * (wave(i, bin) * 0.9 + (random.unit() - 0.5) * 0.2),
            // the signs of the errors of one bin's cosines, which then add up
            _ => {
                let entry = (turn * bin * i as f64 / n as f64).cos() * 2f64.powi(30);
                size * (entry.round() - entry).signum()
            }
        })
        .map(|x| x as f32)
        .collect();
    let largest = largest(&out);
    if n > 0 && largest < 1.0 {
        out[0] = 1.0;
    }
    out
}

/// The largest size among the samples.
pub fn largest(samples: &[f32]) -> f64 {
    samples.iter().fold(0.0, |most, x| most.max(x.abs() as f64))
}

// ---------------------------------------------------------------------------- the Rust over other sines

/// The Rust's loop, operation by operation, with the sine of place j of n from the list.
pub fn over_sines(samples: &[f32], sines: &[f64], output: &mut [f32]) {
    let n = samples.len();
    let half = n / 2;
    for k in 0..half {
        let (mut real, mut imag) = (0f64, 0f64);
        for (i, &sample) in samples.iter().enumerate() {
            let place = k * i % n;
            // two places have no quarter between them; bin 0, their only bin, stays at the first
            let cosine = if n == 2 { 1.0 } else { sines[(place + n / 4) % n] };
            real += sample as f64 * cosine;
            imag -= sample as f64 * sines[place];
        }
        output[k] = ((real * real + imag * imag).sqrt() * 2.0 / n as f64) as f32;
    }
    if half > 0 {
        output[0] /= 2.0;
    }
}

// ---------------------------------------------------------------------------- comparing

/// The checks of one spectrum.
struct Checks {
    code: Check,
    close: Check,
    exact: Check,
    equal: Check,
    sines: Check,
    kept: Check,
}

impl Checks {
    fn open(log: &mut Log) -> Checks {
        Checks {
            code: log.check("both calls on the grid: 0"),
            close: log.check("tj_dft_magnitude_spectrum: each magnitude within M/2^20 of the Rust's"),
            exact: log.check("tj_dft_magnitude_spectrum: the Rust's operations over the lent sines, bit for bit"),
            equal: log.check("tj_dft_magnitude_spectrum_in: the same figures"),
            sines: log.check("the lent sines: within 2^-31 of libm's"),
            kept: log.check("places past half the length, and past the sines: as they were"),
        }
    }

    /// Both calls on these samples; the spectrum of the first.
    fn see(&self, log: &mut Log, samples: &[f32]) -> Vec<f32> {
        let (n, half) = (samples.len(), samples.len() / 2);
        let mut output = vec![BEFORE; half + 3];
        let mut other = output.clone();
        let mut scratch = vec![BEFORE as f64; n + 3];
        let codes = (plain(samples, &mut output), with_scratch(samples, &mut scratch, &mut other));
        log.see(self.code, codes == (0, 0), || format!("{n} samples: {codes:?}"));
        log.see_all32(self.equal, &other[..half], &output[..half], || list32(samples));
        let rest = output[half..].iter().chain(&other[half..]).all(|x| *x == BEFORE);
        let rest = rest && scratch[n..].iter().all(|x| *x == BEFORE as f64);
        log.see(self.kept, rest, || list32(samples));
        let mut again = vec![BEFORE; half];
        over_sines(samples, &scratch, &mut again);
        log.see_all32(self.exact, &output[..half], &again, || list32(samples));
        for (j, sine) in scratch[..n].iter().enumerate() {
            let exact = libm::sin(2.0 * std::f64::consts::PI * j as f64 / n as f64);
            let close = (sine - exact).abs() <= 2f64.powi(-31) + 1e-15;
            log.see(self.sines, close, || format!("{j} of {n}: {}", bits64(*sine)));
        }
        output.truncate(half);
        output
    }
}

/// Refusals: any length, output and scratch; the number of 01's table, and nothing written.
fn refusals(log: &mut Log, random: &mut Random, rounds: u64) {
    let code = log.check("any length, output and scratch: the number of the table");
    let kept = log.check("a refusal: nothing written");
    for _ in 0..rounds {
        let n = match random.below(4) {
            0 => random.pick(&[3, 5, 4095, 4097, 8192, 65535, 65536, 65537, 65538, 131072]),
            1 => random.below(70_000) as usize,
            _ => random.pick(&GRID[..10]),
        };
        let near = |random: &mut Random, need: usize| (need + random.below(4) as usize).saturating_sub(2);
        let samples = vec![1f32; n];
        let mut output = vec![BEFORE; near(random, n / 2)];
        let mut scratch = vec![BEFORE as f64; near(random, n)];
        let number = |short: bool| match n {
            65537.. => 3,
            _ if !GRID.contains(&n) => 4,
            _ if short => 2,
            _ => 0,
        };
        let expected = number(output.len() < n / 2);
        let answer = plain(&samples, &mut output);
        log.see(code, answer == expected, || format!("{n}, {}: {answer}", output.len()));
        if answer != 0 {
            log.see(kept, output.iter().all(|x| *x == BEFORE), || format!("{n}"));
        }
        output.fill(BEFORE);
        let expected = number(output.len() < n / 2 || scratch.len() < n);
        let answer = with_scratch(&samples, &mut scratch, &mut output);
        log.see(code, answer == expected, || {
            format!("{n}, {}, {}: {answer}", scratch.len(), output.len())
        });
        if answer != 0 {
            let same = output.iter().all(|x| *x == BEFORE) && scratch.iter().all(|x| *x == BEFORE as f64);
            log.see(kept, same, || format!("{n}"));
        }
    }
}

pub fn compare(rounds: u64, log: &mut Log) {
    let checks = Checks::open(log);
    let mut random = Random::new(9);
    let mut worst = (0f64, 0usize);
    for n in GRID {
        for round in 0..share(rounds, n) {
            let samples = within_claim(&mut random, round % SHAPES, n);
            let ours = checks.see(log, &samples);
            let mut theirs = vec![0f32; n / 2];
            dft_magnitude_spectrum(&samples, &mut theirs);
            let unit = largest(&samples) / 2f64.powi(20);
            for (k, (a, b)) in ours.iter().zip(&theirs).enumerate() {
                let off = (*a as f64 - *b as f64).abs() / unit;
                if off > worst.0 {
                    worst = (off, n);
                }
                log.see(checks.close, off <= 1.0, || format!("bin {k} of {}", list32(&samples)));
            }
        }
        // any samples at all: not compared with the Rust's own sines, which put a NaN where an infinity meets a zero
        for round in 0..share(rounds, n) / 4 {
            let kind: Kind = KINDS[round as usize % KINDS.len()];
            checks.see(log, &random.samples(kind, n));
        }
    }
    println!("spectrum: the worst difference is {:.4} of M/2^20, at {} samples", worst.0, worst.1);
    refusals(log, &mut random, rounds.min(4000));
}

pub fn bench(table: &mut Table) {
    let mut random = Random::new(10);
    for n in [16, 32, 64, 128, 256, 512, 1024, 2048, 4096] {
        let samples = random.samples(Kind::Small, n);
        let (mut theirs, mut ours) = (vec![0f32; n / 2], vec![0f32; n / 2]);
        let mut scratch = vec![0f64; n];
        table.row(
            "dft_magnitude_spectrum",
            n,
            || dft_magnitude_spectrum(black_box(&samples), black_box(&mut theirs)),
            || {
                black_box(plain(black_box(&samples), black_box(&mut ours)));
            },
        );
        table.row(
            "dft_magnitude_spectrum, lent scratch",
            n,
            || dft_magnitude_spectrum(black_box(&samples), black_box(&mut theirs)),
            || {
                black_box(with_scratch(
                    black_box(&samples),
                    black_box(&mut scratch),
                    black_box(&mut ours),
                ));
            },
        );
    }
}
