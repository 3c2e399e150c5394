//! Active and reactive power of the fundamental: bit for bit against a reading of 02 written apart, over the table that the signals' comparison makes from 01;
//! and near the same figures over libm's sines, taken as the Rust takes a bin.

mod waves;

use crate::common::{bits32, black_box, list32, Check, Kind, Log, Random, Table, KINDS};
use crate::signals::Quarter;
use crate::spectrum::{largest, shaped, size, SHAPES};
use std::f64::consts::PI;
use tilljingle::raw::{tj_fundamental_power, Fundamental};
pub use waves::print;

/// Pairs of captures of 64 samples of a full comparison: fewer of longer ones, as many of shorter.
pub const ROUNDS: u64 = 400_000;

/// The lengths that have a bin.
const GRID: [usize; 11] = [4, 8, 16, 32, 64, 128, 256, 512, 1024, 2048, 4096];

/// How near libm's figures are in units of the largest voltage times the largest current. Each entry of the table is within 2^-31, so that a sum of n samples
/// is off by at most n·M/2^30.5 and a figure, twice a product of two sums over n², by at most 4/2^30.5; and narrowing, both sides, may be a step of f32 apart,
/// 2^-23 of a figure of at most the largest voltage times the largest current.
const BOUND: f64 = 1.0 / (1 << 22) as f64;
/// The same before narrowing.
const WIDE_BOUND: f64 = 1.0 / (1 << 28) as f64;

fn ours(voltage: &[f32], current: &[f32], bin: usize) -> Fundamental {
    unsafe { tj_fundamental_power(voltage.as_ptr(), voltage.len(), current.as_ptr(), current.len(), bin) }
}

// ---------------------------------------------------------------------------- 02, read apart

/// The number of these lengths at this bin.
fn number(nv: usize, ni: usize, bin: usize) -> u8 {
    match nv {
        _ if nv.max(ni) > 65536 => 3,
        _ if nv != ni => 1,
        _ if nv > 1 && !nv.is_power_of_two() || nv > 4096 => 4,
        _ if bin < 1 || bin >= nv / 2 => 8,
        _ => 0,
    }
}

/// Both figures of the sums of n samples.
fn figures((a, b): (f64, f64), (c, d): (f64, f64), n: usize) -> [f64; 2] {
    let n = n as f64;
    [(a * c + b * d) * 2.0 / (n * n), (b * c - a * d) * 2.0 / (n * n)]
}

fn narrowed(figures: [f64; 2]) -> [f32; 2] {
    figures.map(|x| x as f32)
}

/// The number, and the figures before they are narrowed; zeros in a refusal.
fn wide_answer(quarter: &Quarter, voltage: &[f32], current: &[f32], bin: usize) -> (u8, [f64; 2]) {
    match number(voltage.len(), current.len(), bin) {
        0 => {
            let [v, i] = [voltage, current].map(|samples| quarter.sums(samples, bin));
            (0, figures(v, i, voltage.len()))
        }
        refused => (refused, [0.0; 2]),
    }
}

/// The number and the figures.
pub fn answer(quarter: &Quarter, voltage: &[f32], current: &[f32], bin: usize) -> (u8, [f32; 2]) {
    let (code, wide) = wide_answer(quarter, voltage, current, bin);
    (code, narrowed(wide))
}

// ---------------------------------------------------------------------------- over libm's sines

/// The sums of one bin as `dft_magnitude_spectrum` takes them.
fn rust_sums(samples: &[f32], bin: usize) -> (f64, f64) {
    let (mut real, mut imag) = (0f64, 0f64);
    let freq = 2.0 * PI * bin as f64 / samples.len() as f64;
    for (i, &sample) in samples.iter().enumerate() {
        let angle = freq * i as f64;
        real += sample as f64 * libm::cos(angle);
        imag -= sample as f64 * libm::sin(angle);
    }
    (real, imag)
}

/// Both figures, a pass over each capture.
fn over_libm(voltage: &[f32], current: &[f32], bin: usize) -> [f64; 2] {
    figures(rust_sums(voltage, bin), rust_sums(current, bin), voltage.len())
}

/// The same in one pass, each sine and cosine taken once for both captures.
fn over_libm_at_once(voltage: &[f32], current: &[f32], bin: usize) -> [f64; 2] {
    let (mut v, mut c) = ((0f64, 0f64), (0f64, 0f64));
    let freq = 2.0 * PI * bin as f64 / voltage.len() as f64;
    for (i, (&x, &y)) in voltage.iter().zip(current).enumerate() {
        let angle = freq * i as f64;
        let (cosine, sine) = (libm::cos(angle), libm::sin(angle));
        v = (v.0 + x as f64 * cosine, v.1 - x as f64 * sine);
        c = (c.0 + y as f64 * cosine, c.1 - y as f64 * sine);
    }
    figures(v, c, voltage.len())
}

// ---------------------------------------------------------------------------- comparing

/// The same bits: the contract fixes the sign of a zero. Any NaN equals any other.
fn alike(a: f32, b: f32) -> bool {
    a.to_bits() == b.to_bits() || a.is_nan() && b.is_nan()
}

/// The figure with voltage and current exchanged: of the other sign, or +0 both ways.
fn turned(a: f32, b: f32) -> bool {
    alike(a, -b) || a.to_bits() == 0 && b.to_bits() == 0
}

/// What the answers were: refused, with a NaN, with an infinity, a reactive figure of 0, any other.
#[derive(Default)]
struct Seen([u64; 5]);

impl Seen {
    fn count(&mut self, answer: Fundamental) {
        let either = |is: fn(f32) -> bool| is(answer.active) || is(answer.reactive);
        let tests = [answer.code > 0, either(f32::is_nan), either(f32::is_infinite), answer.reactive == 0.0];
        self.0[tests.iter().position(|is| *is).unwrap_or(4)] += 1;
    }
}

fn shown(answer: Fundamental) -> String {
    format!("{} {} {}", answer.code, bits32(answer.active), bits32(answer.reactive))
}

/// One call, against the reading.
fn see(log: &mut Log, check: Check, quarter: &Quarter, voltage: &[f32], current: &[f32], bin: usize) -> Fundamental {
    let said = ours(voltage, current, bin);
    let (code, [active, reactive]) = answer(quarter, voltage, current, bin);
    let same = said.code == code && alike(said.active, active) && alike(said.reactive, reactive);
    log.see(check, same, || {
        let right = Fundamental { code, active, reactive };
        let given = format!("{} and {} at {bin}", list32(voltage), list32(current));
        format!("{given}: {}, 02 {}", shown(said), shown(right))
    });
    said
}

/// The same with voltage and current exchanged.
fn see_turned(log: &mut Log, check: Check, voltage: &[f32], current: &[f32], bin: usize) {
    let (one, other) = (ours(voltage, current, bin), ours(current, voltage, bin));
    let same = one.code == other.code && alike(one.active, other.active) && turned(one.reactive, other.reactive);
    log.see(check, same, || {
        let given = format!("{} and {} at {bin}", list32(voltage), list32(current));
        format!("{given}: {}, exchanged {}", shown(one), shown(other))
    });
}

/// Every capture of n samples of these values.
fn every(n: u32, values: &[f32]) -> Vec<Vec<f32>> {
    let many = values.len();
    let capture = |k: usize| (0..n).map(|i| values[k / many.pow(i) % many]).collect();
    (0..many.pow(n)).map(capture).collect()
}

/// Every pair of short captures, every bin to 5.
fn short(log: &mut Log, quarter: &Quarter) {
    let four = log.check("every pair of captures of 4 of six values, bins 0 to 5, 02");
    let eight = log.check("every pair of captures of 8 of two values, bins 0 to 5, 02");
    let values = [f32::NAN, f32::INFINITY, f32::NEG_INFINITY, -0.0, 1.0, -3.0];
    for (check, captures) in [(four, every(4, &values)), (eight, every(8, &[1.0, -3.0]))] {
        for voltage in &captures {
            for current in &captures {
                for bin in 0..=5 {
                    see(log, check, quarter, voltage, current, bin);
                }
            }
        }
    }
}

/// Lengths against each other: the short ones, and those about every limit.
fn lengths(log: &mut Log, quarter: &Quarter) {
    let check = log.check("lengths against each other, 02");
    let long = Random::new(51).samples(Kind::Codes, 131_072);
    let about = [
        0, 1, 2, 4, 16, 2048, 4095, 4096, 4097, 8192, 65535, 65536, 65537, 65538, 131_072,
    ];
    let all: Vec<usize> = (0..=9).collect();
    for lengths in [&all[..], &about] {
        for nv in lengths {
            for ni in lengths {
                let half = nv / 2;
                for bin in [0, 1, 2, 3, 4, half.saturating_sub(1), half, half + 1, 1 << 32, usize::MAX] {
                    see(log, check, quarter, &long[..*nv], &long[131_072 - ni..], bin);
                }
            }
        }
    }
}

/// A bin of n samples: mostly one that is taken.
fn any_bin(random: &mut Random, n: usize) -> usize {
    let half = n / 2;
    match random.below(10) {
        0 | 1 => 1,
        2 | 3 => half - 1,
        4 => random.pick(&[0, half, half + 1, n - 1, n, n + 1, (1 << 32) + 1, usize::MAX]),
        _ => 1 + random.below(half as u64 - 1) as usize,
    }
}

/// A capture of codes or of any other kind; and a current that may be the voltage, either way round, or of a kind of its own.
fn any_pair(random: &mut Random, kind: Kind, n: usize) -> [Vec<f32>; 2] {
    let voltage = random.samples(kind, n);
    let current = match random.below(6) {
        0 => voltage.clone(),
        1 => voltage.iter().map(|x| -x).collect(),
        2 => {
            let other = random.pick(&KINDS);
            random.samples(other, n)
        }
        _ => random.samples(kind, n),
    };
    [voltage, current]
}

/// Damage: words of all ones, or now and then other words that are no number or infinite, in one of the captures or in both.
fn damage(random: &mut Random, pair: &mut [Vec<f32>; 2]) {
    for capture in pair {
        for _ in 0..random.below(3) {
            let word = random.pick(&[u32::MAX, u32::MAX, 0x7F80_0001, 0xFF80_0000, 0x7F80_0000]);
            let at = random.below(capture.len() as u64) as usize;
            capture[at] = f32::from_bits(word);
        }
    }
}

/// How many pairs of this length a comparison makes.
fn share(rounds: u64, n: usize) -> u64 {
    (rounds * 64 / n as u64).clamp(20, rounds.max(20))
}

fn random_pairs(rounds: u64, log: &mut Log, quarter: &Quarter) {
    let exact = log.check("random captures, 02");
    let damaged = log.check("captures with words of all ones, 02");
    let exchanged = log.check("voltage and current exchanged: the other sign");
    let mut random = Random::new(52);
    let mut seen = Seen::default();
    for n in GRID {
        for round in 0..share(rounds, n) {
            let kind = KINDS[round as usize % KINDS.len()];
            let bin = any_bin(&mut random, n);
            let mut pair = any_pair(&mut random, kind, n);
            seen.count(see(log, exact, quarter, &pair[0], &pair[1], bin));
            see_turned(log, exchanged, &pair[0], &pair[1], bin);
            if round % 4 == 0 {
                damage(&mut random, &mut pair);
                see(log, damaged, quarter, &pair[0], &pair[1], bin);
                see_turned(log, exchanged, &pair[0], &pair[1], bin);
            }
        }
    }
    let [refused, nan, infinite, zero, other] = seen.0;
    println!("fundamental: of the random captures {refused} refused, {nan} with a NaN, {infinite} with an infinity, {zero} with reactive power 0, {other} others");
}

/// Finite samples, the largest of each capture from 1 to 2^30 in size: near libm's figures.
fn near(rounds: u64, log: &mut Log, quarter: &Quarter) {
    let close = log.check("each figure within Mv·Mi/2^22 of libm's");
    let wide = log.check("each figure before it is narrowed: within Mv·Mi/2^28 of libm's");
    let mut random = Random::new(53);
    let (mut worst, mut worst_wide, mut apart) = ((0f64, 0), (0f64, 0), 0);
    for n in GRID {
        for round in 0..share(rounds, n) {
            let bin = 1 + random.below(n as u64 / 2 - 1) as usize;
            let shapes = [round % SHAPES, round / SHAPES % SHAPES];
            let [voltage, current] = shapes.map(|shape| {
                let size = size(&mut random);
                shaped(&mut random, shape, n, size, bin as f64)
            });
            let unit = largest(&voltage) * largest(&current);
            let said = ours(&voltage, &current, bin);
            let theirs = over_libm(&voltage, &current, bin);
            let (_, read) = wide_answer(quarter, &voltage, &current, bin);
            for (k, x) in [said.active, said.reactive].iter().enumerate() {
                let off = (*x as f64 - theirs[k] as f32 as f64).abs() / unit / BOUND;
                let wide_off = (read[k] - theirs[k]).abs() / unit / WIDE_BOUND;
                apart += (off > 0.0) as u64;
                worst = if off > worst.0 { (off, n) } else { worst };
                worst_wide = if wide_off > worst_wide.0 { (wide_off, n) } else { worst_wide };
                let given = || format!("{} and {} at {bin}", list32(&voltage), list32(&current));
                log.see(close, said.code == 0 && off <= 1.0, given);
                log.see(wide, wide_off <= 1.0, given);
            }
        }
    }
    println!(
        "fundamental: {apart} figures are not libm's; the worst is {:.4} of Mv·Mi/2^22 away, at {} samples; before narrowing {:.4} of Mv·Mi/2^28, at {}",
        worst.0, worst.1, worst_wide.0, worst_wide.1
    );
}

pub fn compare(rounds: u64, log: &mut Log) {
    let quarter = Quarter::new();
    short(log, &quarter);
    lengths(log, &quarter);
    random_pairs(rounds, log, &quarter);
    near(rounds / 4, log, &quarter);
    waves::compare(log);
}

// ---------------------------------------------------------------------------- times

pub fn bench(table: &mut Table) {
    let mut random = Random::new(54);
    for n in [16, 256, 4096] {
        let [voltage, current] = [0; 2].map(|_| random.samples(Kind::Codes, n));
        for (call, theirs) in [
            (
                "fundamental_power at bin 1, against the sums of dft_magnitude_spectrum over each capture",
                over_libm as fn(&[f32], &[f32], usize) -> [f64; 2],
            ),
            (
                "fundamental_power at bin 1, against both sums at once, each sine and cosine taken once",
                over_libm_at_once,
            ),
        ] {
            table.row(
                call,
                n,
                || {
                    black_box(narrowed(theirs(black_box(&voltage), black_box(&current), black_box(1))));
                },
                || {
                    black_box(ours(black_box(&voltage), black_box(&current), black_box(1)));
                },
            );
        }
    }
}
