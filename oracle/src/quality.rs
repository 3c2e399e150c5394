//! Distortion, effective bits, and the quotients that the Rust hands to the logarithm.
//!
//! `gen/cut.rs` is the published text of the three decibel functions with the logarithm cut off (setup.sh): kind 0 is the ratio, 1 no spur, 2 an unusable bin.
//! The decibels that follow from our quotients are compared with the uncut functions besides. THD with the library's root in the place of libm's is there for
//! measuring: it tells the sum from the root.

use crate::common::{bits32, bits64, black_box, edges32, list32, same64, Check, Kind, Log, Random, Table, KINDS};
use crate::signal::{compute_enob, compute_sfdr, compute_sinad, compute_snr, compute_thd_from_spectrum};
use tilljingle::raw::{
    tj_compute_enob, tj_compute_thd_from_spectrum, tj_sfdr_quotient, tj_sinad_quotient, tj_snr_quotient,
    tj_sqrt64_narrowed, Figure, Quotient,
};

pub mod cut {
    include!("../gen/cut.rs");
}

/// Random spectra of a full comparison, for each call.
pub const ROUNDS: u64 = 1_000_000;

fn our_thd(spectrum: &[f32], bin: usize) -> Figure {
    unsafe { tj_compute_thd_from_spectrum(spectrum.as_ptr(), spectrum.len(), bin) }
}

fn our_snr(spectrum: &[f32], bin: usize) -> Quotient {
    unsafe { tj_snr_quotient(spectrum.as_ptr(), spectrum.len(), bin) }
}

fn our_sinad(spectrum: &[f32], bin: usize) -> Quotient {
    unsafe { tj_sinad_quotient(spectrum.as_ptr(), spectrum.len(), bin) }
}

fn our_sfdr(spectrum: &[f32], bin: usize) -> Quotient {
    unsafe { tj_sfdr_quotient(spectrum.as_ptr(), spectrum.len(), bin) }
}

/// The most places that are taken.
const LONGEST: usize = 65536;

/// What the Rust makes of a quotient: this often the logarithm of the ratio, 120 without a spur, 0 for an unusable bin.
fn decibels(quotient: Quotient, wide: bool) -> f32 {
    match (quotient.kind, wide) {
        (0, true) => (10.0 * libm::log10(quotient.ratio)) as f32,
        (0, false) => 20.0 * libm::log10f(quotient.ratio as f32),
        (1, false) => 120.0,
        (2, _) => 0.0,
        _ => f32::from_bits(0xDEAD_BEEF),
    }
}

struct Checks {
    thd: Check,
    snr: Check,
    sinad: Check,
    sfdr: Check,
    no_spur: Check,
    unusable: Check,
    decibels: Check,
    enob: Check,
    refused: Check,
}

impl Checks {
    fn open(log: &mut Log) -> Checks {
        Checks {
            thd: log.check("tj_compute_thd_from_spectrum"),
            snr: log.check("tj_snr_quotient, a ratio"),
            sinad: log.check("tj_sinad_quotient, a ratio"),
            sfdr: log.check("tj_sfdr_quotient, a ratio"),
            no_spur: log.check("tj_sfdr_quotient, no spur"),
            unusable: log.check("the three quotients, an unusable bin"),
            decibels: log.check("decibels of the three quotients, the uncut Rust"),
            enob: log.check("tj_compute_enob"),
            refused: log.check("more than 65,536 places: 3, and 0 or the ratio 0"),
        }
    }

    fn see(&self, log: &mut Log, spectrum: &[f32], bin: usize) {
        let words = || format!("{} at {bin}", list32(spectrum));
        let thd = our_thd(spectrum, bin);
        log.see(self.thd, thd.code == 0, || format!("{}: code {}", words(), thd.code));
        log.see32(self.thd, thd.value, compute_thd_from_spectrum(spectrum, bin), words);
        let three = [
            (our_snr(spectrum, bin), cut::cut_snr(spectrum, bin), self.snr, compute_snr(spectrum, bin), true),
            (our_sinad(spectrum, bin), cut::cut_sinad(spectrum, bin), self.sinad, compute_sinad(spectrum, bin), true),
            (our_sfdr(spectrum, bin), cut::cut_sfdr(spectrum, bin), self.sfdr, compute_sfdr(spectrum, bin), false),
        ];
        for (ours, (kind, ratio), check, figure, wide) in three {
            let check = match kind {
                0 => check,
                1 => self.no_spur,
                _ => self.unusable,
            };
            let same = ours.code == 0 && ours.kind == kind && same64(ours.ratio, ratio);
            log.see(check, same, || format!("{}: {ours:?}, Rust {kind} {}", words(), bits64(ratio)));
            log.see32(self.decibels, decibels(ours, wide), figure, words);
        }
    }

    fn enob(&self, log: &mut Log, x: f32) {
        log.see32(self.enob, unsafe { tj_compute_enob(x) }, compute_enob(x), || bits32(x));
    }

    fn too_long(&self, log: &mut Log, spectrum: &[f32], bin: usize) {
        let thd = our_thd(spectrum, bin);
        log.see(self.refused, thd.code == 3 && thd.value == 0.0, || format!("{thd:?}"));
        for q in [our_snr(spectrum, bin), our_sinad(spectrum, bin), our_sfdr(spectrum, bin)] {
            log.see(self.refused, q.code == 3 && q.kind == 0 && q.ratio == 0.0, || format!("{q:?}"));
        }
    }
}

/// Magnitudes of this kind: sizes, and as they are in every fourth list.
fn magnitudes(random: &mut Random, n: usize) -> Vec<f32> {
    let kind = random.pick(&KINDS);
    let mut list = random.samples(kind, n);
    match random.below(4) {
        0 => (),
        1 => list.iter_mut().for_each(|x| *x = x.abs() * 1e-12),
        _ => list.iter_mut().for_each(|x| *x = x.abs()),
    }
    list
}

/// A bin: mostly inside, now and then 0, at the end, past it, or so large that a multiple would pass the largest number.
fn bin(random: &mut Random, n: usize) -> usize {
    match random.below(10) {
        0 => 0,
        1 => n + random.below(3) as usize,
        2 => usize::MAX - random.below(3) as usize,
        3 => 1 << random.below(64),
        4 => n.saturating_sub(1),
        _ => 1 + random.below(n.max(2) as u64 - 1) as usize,
    }
}

/// All lists of up to 6 of five values at every bin to past the end; and every bin of every length to 40.
fn small(checks: &Checks, log: &mut Log, random: &mut Random) {
    let values = [0.0, 1.0, 1e-12, f32::NAN, f32::INFINITY];
    for n in 0..=6u32 {
        for number in 0..values.len().pow(n) {
            let list: Vec<f32> = (0..n).map(|i| values[number / values.len().pow(i) % values.len()]).collect();
            for bin in 0..=n as usize + 1 {
                checks.see(log, &list, bin);
            }
        }
    }
    for n in 0..=40 {
        for bin in (0..=n + 1).chain([usize::MAX / 2 + 1, usize::MAX]) {
            for _ in 0..60 {
                let list = magnitudes(random, n);
                checks.see(log, &list, bin);
            }
        }
    }
}

/// One NaN, infinity or zero at each place of spectra about as long as one, two, three and four blocks of the 64 places that the library tests together.
fn blocks(checks: &Checks, log: &mut Log) {
    let mut random = Random::new(64);
    for n in (62..=68).chain(126..=132).chain(192..=194).chain(257..=259) {
        let numbers = random.samples(Kind::Small, n);
        for other in [f32::NAN, f32::INFINITY, 0.0] {
            for place in 0..n {
                let mut spectrum = numbers.clone();
                spectrum[place] = other;
                for bin in 1..=3 {
                    checks.see(log, &spectrum, bin);
                }
            }
        }
    }
}

pub fn compare(rounds: u64, log: &mut Log) {
    let checks = Checks::open(log);
    let mut random = Random::new(6);
    small(&checks, log, &mut random);
    blocks(&checks, log);
    for x in edges32() {
        checks.enob(log, x);
        // around 1e-12: the fundamental, and the only other bin
        checks.see(log, &[0.0, x, 1.0, 0.5], 1);
        checks.see(log, &[0.0, 1.0, x], 1);
    }
    for _ in 0..rounds {
        let n = random.below(81) as usize;
        let spectrum = magnitudes(&mut random, n);
        let bin = bin(&mut random, n);
        checks.see(log, &spectrum, bin);
        let x = random.sample(Kind::Mixed);
        checks.enob(log, x);
    }
    // the limit, on both sides
    for _ in 0..8 {
        let long = magnitudes(&mut random, LONGEST + 1);
        for bin in [0, 1, 2, 7, 300, 32767, 32768, LONGEST - 1, LONGEST, usize::MAX] {
            checks.see(log, &long[..LONGEST], bin);
            checks.too_long(log, &long, bin);
        }
    }
}

pub fn bench(table: &mut Table) {
    let mut random = Random::new(7);
    for n in [4096, LONGEST] {
        let spectrum: Vec<f32> = (0..n).map(|_| random.unit() as f32 + 1e-3).collect();
        let s = &spectrum[..];
        for (call, bin) in [("compute_thd_from_spectrum, bin 1", 1), ("compute_thd_from_spectrum, bin 16", 16)] {
            table.row(
                call,
                n,
                || drop(black_box(compute_thd_from_spectrum(black_box(s), black_box(bin)))),
                || drop(black_box(our_thd(black_box(s), black_box(bin)))),
            );
            table.row(
                &format!("{call}, against the Rust's text with our root"),
                n,
                || drop(black_box(cut::thd_by_our_root(black_box(s), black_box(bin)))),
                || drop(black_box(our_thd(black_box(s), black_box(bin)))),
            );
        }
        table.row(
            "snr_quotient, bin 7",
            n,
            || drop(black_box(cut::cut_snr(black_box(s), black_box(7)))),
            || drop(black_box(our_snr(black_box(s), black_box(7)))),
        );
        table.row(
            "sinad_quotient, bin 7",
            n,
            || drop(black_box(cut::cut_sinad(black_box(s), black_box(7)))),
            || drop(black_box(our_sinad(black_box(s), black_box(7)))),
        );
        table.row(
            "sfdr_quotient, bin 7",
            n,
            || drop(black_box(cut::cut_sfdr(black_box(s), black_box(7)))),
            || drop(black_box(our_sfdr(black_box(s), black_box(7)))),
        );
    }
    let inputs: Vec<f32> = (0..4096).map(|_| (random.unit() * 120.0) as f32).collect();
    // both by a call: in its place, the Rust's two operations would run side by side with those for the next number
    let theirs: fn(f32) -> f32 = black_box(compute_enob);
    table.each(
        "compute_enob",
        inputs.len(),
        || inputs.iter().for_each(|x| drop(black_box(theirs(black_box(*x))))),
        || inputs.iter().for_each(|x| drop(black_box(unsafe { tj_compute_enob(black_box(*x)) }))),
    );
}
