//! The time record: its figures against `calculate_metrics`, its counts against a reading of document 02.

mod counts;
mod damage;

use crate::common::{all_same32, bits32, black_box, list32, Check, Kind, Log, Random, Table, KINDS};
use crate::generator::wave_of;
use crate::signal::{Signal, SignalMetrics};
pub use counts::Counts;
use tilljingle::raw::{tj_calculate_time_figures, TimeAnswer};
use tilljingle::TimeFigures;

/// Random records of a full comparison.
pub const ROUNDS: u64 = 400_000;

/// The 19 figures that both records have, by name, and the other fields.
macro_rules! figures_of {
    ($from:expr, $to:ident, $($other:ident: $value:expr),*) => {
        $to {
            peak_to_peak: $from.peak_to_peak,
            max: $from.max,
            min: $from.min,
            positive_peak: $from.positive_peak,
            negative_peak: $from.negative_peak,
            average: $from.average,
            dc_rms: $from.dc_rms,
            ac_rms: $from.ac_rms,
            duty_cycle_pos: $from.duty_cycle_pos,
            duty_cycle_neg: $from.duty_cycle_neg,
            rise_time: $from.rise_time,
            fall_time: $from.fall_time,
            crest_factor: $from.crest_factor,
            frequency: $from.frequency,
            period: $from.period,
            form_factor: $from.form_factor,
            overshoot: $from.overshoot,
            undershoot: $from.undershoot,
            slew_rate: $from.slew_rate,
            $($other: $value,)*
        }
    };
}

pub fn figures_of(metrics: &SignalMetrics, counts: Counts) -> TimeFigures {
    figures_of!(metrics, TimeFigures, not_numbers: counts.not_numbers, infinite: counts.infinite)
}

pub fn metrics_of(figures: &TimeFigures) -> SignalMetrics {
    figures_of!(figures, SignalMetrics, thd: 0.0, snr: 0.0, sinad: 0.0, enob: 0.0, sfdr: 0.0)
}

/// The figures one after the other.
fn list(figures: &TimeFigures) -> [f32; 19] {
    metrics_of(figures).tail_time()
}

/// The same numbers, and the same counts.
pub fn same_figures(a: &TimeFigures, b: &TimeFigures) -> bool {
    all_same32(&list(a), &list(b)) && Counts::in_record(a) == Counts::in_record(b)
}

/// The bits of the figures, and the counts.
fn shown(figures: &TimeFigures) -> String {
    format!("{} {:?}", list32(&list(figures)), Counts::in_record(figures))
}

/// A record that may be any.
pub fn any_figures(random: &mut Random) -> TimeFigures {
    let mut values = [0.0; 24];
    random.fill(Kind::Mixed, &mut values);
    figures_of(&SignalMetrics::tail_from(&values), Counts::any(random))
}

/// The most samples that are taken.
const LONGEST: usize = 65_536;

/// One call.
struct Record {
    wave: u8,
    amplitude: f32,
    frequency: f32,
    earlier: TimeFigures,
    samples: Vec<f32>,
}

impl Record {
    fn words(&self) -> String {
        format!(
            "wave {} amplitude {} frequency {} earlier {} samples {}",
            self.wave,
            bits32(self.amplitude),
            bits32(self.frequency),
            shown(&self.earlier),
            list32(&self.samples)
        )
    }

    fn ours(&self) -> TimeAnswer {
        unsafe {
            tj_calculate_time_figures(
                self.wave,
                self.amplitude,
                self.frequency,
                self.earlier,
                self.samples.as_ptr(),
                self.samples.len(),
            )
        }
    }

    fn theirs(&self) -> SignalMetrics {
        let mut samples = self.samples.clone();
        let earlier = metrics_of(&self.earlier);
        let mut signal = Signal::tail_over(
            wave_of(self.wave),
            self.amplitude,
            self.frequency,
            &earlier,
            &mut samples,
        );
        signal.tail_calculate();
        signal.get_metrics()
    }

    /// The number of the answer, and the record. A refused call is to bring the earlier one.
    fn expected(&self) -> (u8, TimeFigures) {
        if self.samples.len() > LONGEST {
            return (3, self.earlier);
        }
        let counts = Counts::in_record(&self.earlier).after(&self.samples);
        (0, figures_of(&self.theirs(), counts))
    }

    /// Every field, and the number.
    fn see(&self, log: &mut Log, check: Check) {
        let (answer, (code, expected)) = (self.ours(), self.expected());
        let same = answer.code == code && same_figures(&answer.figures, &expected);
        log.see(check, same, || {
            let (ours, theirs) = (shown(&answer.figures), shown(&expected));
            format!("{}: {} {}, not {} {}", self.words(), answer.code, ours, code, theirs)
        });
    }
}

/// How many forms `form` has beside the kinds of single samples.
const FORMS: u64 = 8;

/// A signal of the form with this number; `period` is in samples.
fn form(random: &mut Random, which: u64, n: usize, amplitude: f32) -> Vec<f32> {
    let period = 2 + random.below(40) as usize;
    let shift = random.unit() as f32;
    let constant = random.sample(Kind::Mixed);
    let at = |i: usize| (i % period) as f32 / period as f32;
    let sine = |i: usize| amplitude * ((at(i) + shift) * 6.283_185_5).sin();
    let square = |i: usize, low: f32| if at(i) < shift { amplitude } else { low };
    (0..n)
        .map(|i| match which {
            0 => constant,
            1 => (i % period) as f32 - 3.0,
            2 => amplitude * (at(i) - 0.5).abs(),
            3 => square(i, 0.0) + 2e-6 * random.sample(Kind::Small),
            4 => square(i, -amplitude) * (1.0 + 0.2 * random.sample(Kind::Small)),
            5 => sine(i),
            6 => sine(i) + 0.3 * random.sample(Kind::Small),
            _ => match random.below(20) {
                0 => random.sample(Kind::Special),
                _ => sine(i),
            },
        })
        .collect()
}

/// Lengths: mostly short, all that are special, now and then the longest and those that are refused.
fn length(random: &mut Random) -> usize {
    match random.below(4000) {
        0..=3 => LONGEST - 2 + random.below(5) as usize,
        4..=99 => random.below(4) as usize,
        100..=199 => 100 + random.below(400) as usize,
        _ => 1 + random.below(90) as usize,
    }
}

/// A frequency. On a long capture it has no bin below half the length: there the Rust's spectrum would take hours.
fn frequency(random: &mut Random, n: usize) -> f32 {
    if n > 600 {
        return random.pick(&[0.0, -1.0, f32::NAN, f32::INFINITY, n as f32, 1e9]);
    }
    match random.below(5) {
        0 => random.sample(Kind::Mixed),
        1 => 0.0,
        2 => random.sample(Kind::Small) * 1e9,
        _ => (random.unit() * 50.0) as f32,
    }
}

fn random_record(random: &mut Random, round: u64) -> Record {
    let n = length(random);
    let amplitude = match random.below(3) {
        0 => random.sample(Kind::Mixed),
        _ => 10.0 * random.sample(Kind::Small),
    };
    let which = round % (KINDS.len() as u64 + FORMS);
    let samples = match KINDS.get(which as usize) {
        Some(kind) => random.samples(*kind, n),
        None => form(random, which - KINDS.len() as u64, n, amplitude),
    };
    let earlier = any_figures(random);
    Record {
        wave: if random.below(20) == 0 {
            random.bits() as u8
        } else {
            random.below(4) as u8
        },
        amplitude,
        frequency: frequency(random, n),
        earlier,
        samples,
    }
}

/// What the short captures are made of: -1, -0, 0, 1/2, 1, NaN, infinity.
const ALPHABET: [u32; 7] = [
    0xBF80_0000,
    0x8000_0000,
    0,
    0x3F00_0000,
    0x3F80_0000,
    0x7FC0_0000,
    0x7F80_0000,
];

/// Samples with these bits. That they have them in memory is looked at: a NaN may lose some where it is moved as a number.
fn of_bits(words: &[u32]) -> Vec<f32> {
    let samples: Vec<f32> = words.iter().map(|bits| f32::from_bits(*bits)).collect();
    let lent = unsafe { std::slice::from_raw_parts(samples.as_ptr() as *const u32, words.len()) };
    assert_eq!(lent, words);
    samples
}

/// Every capture of up to five samples of this alphabet, for every wave.
fn compare_short(log: &mut Log, check: Check, alphabet: &[u32]) {
    let counts = Counts {
        not_numbers: u32::MAX,
        infinite: 7,
    };
    let earlier = figures_of(&SignalMetrics::tail_from(&[7.0; 24]), counts);
    let size = alphabet.len();
    for length in 0..=5 {
        for number in 0..size.pow(length) {
            let words: Vec<u32> = (0..length).map(|i| alphabet[number / size.pow(i) % size]).collect();
            for (wave, amplitude, frequency) in [
                (0, 1.0, 0.0),
                (1, 1.0, 0.0),
                (1, 0.5, 1.0),
                (2, 0.5, 1.0),
                (3, -1.0, 50.0),
            ] {
                Record {
                    wave,
                    amplitude,
                    frequency,
                    earlier,
                    samples: of_bits(&words),
                }
                .see(log, check);
            }
        }
    }
}

pub fn compare(rounds: u64, log: &mut Log) {
    let check = log.check("tj_calculate_time_figures: every capture of up to 5 of -1, -0, 0, 1/2, 1, NaN, inf");
    compare_short(log, check, &ALPHABET);
    let check = log.check("tj_calculate_time_figures: random records");
    let mut random = Random::new(5);
    for round in 0..rounds {
        random_record(&mut random, round).see(log, check);
    }
    damage::compare(rounds, log);
}

pub fn bench(table: &mut Table) {
    let n = 4096;
    let mut random = Random::new(6);
    let noise = random.samples(Kind::Small, n);
    let wave: Vec<f32> = (0..n).map(|i| (i as f32 * 0.0107).sin() + 0.01 * noise[i]).collect();
    let pulses: Vec<f32> = (0..n).map(|i| if i % 409 < 100 { 1.0 } else { 0.0 }).collect();
    let mut damaged = noise.clone();
    damaged[n - 1] = f32::NAN;
    for (name, wave, samples) in [
        ("calculate_time_figures, noise", 0, noise),
        ("calculate_time_figures, a sine with noise", 2, wave),
        ("calculate_time_figures, PWM", 1, pulses),
        ("calculate_time_figures, noise and a last NaN", 0, damaged),
    ] {
        let record = Record {
            wave,
            amplitude: 1.0,
            frequency: 0.0, // the Rust's spectrum is no part of it
            earlier: TimeFigures::default(),
            samples,
        };
        let mut samples = record.samples.clone();
        let mut signal = Signal::tail_over(wave_of(wave), 1.0, 0.0, &metrics_of(&record.earlier), &mut samples);
        table.row(
            name,
            n,
            || {
                black_box(&mut signal).tail_calculate();
                black_box(&signal);
            },
            || {
                black_box(black_box(&record).ours());
            },
        );
    }
}
