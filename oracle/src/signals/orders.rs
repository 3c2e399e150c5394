//! One signal in both editions, at every bin of every length that has a usable one: each THD by a reading of 02 over a table made here, and near the Rust's text with that highest
//! order; all else the same but the number, and THD too where no order above 16 lies below half.

use super::calls::{same, Call, Lent, Maker};
use super::editions::highest_order;
use super::inputs;
use super::thd::{claimed, usable_bin, Quarter};
use crate::common::{all_same32, list32, same32, Check, Log, Random};
use crate::generator::wave_of;
use crate::signal::{Signal, SignalMetrics};
use tilljingle::raw::SignalAnswer;
use tilljingle::{Port, Settings};

/// The lengths that have a usable bin, and how many shapes a bin has for one of the longest.
const LENGTHS: [(usize, u64); 11] = [
    (4, 100),
    (8, 100),
    (16, 50),
    (32, 50),
    (64, 50),
    (128, 20),
    (256, 10),
    (512, 5),
    (1024, 3),
    (2048, 1),
    (4096, 1),
];

/// How far the orders of a bin reach.
const REACHES: [&str; 5] = [
    "no usable bin",
    "order 16 not below half",
    "order 16 below half, 17 not",
    "order 17 below half, 40 not",
    "order 40 below half",
];

/// Which of these it is.
fn reach(bin: Option<usize>, n: usize) -> usize {
    let below = |bin: usize| [16, 17, 40].iter().filter(|order| bin * **order < n / 2).count();
    bin.map_or(0, |bin| 1 + below(bin))
}

/// What is made, and up to two settings.
#[derive(Debug)]
struct Shape {
    wave: u8,
    amplitude: f32,
    frequency: f32,
    calls: Vec<Call>,
}

/// A frequency that rounds to this bin; a half is rounded away from zero.
fn frequency_at(random: &mut Random, bin: usize) -> f32 {
    match random.below(5) {
        0 => bin as f32 - 0.5,
        1 => bin as f32 + 0.499,
        2 => bin as f32 + random.unit() as f32 - 0.5,
        _ => bin as f32,
    }
}

/// A duty cycle: one sample high, one that leaves out an order from 17 to 40 and its multiples, or any.
fn duty(random: &mut Random, n: usize) -> f32 {
    let order = 17 + random.below(24);
    match random.below(4) {
        0 => 0.5 / n as f32,
        1 | 2 => (1 + random.below(order - 1)) as f32 / order as f32,
        _ => inputs::duty(random),
    }
}

fn shape(random: &mut Random, n: usize, bin: usize) -> Shape {
    let wave = random.pick(&[1, 1, 1, 2, 3, 3, 0]);
    let amplitude = match random.below(8) {
        0 => inputs::amplitude(random),
        _ => 2f64.powf(random.unit() * 30.0) as f32,
    };
    let frequency = frequency_at(random, bin);
    let call = |random: &mut Random| match random.below(2) {
        0 => Call::Phase(inputs::phase(random)),
        _ => Call::Duty(duty(random, n)),
    };
    Shape {
        wave,
        amplitude,
        frequency,
        calls: (0..random.below(3)).map(|_| call(random)).collect(),
    }
}

struct Checks {
    quarter: Quarter,
    /// Of edition 1, and of edition 2.
    thd: [Check; 2],
    near: [Check; 2],
    samples: Check,
    alike: Check,
    agree: Check,
    /// How many signals there were of each reach, and of how many the THD differ.
    seen: [(u64, u64); 5],
}

impl Checks {
    fn open(log: &mut Log) -> Checks {
        Checks {
            quarter: Quarter::new(),
            thd: [
                log.check("edition 1, every bin: number 0, edition, THD by 01, bit for bit, and the port's"),
                log.check("edition 2, every bin: number 0, edition, THD by 02, bit for bit, and the port's"),
            ],
            near: [
                log.check("edition 1, every bin: THD within 0.05 points of the Rust's, where 01 claims it"),
                log.check("edition 2, every bin: THD within 0.05 points of the Rust's text with 40 orders, where 01 claims it"),
            ],
            samples: log.check("both editions, every bin: the samples of the Rust's generator"),
            alike: log.check("edition 2 beside edition 1: all but THD and the number"),
            agree: log.check("edition 2 beside edition 1, no order above 16 below half: THD too"),
            seen: [(0, 0); 5],
        }
    }

    /// What a call that generates answers in this edition, where THD was `earlier`; the THD that is right.
    fn see_thd(&self, log: &mut Log, edition: u8, earlier: f32, answer: &SignalAnswer, lent: &Lent) -> f32 {
        let (ours, highest) = (&answer.signal, highest_order(edition).expect("an edition"));
        let expected = self.quarter.thd(lent.get(), ours.frequency, highest, earlier);
        let reading = ours.port.voltage_thd;
        let same = (answer.code, ours.edition) == (0, edition) && same32(ours.thd, expected);
        let same = same && reading.present && same32(reading.value, expected);
        log.see(self.thd[edition as usize - 1], same, || {
            format!("{:?} {}: not {}", answer, list32(lent.get()), expected)
        });
        expected
    }

    /// The signal of this shape in this edition.
    fn run(&self, log: &mut Log, edition: u8, shape: &Shape, n: usize) -> (Settings, Lent) {
        let mut lent = Lent::new(n);
        let maker = Maker::Wave(shape.wave, shape.amplitude, shape.frequency);
        let mut answer = maker.ours(edition, lent.get_mut());
        let mut thd = self.see_thd(log, edition, 0.0, &answer, &lent);
        for call in &shape.calls {
            answer = call.ours(answer.signal, lent.get_mut());
            thd = self.see_thd(log, edition, thd, &answer, &lent);
        }
        (answer.signal, lent)
    }

    /// The samples, by the generator that is published.
    fn see_samples(&self, log: &mut Log, ours: &Settings, lent: &Lent) {
        let mut theirs = vec![0.0; lent.get().len()];
        let (wave, amplitude) = (wave_of(ours.wave), ours.amplitude);
        Signal::tail_generate(
            wave,
            amplitude,
            ours.phase,
            ours.frequency,
            ours.duty_cycle,
            &mut theirs,
        );
        let same = lent.ends_stayed() && all_same32(lent.get(), &theirs);
        log.see(self.samples, same, || format!("{:?}: {}", ours, list32(lent.get())));
    }

    /// THD in this edition near that of the Rust's text, where 01 claims it.
    fn see_near(&self, log: &mut Log, edition: u8, ours: &Settings, lent: &Lent) {
        let mut samples = lent.get().to_vec();
        let (wave, none) = (wave_of(ours.wave), SignalMetrics::tail_from(&[0.0; 24]));
        let mut theirs = Signal::tail_over(wave, ours.amplitude, ours.frequency, &none, &mut samples);
        let bin = usable_bin(ours.frequency, lent.get().len()).expect("a usable bin");
        if claimed(lent.get(), theirs.tail_bin(bin)) {
            theirs.tail_thd(if edition == 1 { 16 } else { 40 });
            let rust = theirs.get_metrics().thd;
            let near = (ours.thd as f64 - rust as f64).abs() <= 0.05;
            log.see(self.near[edition as usize - 1], near, || {
                format!("{:?}: Rust {}", ours, rust)
            });
        }
    }

    fn see(&mut self, log: &mut Log, shape: &Shape, n: usize, near: bool) {
        let [(first, lent), (second, other)] = [1, 2].map(|edition| self.run(log, edition, shape, n));
        self.see_samples(log, &first, &lent);
        let port = Port {
            voltage_thd: first.port.voltage_thd,
            ..second.port
        };
        let alike = Settings {
            edition: 1,
            thd: first.thd,
            port,
            ..second
        };
        log.see(self.alike, same(&alike, &first) && other.is(&lent), || {
            format!("{:?}: {:?}, {:?}", shape, first, second)
        });
        let reach = reach(usable_bin(shape.frequency, n), n);
        // no order above 16 counts
        if reach < 3 {
            log.see(self.agree, same32(first.thd, second.thd), || {
                format!("{:?}: {:?}, {:?}", shape, first, second)
            });
        }
        self.seen[reach].0 += 1;
        self.seen[reach].1 += !same32(first.thd, second.thd) as u64;
        if near && reach > 0 {
            self.see_near(log, 1, &first, &lent);
            self.see_near(log, 2, &second, &other);
        }
    }
}

pub fn compare(rounds: u64, log: &mut Log) {
    let mut checks = Checks::open(log);
    let mut random = Random::new(12);
    for (n, share) in LENGTHS {
        for bin in 0..=n / 2 + 1 {
            // ten times as many where order 16 counts
            let share = if bin > 0 && reach(Some(bin), n) > 1 {
                10 * share
            } else {
                share
            };
            for _ in 0..(rounds * share / 5_000).max(1) {
                let shape = shape(&mut random, n, bin);
                // the Rust's own sines take long
                let near = random.below(8) == 0;
                checks.see(log, &shape, n, near);
            }
        }
    }
    for (name, (signals, differ)) in REACHES.iter().zip(checks.seen) {
        println!("signals: {name}: {signals} signals in both editions, {differ} with another THD");
    }
}
