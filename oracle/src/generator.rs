//! The generator, against the Rust's `generate_samples`.

use crate::common::{all_same32, bits32, black_box, list32, Check, Kind, Log, Random, Table};
use crate::signal::{Signal, SignalType};
use tilljingle::raw::tj_generate_samples;

/// Random shapes of a full comparison.
pub const ROUNDS: u64 = 2_000_000;

/// The most samples that are filled.
const LONGEST: usize = 65536;

/// What a wave is made from.
#[derive(Clone, Copy)]
struct Shape {
    wave: u8,
    amplitude: f32,
    phase: f32,
    frequency: f32,
    duty_cycle: f32,
}

/// The wave with this number; any other is DC.
pub fn wave_of(number: u8) -> SignalType {
    match number {
        1 => SignalType::PWM,
        2 => SignalType::Triangular,
        3 => SignalType::Sawtooth,
        _ => SignalType::DC,
    }
}

impl Shape {
    fn ours(&self, samples: &mut [f32]) -> u8 {
        unsafe {
            tj_generate_samples(
                self.wave,
                self.amplitude,
                self.phase,
                self.frequency,
                self.duty_cycle,
                samples.as_mut_ptr(),
                samples.len(),
            )
        }
    }

    fn theirs(&self, samples: &mut [f32]) {
        Signal::tail_generate(
            wave_of(self.wave),
            self.amplitude,
            self.phase,
            self.frequency,
            self.duty_cycle,
            samples,
        );
    }

    fn words(&self) -> String {
        format!(
            "wave {} amplitude {} phase {} frequency {} duty {}",
            self.wave,
            bits32(self.amplitude),
            bits32(self.phase),
            bits32(self.frequency),
            bits32(self.duty_cycle)
        )
    }
}

/// A length: mostly short, on the grid, now and then any up to the longest.
fn length(random: &mut Random) -> usize {
    match random.below(1000) {
        0 => random.below(LONGEST as u64 + 1) as usize,
        1..=9 => 1 << random.below(13),
        10..=99 => random.below(260) as usize,
        _ => random.below(24) as usize,
    }
}

/// A setting: a plain number, one near the length, or a number of any kind.
fn setting(random: &mut Random, n: usize) -> f32 {
    let plain = [0.0, 0.25, 0.5, 1.0, 2.0, 50.0, 60.0, 90.0, 180.0, 360.0];
    match random.below(8) {
        0 | 1 => random.pick(&plain),
        2 => -random.pick(&plain),
        3 => n as f32 + random.below(5) as f32 - 2.0,
        4 => n as f32 / (random.below(9) + 1) as f32,
        5 => (random.unit() * 100.0 - 20.0) as f32,
        6 => random.sample(Kind::Mostly),
        _ => random.sample(Kind::Mixed),
    }
}

fn shape(random: &mut Random, n: usize) -> Shape {
    // every wave as often as the others, and numbers that name none
    let wave = match random.below(33) {
        32 => random.below(256) as u8,
        kind => (kind % 4) as u8,
    };
    Shape {
        wave,
        amplitude: setting(random, n),
        phase: setting(random, n),
        frequency: setting(random, n),
        duty_cycle: setting(random, n),
    }
}

/// One shape on `n` samples, between two places that must stay.
fn see(log: &mut Log, check: Check, random: &mut Random, shape: &Shape, n: usize) {
    let start = random.samples(Kind::Codes, n + 2);
    let (mut ours, mut theirs) = (start.clone(), start);
    let code = shape.ours(&mut ours[1..n + 1]);
    shape.theirs(&mut theirs[1..n + 1]);
    log.see(check, code == 0 && all_same32(&ours, &theirs), || {
        format!("{}: {} {}, Rust {}", shape.words(), code, list32(&ours), list32(&theirs))
    });
}

pub fn compare(rounds: u64, log: &mut Log) {
    let check = log.check("tj_generate_samples, generate_samples");
    let mut random = Random::new(8);
    for _ in 0..rounds {
        let n = length(&mut random);
        let shape = shape(&mut random, n);
        see(log, check, &mut random, &shape, n);
    }
    for n in [LONGEST - 1, LONGEST] {
        for _ in 0..8 {
            let shape = shape(&mut random, n);
            see(log, check, &mut random, &shape, n);
        }
    }

    let refused = log.check("tj_generate_samples, too long");
    for n in [LONGEST + 1, LONGEST + 2, 2 * LONGEST] {
        for _ in 0..8 {
            let shape = shape(&mut random, n);
            let start = random.samples(Kind::Codes, n);
            let mut ours = start.clone();
            let code = shape.ours(&mut ours);
            log.see(refused, code == 3 && ours == start, || format!("{}: {}", n, code));
        }
    }
}

pub fn bench(table: &mut Table) {
    let names = ["DC", "PWM", "triangular", "sawtooth"];
    for n in [1024, 4096] {
        for wave in 0..4 {
            let shape = Shape {
                wave,
                amplitude: 5.0,
                phase: 30.0,
                frequency: 50.0,
                duty_cycle: 0.3,
            };
            let (mut ours, mut theirs) = (vec![0.0; n], vec![0.0; n]);
            table.row(
                &format!("generate_samples, {}", names[wave as usize]),
                n,
                || black_box(shape).theirs(&mut theirs),
                || {
                    black_box(black_box(shape).ours(&mut ours));
                },
            );
        }
    }
}
