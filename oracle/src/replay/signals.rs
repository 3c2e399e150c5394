//! Signals, by value and held.

use super::ports::reading;
use super::run::{Maker, Run};
use super::{editions, word, Given, Lines, Said};
use crate::common::Kind;

// ---------------------------------------------------------------------------- by value, number 10

/// A signal is made in an edition, another is put into its state or not, and three settings follow, each a number and a value.
#[derive(Clone, Copy)]
pub struct Script {
    pub maker: Maker,
    pub edition: u8,
    pub put: Option<u8>,
    pub settings: [(u32, f32); 3],
    /// Whether it is made on eight samples of its own, so that settings that are refused find a state.
    pub apart: bool,
}

impl Script {
    pub fn new(maker: Maker, edition: u8, settings: [(u32, f32); 3]) -> Script {
        Script {
            maker,
            edition,
            put: None,
            settings,
            apart: false,
        }
    }

    fn which(&self) -> u32 {
        match self.maker {
            _ if self.apart => 3,
            Maker::Wave(..) => 1,
            Maker::Port(..) => 2,
        }
    }

    /// What a line gives: the words that say it, and the samples.
    pub fn given(&self, out: &[f32]) -> Given {
        let mut words = match self.maker {
            Maker::Wave(wave, amplitude, frequency) => vec![wave as u32, word(&amplitude), word(&frequency), 0],
            Maker::Port(voltage, current, frequency) => {
                [&[word(&voltage), word(&current)][..], &reading(frequency)].concat()
            }
        };
        words.extend([self.edition as u32, self.put.map_or(256, |edition| edition as u32)]);
        words.extend(self.settings.iter().flat_map(|(setting, x)| [*setting, word(x)]));
        Given::into(words, out.to_vec())
    }

    /// What it says and leaves on these samples.
    pub fn said(&self, out: &[f32]) -> Said {
        let (mut eight, mut samples) = ([0.0; 8], out.to_vec());
        let made = match self.apart {
            true => Run::new(self.maker, self.edition, &mut eight).beside(&mut samples),
            false => Run::new(self.maker, self.edition, &mut samples),
        };
        let mut run = made.with_edition(self.put);
        for (setting, x) in self.settings {
            run.set(setting, x);
        }
        run.said()
    }

    /// Its line on these samples.
    pub fn line(&self, lines: &mut Lines, out: &[f32]) -> Said {
        let said = self.said(out);
        lines.line(self.which(), &self.given(out), &said);
        said
    }

    /// A line that says something else of it, which is wrong.
    pub fn wrong_line(&self, lines: &mut Lines, out: &[f32], said: &Said) {
        lines.wrong_line(self.which(), &self.given(out), &self.said(out), said);
    }
}

/// A random signal (1) or power port (2) on n samples.
fn random_maker(lines: &mut Lines, which: u32, n: usize) -> Maker {
    let (wave, x) = (lines.random.below(4) as u8, lines.setting());
    if which == 1 {
        let frequency = match lines.random.below(4) {
            0 => lines.setting(),
            _ => (lines.random.unit() * n as f64 / 3.0) as f32,
        };
        return Maker::Wave(wave, x, frequency);
    }
    Maker::Port(x, lines.setting(), lines.random.pick(&[None, Some(50.0)]))
}

/// One of the first so many settings, and its value.
fn random_setting(lines: &mut Lines, settings: u64) -> (u32, f32) {
    let setting = lines.random.below(settings) as u32;
    let x = match lines.random.below(2) {
        0 => lines.setting(),
        _ => lines.random.unit() as f32 * if setting == 1 { 360.0 } else { 1.0 },
    };
    (setting, x)
}

/// Every fifth is of edition 2.
fn edition_of(round: u32) -> u8 {
    1 + (round % 5 == 4) as u8
}

/// What leaves counts: pulses of either infinity and of NaN, a constant infinity, a wave that is NaN throughout, and one of infinities with a NaN in it.
const DAMAGED: [(u8, f32, f32); 6] = [
    (1, f32::INFINITY, 1.0),
    (1, f32::NEG_INFINITY, 2.0),
    (1, f32::NAN, 2.0),
    (0, f32::NEG_INFINITY, 1.0),
    (2, 1.0, 0.0),
    (3, f32::INFINITY, 1.0),
];

/// These settings with a phase of 100 and a duty cycle of 0.3.
pub fn with_values(settings: [u32; 3]) -> [(u32, f32); 3] {
    settings.map(|setting| (setting, if setting == 1 { 100.0 } else { 0.3 }))
}

/// A signal or a power port, and three settings.
pub fn signals(lines: &mut Lines) {
    for round in 0..300 {
        let n = lines.random.pick(&[0, 1, 2, 4, 8, 8, 16, 16, 32, 3, 12]);
        let out = lines.random.samples(Kind::Small, n);
        let maker = random_maker(lines, 1 + (round % 6 == 0) as u32, n);
        let settings = [0; 3].map(|_| random_setting(lines, if round % 4 == 0 { 4 } else { 3 }));
        Script::new(maker, edition_of(round), settings).line(lines, &out);
    }
    for settings in [[0, 0, 0], [2, 1, 0], [1, 2, 3]] {
        for ((wave, amplitude, frequency), edition) in DAMAGED.into_iter().zip([1, 2].into_iter().cycle()) {
            let maker = Maker::Wave(wave, amplitude, frequency);
            Script::new(maker, edition, with_values(settings)).line(lines, &[0.5; 8]);
        }
    }
    editions::short(lines);
}

// ---------------------------------------------------------------------------- held, number 12

/// A sequence of crate `sequences` on a wave, an amplitude and a frequency: 1 duty cycle and phase; 2 phase and reset; 3 the metrics after a duty cycle.
#[derive(Clone, Copy)]
pub struct Sequence {
    pub which: u32,
    pub shape: (u8, f32, f32),
    pub edition: u8,
    pub duty: f32,
    pub phase: f32,
}

impl Sequence {
    pub fn given(&self, out: &[f32]) -> Given {
        let (wave, amplitude, frequency) = self.shape;
        let values = match self.which {
            1 => vec![self.duty, self.phase],
            2 => vec![self.phase],
            _ => vec![self.duty],
        };
        let made = [wave as u32, word(&amplitude), word(&frequency), self.edition as u32];
        Given::into(made.into_iter().chain(values.iter().map(word)).collect(), out.to_vec())
    }

    /// What the last call answers, and what is left; the metrics come with the number of the first call.
    pub fn said(&self, out: &[f32]) -> Said {
        let (wave, amplitude, frequency) = self.shape;
        let mut samples = out.to_vec();
        let mut run = Run::new(Maker::Wave(wave, amplitude, frequency), self.edition, &mut samples);
        let made = run.said().code;
        let calls = match self.which {
            1 => [(2, self.duty), (1, self.phase)],
            2 => [(1, self.phase), (3, 0.0)],
            _ => [(2, self.duty), (0, 0.0)],
        };
        for (setting, x) in calls {
            run.set(setting, x);
        }
        let mut said = run.said();
        if self.which == 3 {
            said.code = made;
            said.floats.truncate(21);
        }
        said
    }

    pub fn line(&self, lines: &mut Lines, out: &[f32]) {
        lines.line(self.which, &self.given(out), &self.said(out));
    }

    /// As for a script.
    pub fn wrong_line(&self, lines: &mut Lines, out: &[f32], said: &Said) {
        lines.wrong_line(self.which, &self.given(out), &self.said(out), said);
    }
}

/// The power of a port of this voltage, current and frequency, after its voltage was set to the next.
#[derive(Clone, Copy)]
pub struct Powered {
    pub port: (f32, f32, Option<f32>),
    pub edition: u8,
    pub next: f32,
}

impl Powered {
    pub fn given(&self, out: &[f32]) -> Given {
        let (voltage, current, frequency) = self.port;
        let made = [&[word(&voltage), word(&current)][..], &reading(frequency)].concat();
        let words = [&made[..], &[self.edition as u32, word(&self.next)]].concat();
        Given::into(words, out.to_vec())
    }

    pub fn said(&self, out: &[f32]) -> Said {
        let (voltage, current, frequency) = self.port;
        let mut samples = out.to_vec();
        let mut run = Run::new(Maker::Port(voltage, current, frequency), self.edition, &mut samples);
        run.powered(self.next)
    }

    pub fn line(&self, lines: &mut Lines, out: &[f32]) {
        lines.line(4, &self.given(out), &self.said(out));
    }

    /// As for a script.
    pub fn wrong_line(&self, lines: &mut Lines, out: &[f32], said: &Said) {
        lines.wrong_line(4, &self.given(out), &self.said(out), said);
    }
}

fn random_power(lines: &mut Lines, round: u32) {
    let n = lines.random.pick(&[0, 1, 2, 4, 8, 16, 32, 3, 12]);
    let out = lines.random.samples(Kind::Small, n);
    let [voltage, current, next] = [0; 3].map(|_| lines.setting());
    Powered {
        port: (voltage, current, lines.random.pick(&[None, Some(50.0)])),
        edition: edition_of(round),
        next,
    }
    .line(lines, &out);
}

fn random_sequence(lines: &mut Lines, round: u32) {
    let n = lines.random.pick(&[0, 1, 2, 4, 8, 8, 16, 16, 32, 3, 12]);
    let out = lines.random.samples(Kind::Small, n);
    let (wave, amplitude) = (lines.random.below(4) as u8, lines.setting());
    let frequency = (lines.random.unit() * n as f64 / 3.0) as f32;
    Sequence {
        which: 1 + round % 3,
        shape: (wave, amplitude, frequency),
        edition: edition_of(round),
        duty: lines.random.unit() as f32 * 1.25,
        phase: lines.random.unit() as f32 * 360.0,
    }
    .line(lines, &out);
}

/// The sequences of crate `sequences` on a signal that keeps its samples.
pub fn held(lines: &mut Lines) {
    for round in 0..300 {
        random_sequence(lines, round);
    }
    for round in 0..100 {
        random_power(lines, round);
    }
    for which in 1..=3 {
        for (shape, edition) in DAMAGED.into_iter().zip([1, 2].into_iter().cycle()) {
            Sequence {
                which,
                shape,
                edition,
                duty: 0.3,
                phase: 100.0,
            }
            .line(lines, &[0.5; 4]);
        }
    }
    editions::held(lines);
}
