//! The calls on one signal, one after the other, as 01 and request e of 02 have them: the Rust's, but for THD, which is over 01's sines and up to the order
//! of the edition; and the number of the last call. What is refused leaves all as it was.

use super::slices::sines;
use super::Said;
use crate::figures::Counts;
use crate::generator::wave_of;
use crate::signal::Signal;
use crate::signals::editions::{by_length, highest_order, number};
use crate::spectrum::over_sines;

/// Step 10 of `calculate_metrics` over 01's sines, with this highest order.
fn thd(samples: &[f32], frequency: f32, highest: usize, earlier: f32) -> f32 {
    let half = samples.len() / 2;
    let bin = libm::roundf(frequency * samples.len() as f32 / samples.len() as f32) as usize;
    if half <= 1 || !(frequency > 0.0) || bin == 0 || bin >= half {
        return earlier;
    }
    let mut magnitudes = vec![0.0; half];
    over_sines(samples, &sines(samples.len()), &mut magnitudes);
    let harmonics = (2..=highest).map(|order| bin * order).take_while(|bin| *bin < half);
    let power = harmonics
        .map(|bin| magnitudes[bin] as f64 * magnitudes[bin] as f64)
        .fold(0.0, |sum, x| sum + x);
    match magnitudes[bin] > 1e-12 {
        true => libm::sqrt(power) as f32 / magnitudes[bin] * 100.0,
        false => earlier,
    }
}

/// What makes a signal.
#[derive(Clone, Copy)]
pub enum Maker {
    /// A wave's number, an amplitude and a frequency.
    Wave(u8, f32, f32),
    /// A port's voltage and current, and its frequency's reading.
    Port(f32, f32, Option<f32>),
}

/// A signal after the last call.
pub struct Run<'a> {
    signal: Signal<'a>,
    edition: u8,
    counts: Counts,
    code: u8,
}

impl<'a> Run<'a> {
    /// A signal made so; refused, the zero state.
    pub fn new(maker: Maker, edition: u8, samples: &'a mut [f32]) -> Run<'a> {
        let code = number(edition, samples.len());
        let signal = match maker {
            _ if code > 0 => Signal::tail_zero(samples),
            Maker::Wave(wave, amplitude, frequency) => Signal::new(wave_of(wave), amplitude, frequency, samples),
            Maker::Port(voltage, current, frequency) => Signal::new_power_port(voltage, current, frequency, samples),
        };
        let mut run = Run {
            signal,
            edition: if code > 0 { 0 } else { edition },
            counts: Counts::default(),
            code,
        };
        if code == 0 {
            run.measured(0.0);
        }
        run
    }

    /// The same state beside other samples.
    pub fn beside(self, samples: &'a mut [f32]) -> Run<'a> {
        Run {
            signal: self.signal.tail_beside(samples),
            ..self
        }
    }

    /// With this edition in its state, where one is given.
    pub fn with_edition(self, edition: Option<u8>) -> Run<'a> {
        Run {
            edition: edition.unwrap_or(self.edition),
            ..self
        }
    }

    /// Puts THD by 01, or by 02 in edition 2, in place of the Rust's, and counts, after a call that generated.
    fn measured(&mut self, earlier: f32) {
        let highest = highest_order(self.edition).expect("an edition of 02");
        let (samples, frequency) = (self.signal.get_samples(), self.signal.tail_settings().frequency);
        let thd = thd(samples, frequency, highest, earlier);
        self.counts = self.counts.after(samples);
        let mut metrics = self.signal.get_metrics();
        metrics.thd = thd;
        self.signal.tail_set_metrics(&metrics);
        self.signal.set_voltage_thd(Some(thd));
    }

    /// One call: 1 sets the phase, 2 the duty cycle, 3 resets; 0 is none.
    pub fn set(&mut self, setting: u32, x: f32) {
        let n = self.signal.get_samples().len();
        self.code = match setting {
            0 => return,
            3 => by_length(n),
            _ => number(self.edition, n),
        };
        let earlier = self.signal.get_metrics().thd;
        match setting {
            _ if self.code > 0 => return,
            1 => self.signal.set_phase(x),
            2 => self.signal.set_duty_cycle(x),
            _ => self.signal.reset_waveform(),
        }
        match setting {
            3 => self.counts = Counts::default(),
            _ => self.measured(earlier),
        }
    }

    /// The power of the port after this voltage was set; 0 where it was refused.
    pub fn powered(&mut self, voltage: f32) -> Said {
        self.signal.set_voltage(voltage);
        let power = if self.code > 0 {
            0.0
        } else {
            self.signal.instantaneous_power()
        };
        Said {
            floats: vec![power],
            counts: None,
            ..self.said()
        }
    }

    /// What a signal shows: the metrics and the edition, the shape, and what of the port its calls set; an absent reading as -1.
    fn shown(&self) -> Vec<f32> {
        let (metrics, shape) = (self.signal.get_metrics(), self.signal.tail_settings());
        let mut out = metrics.tail_time().to_vec();
        out.extend([metrics.thd, self.edition as f32]);
        out.extend([shape.amplitude, shape.phase, shape.frequency, shape.duty_cycle]);
        out.extend([self.signal.voltage(), self.signal.current(), self.signal.active_power()]);
        let readings = [
            self.signal.voltage_crest_factor(),
            self.signal.voltage_thd(),
            self.signal.power_factor(),
            self.signal.apparent_power(),
        ];
        out.extend(readings.map(|r| r.unwrap_or(-1.0)));
        out
    }

    /// That, the last call's number, the counts, and the samples.
    pub fn said(&self) -> Said {
        Said {
            code: self.code as u32,
            counts: Some(self.counts),
            ..Said::left(self.shown(), self.signal.get_samples().to_vec())
        }
    }
}
