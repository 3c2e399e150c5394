//! The calls on a signal, by the library and by the Rust, and how two states are compared.

use super::editions;
use crate::common::all_same32;
use crate::figures::{figures_of, same_figures, Counts};
use crate::generator::wave_of;
use crate::port::{port_of, same_port};
use crate::signal::Signal;
use tilljingle::raw::{
    tj_signal_new, tj_signal_new_power_port, tj_signal_reset_waveform, tj_signal_set_duty_cycle, tj_signal_set_phase,
    SignalAnswer,
};
use tilljingle::{Reading, Settings};

/// What the Rust's signal keeps, this edition and these counts.
pub fn settings_of(signal: &Signal, wave: u8, edition: u8, counts: Counts) -> Settings {
    let settings = signal.tail_settings();
    let metrics = signal.get_metrics();
    Settings {
        wave,
        edition,
        amplitude: settings.amplitude,
        phase: settings.phase,
        frequency: settings.frequency,
        duty_cycle: settings.duty_cycle,
        port: port_of(signal),
        figures: figures_of(&metrics, counts),
        thd: metrics.thd,
    }
}

/// What a refused `new` answers.
pub fn zero() -> Settings {
    settings_of(&Signal::tail_zero(&mut []), 0, 0, Counts::default())
}

pub fn same(a: &Settings, b: &Settings) -> bool {
    let numbers = |s: &Settings| [s.amplitude, s.phase, s.frequency, s.duty_cycle, s.thd];
    (a.wave, a.edition) == (b.wave, b.edition)
        && all_same32(&numbers(a), &numbers(b))
        && same_figures(&a.figures, &b.figures)
        && same_port(&a.port, &b.port)
}

/// What stands before and after the samples lent, and in them before the first call.
pub const BESIDE: f32 = -77.25;

/// Samples that are lent, between two places that must stay.
#[derive(Clone)]
pub struct Lent(Vec<f32>);

impl Lent {
    pub fn new(n: usize) -> Lent {
        Lent(vec![BESIDE; n + 2])
    }

    pub fn get(&self) -> &[f32] {
        &self.0[1..self.0.len() - 1]
    }

    pub fn get_mut(&mut self) -> &mut [f32] {
        let n = self.0.len() - 2;
        &mut self.0[1..n + 1]
    }

    pub fn ends_stayed(&self) -> bool {
        self.0[0] == BESIDE && self.0[self.0.len() - 1] == BESIDE
    }

    /// Bit by bit as the other, the places beside them too.
    pub fn is(&self, other: &Lent) -> bool {
        self.0
            .iter()
            .map(|x| x.to_bits())
            .eq(other.0.iter().map(|x| x.to_bits()))
    }
}

/// A call that makes a signal.
#[derive(Debug, Clone, Copy)]
pub enum Maker {
    /// A wave's number, an amplitude and a frequency.
    Wave(u8, f32, f32),
    /// A voltage, a current and a frequency's reading.
    Port(f32, f32, Reading),
}

impl Maker {
    pub fn ours(self, edition: u8, samples: &mut [f32]) -> SignalAnswer {
        let (at, n) = (samples.as_mut_ptr(), samples.len());
        unsafe {
            match self {
                Maker::Wave(wave, amplitude, frequency) => tj_signal_new(wave, amplitude, frequency, edition, at, n),
                Maker::Port(voltage, current, frequency) => {
                    tj_signal_new_power_port(voltage, current, frequency, edition, at, n)
                }
            }
        }
    }

    pub fn theirs(self, samples: &mut [f32]) -> Signal {
        match self {
            Maker::Wave(wave, amplitude, frequency) => Signal::new(wave_of(wave), amplitude, frequency, samples),
            Maker::Port(voltage, current, frequency) => {
                Signal::new_power_port(voltage, current, frequency.into(), samples)
            }
        }
    }
}

/// A call that has a state already.
#[derive(Debug, Clone, Copy)]
pub enum Call {
    Phase(f32),
    Duty(f32),
    Reset,
}

impl Call {
    pub fn ours(self, state: Settings, samples: &mut [f32]) -> SignalAnswer {
        let (at, n) = (samples.as_mut_ptr(), samples.len());
        unsafe {
            match self {
                Call::Phase(phase) => tj_signal_set_phase(state, phase, at, n),
                Call::Duty(duty) => tj_signal_set_duty_cycle(state, duty, at, n),
                Call::Reset => tj_signal_reset_waveform(state, at, n),
            }
        }
    }

    pub fn theirs(self, signal: &mut Signal) {
        match self {
            Call::Phase(phase) => signal.set_phase(phase),
            // 01, 'a NaN duty cycle is set to 0.0'; built for Arm, the Rust's `max` passes a signalling one on
            Call::Duty(duty) if duty.is_nan() => signal.set_duty_cycle(f32::NAN),
            Call::Duty(duty) => signal.set_duty_cycle(duty),
            Call::Reset => signal.reset_waveform(),
        }
    }

    /// Its number on n samples in a state of this edition: a reset works out no THD.
    pub fn number(self, edition: u8, n: usize) -> u8 {
        match self {
            Call::Reset => editions::by_length(n),
            _ => editions::number(edition, n),
        }
    }

    /// What the counts are after it, on these samples.
    pub fn counts(self, earlier: Counts, samples: &[f32]) -> Counts {
        match self {
            Call::Reset => Counts::default(),
            _ => earlier.after(samples),
        }
    }
}
