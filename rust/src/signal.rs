//! A signal that keeps the caller's samples beside its record.

use crate::{answered, raw, Port, Reading, Refusal, TimeFigures, Wave};

/// How far a signal's total harmonic distortion goes: named where the signal is made, and kept.
#[derive(Clone, Copy, Debug, PartialEq, Eq)]
#[repr(u8)]
pub enum Edition {
    /// Orders up to 16, as the Rust.
    First = 1,
    /// Orders up to 40.
    Second = 2,
}

/// A signal's record without its samples, as it crosses the boundary.
#[allow(missing_docs)] // the names say it, as in the Rust
#[derive(Clone, Copy, Debug, Default, PartialEq)]
#[repr(C)]
pub struct Settings {
    #[doc(hidden)]
    pub wave: u8,
    #[doc(hidden)]
    pub edition: u8,
    pub amplitude: f32,
    pub phase: f32,
    pub frequency: f32,
    pub duty_cycle: f32,
    pub port: Port,
    pub figures: TimeFigures,
    pub thd: f32,
}

impl Settings {
    /// The wave; a number that is none counts as DC, as it does in every call.
    pub fn wave(&self) -> Wave {
        match self.wave {
            1 => Wave::PWM,
            2 => Wave::Triangular,
            3 => Wave::Sawtooth,
            _ => Wave::DC,
        }
    }

    /// The edition; none where its number is neither 1 nor 2, as in a record of zeros.
    pub fn edition(&self) -> Option<Edition> {
        match self.edition {
            1 => Some(Edition::First),
            2 => Some(Edition::Second),
            _ => None,
        }
    }
}

/// The time figures with their counts, and the total harmonic distortion with its edition.
#[derive(Clone, Copy, Debug, PartialEq)]
pub struct Metrics {
    /// The time figures and the counts.
    pub figures: TimeFigures,
    /// Total harmonic distortion in percent.
    pub thd: f32,
    /// The number of its edition: 1, orders up to 16, or 2, up to 40.
    pub edition: u8,
}

/// A generated wave in the caller's samples, with its figures and port readings.
///
/// The samples' count is 0, 1 or a power of two to 4,096, else [`Refusal::OffGrid`] ([`Refusal::TooLong`] past 65,536). An [`Edition`] is known, so that
/// [`Refusal::UnknownEdition`] is not answered here.
///
/// ```
/// use tilljingle::{Edition, Signal, Wave};
/// let mut samples = [0.0; 1024];
/// let mut signal = Signal::new(Wave::PWM, 5.0, 1000.0, Edition::First, &mut samples).unwrap();
/// signal.set_duty_cycle(0.25).unwrap();
/// assert!((signal.get_metrics().figures.duty_cycle_pos - 0.25).abs() < 0.01);
/// ```
///
/// The edition says how many orders the distortion has; it stays through every call, and the metrics carry its number.
///
/// ```
/// use tilljingle::{Edition, Signal, Wave};
/// let mut samples = [0.0; 64];
/// // one sample of 32: every bin is 1, and of bin 1 the orders 2 to 31 lie below half
/// let mut pulse = |edition| {
///     let mut signal = Signal::new(Wave::PWM, 32.0, 1.0, edition, &mut samples).unwrap();
///     signal.set_duty_cycle(0.01).unwrap();
///     signal.get_metrics()
/// };
/// let (old, new) = (pulse(Edition::First), pulse(Edition::Second));
/// assert_eq!((old.edition, old.thd), (1, 15f32.sqrt() * 100.0));
/// assert_eq!((new.edition, new.thd), (2, 30f32.sqrt() * 100.0));
/// ```
pub struct Signal<'a> {
    settings: Settings,
    samples: &'a mut [f32],
}

impl<'a> Signal<'a> {
    /// Fills the samples with the wave and works out its figures. The duty cycle starts at a half.
    pub fn new(
        wave: Wave,
        amplitude: f32,
        frequency: f32,
        edition: Edition,
        samples: &'a mut [f32],
    ) -> Result<Signal<'a>, Refusal> {
        let (place, n) = (samples.as_mut_ptr(), samples.len());
        let answer = unsafe { raw::tj_signal_new(wave as u8, amplitude, frequency, edition as u8, place, n) };
        answered(answer.code, ())?;
        Ok(Signal {
            settings: answer.signal,
            samples,
        })
    }

    /// A constant voltage with the port's readings; its frequency is a reading alone.
    pub fn new_power_port(
        voltage: f32,
        current: f32,
        frequency: Option<f32>,
        edition: Edition,
        samples: &'a mut [f32],
    ) -> Result<Signal<'a>, Refusal> {
        let (place, n) = (samples.as_mut_ptr(), samples.len());
        let frequency = Reading::from(frequency);
        let answer = unsafe { raw::tj_signal_new_power_port(voltage, current, frequency, edition as u8, place, n) };
        answered(answer.code, ())?;
        Ok(Signal {
            settings: answer.signal,
            samples,
        })
    }

    fn settle(&mut self, answer: raw::SignalAnswer) -> Result<(), Refusal> {
        self.settings = answer.signal; // a refusal hands the record back as it was
        answered(answer.code, ())
    }

    /// Sets the phase in degrees and generates anew.
    pub fn set_phase(&mut self, phase: f32) -> Result<(), Refusal> {
        let answer =
            unsafe { raw::tj_signal_set_phase(self.settings, phase, self.samples.as_mut_ptr(), self.samples.len()) };
        self.settle(answer)
    }

    /// Sets the duty cycle, held to 0 to 1 (a NaN becomes 0), and generates anew.
    pub fn set_duty_cycle(&mut self, duty_cycle: f32) -> Result<(), Refusal> {
        let (place, n) = (self.samples.as_mut_ptr(), self.samples.len());
        let answer = unsafe { raw::tj_signal_set_duty_cycle(self.settings, duty_cycle, place, n) };
        self.settle(answer)
    }

    /// Sets every sample to 0 and clears what was worked out of them, as the Rust's `reset_waveform` does, and the counts. The edition stays.
    pub fn reset_waveform(&mut self) -> Result<(), Refusal> {
        let answer =
            unsafe { raw::tj_signal_reset_waveform(self.settings, self.samples.as_mut_ptr(), self.samples.len()) };
        self.settle(answer)
    }

    /// The samples.
    pub fn get_samples(&self) -> &[f32] {
        self.samples
    }

    /// The time figures with their counts, and the distortion with its edition.
    pub fn get_metrics(&self) -> Metrics {
        Metrics {
            figures: self.settings.figures,
            thd: self.settings.thd,
            edition: self.settings.edition,
        }
    }

    /// The record without the samples: wave, edition, amplitude, phase in degrees, frequency, duty cycle, port, figures and distortion.
    pub fn settings(&self) -> &Settings {
        &self.settings
    }

    /// The port's readings.
    pub fn port(&self) -> &Port {
        &self.settings.port
    }

    /// The port's readings, to be set.
    pub fn port_mut(&mut self) -> &mut Port {
        &mut self.settings.port
    }
}
