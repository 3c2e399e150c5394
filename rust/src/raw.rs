//! include/tilljingle.h, declaration by declaration; the records that the safe calls hand on stand with those. The comparisons in oracle/ make these calls too.

use crate::{Port, Power, Reading, Settings, TimeFigures};

#[derive(Clone, Copy, Debug)]
#[repr(C)]
pub struct Figure {
    pub code: u8,
    pub value: f32,
}

#[derive(Clone, Copy, Debug)]
#[repr(C)]
pub struct PowerAnswer {
    pub code: u8,
    pub power: Power,
}

#[derive(Clone, Copy, Debug)]
#[repr(C)]
pub struct Fundamental {
    pub code: u8,
    pub active: f32,
    pub reactive: f32,
}

#[derive(Clone, Copy, Debug)]
#[repr(C)]
pub struct TimeAnswer {
    pub code: u8,
    pub figures: TimeFigures,
}

#[derive(Clone, Copy, Debug)]
#[repr(C)]
pub struct Quotient {
    pub code: u8,
    pub kind: u8,
    pub ratio: f64,
}

#[derive(Clone, Copy, Debug)]
#[repr(C)]
pub struct SignalAnswer {
    pub code: u8,
    pub signal: Settings,
}

#[derive(Clone, Copy, Debug, PartialEq, Eq, Hash)]
#[repr(C)]
pub struct Read {
    pub code: u8,
    pub line: usize,
    pub pairs: usize,
}

#[derive(Clone, Copy, Debug, PartialEq)]
#[repr(C)]
pub struct Written {
    pub code: u8,
    pub bytes: usize,
}

extern "C" {
    pub fn tj_narrow(x: f64) -> f32;
    pub fn tj_sqrt32(x: f32) -> f32;
    pub fn tj_sqrt64(x: f64) -> f64;
    pub fn tj_sqrt64_narrowed(x: f64) -> f32;
    pub fn tj_abs32(x: f32) -> f32;
    pub fn tj_round32(x: f32) -> f32;

    pub fn tj_add_dc_offset(samples: *mut f32, n: usize, offset: f32) -> u8;
    pub fn tj_scale(samples: *mut f32, n: usize, factor: f32) -> u8;
    pub fn tj_add_signals(a: *const f32, na: usize, b: *const f32, nb: usize, output: *mut f32, n_output: usize) -> u8;

    pub fn tj_measure_frequency(samples: *const f32, n: usize, sample_rate: f32) -> Figure;
    pub fn tj_slew_rate(samples: *const f32, n: usize, sample_rate: f32) -> Figure;

    pub fn tj_compute_power(
        voltage: *const f32,
        nv: usize,
        current: *const f32,
        ni: usize,
        sample_rate: f32,
    ) -> PowerAnswer;
    pub fn tj_power_of_codes(volts: *const i16, nv: usize, amps: *const i16, na: usize) -> PowerAnswer;
    pub fn tj_fundamental_power(
        voltage: *const f32,
        nv: usize,
        current: *const f32,
        ni: usize,
        bin: usize,
    ) -> Fundamental;

    pub fn tj_calculate_time_figures(
        wave: u8,
        amplitude: f32,
        frequency: f32,
        earlier: TimeFigures,
        samples: *const f32,
        n: usize,
    ) -> TimeAnswer;

    pub fn tj_dft_magnitude_spectrum(samples: *const f32, n: usize, output: *mut f32, n_output: usize) -> u8;
    pub fn tj_dft_magnitude_spectrum_in(
        samples: *const f32,
        n: usize,
        scratch: *mut f64,
        n_scratch: usize,
        output: *mut f32,
        n_output: usize,
    ) -> u8;

    pub fn tj_compute_thd_from_spectrum(spectrum: *const f32, n: usize, fundamental_bin: usize) -> Figure;
    pub fn tj_snr_quotient(spectrum: *const f32, n: usize, fundamental_bin: usize) -> Quotient;
    pub fn tj_sinad_quotient(spectrum: *const f32, n: usize, fundamental_bin: usize) -> Quotient;
    pub fn tj_sfdr_quotient(spectrum: *const f32, n: usize, fundamental_bin: usize) -> Quotient;
    pub fn tj_compute_enob(sinad_db: f32) -> f32;

    pub fn tj_generate_samples(
        wave: u8,
        amplitude: f32,
        phase: f32,
        frequency: f32,
        duty_cycle: f32,
        samples: *mut f32,
        n: usize,
    ) -> u8;

    pub fn tj_instantaneous_power(port: Port) -> f32;
    pub fn tj_reset_power_params(port: Port) -> Port;
    pub fn tj_voltage_harmonic(port: Port, n: u8) -> Reading;
    pub fn tj_current_harmonic(port: Port, n: u8) -> Reading;
    pub fn tj_set_voltage_harmonic(port: Port, n: u8, value: Reading) -> Port;
    pub fn tj_set_current_harmonic(port: Port, n: u8, value: Reading) -> Port;
    pub fn tj_harmonic(harmonics: *const Reading, n: u8) -> Reading;
    pub fn tj_set_harmonic(harmonics: *mut Reading, n: u8, value: Reading);

    pub fn tj_signal_new(
        wave: u8,
        amplitude: f32,
        frequency: f32,
        edition: u8,
        samples: *mut f32,
        n: usize,
    ) -> SignalAnswer;
    pub fn tj_signal_new_power_port(
        voltage: f32,
        current: f32,
        frequency: Reading,
        edition: u8,
        samples: *mut f32,
        n: usize,
    ) -> SignalAnswer;
    pub fn tj_signal_set_phase(signal: Settings, phase: f32, samples: *mut f32, n: usize) -> SignalAnswer;
    pub fn tj_signal_set_duty_cycle(signal: Settings, duty_cycle: f32, samples: *mut f32, n: usize) -> SignalAnswer;
    pub fn tj_signal_reset_waveform(signal: Settings, samples: *mut f32, n: usize) -> SignalAnswer;

    pub fn tj_read_capture(text: *const u8, n: usize, volts: *mut i16, nv: usize, amps: *mut i16, na: usize) -> Read;
    pub fn tj_write_capture(
        volts: *const i16,
        nv: usize,
        amps: *const i16,
        na: usize,
        first: u16,
        text: *mut u8,
        n: usize,
    ) -> Written;
    pub fn tj_report_text(input: *const u8, n: usize, text: *mut u8, room: usize) -> Written;
}
