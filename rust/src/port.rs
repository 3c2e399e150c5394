//! Port readings.

use crate::raw;

/// A reading as it crosses the boundary: a number, or absent.
#[derive(Clone, Copy, Debug, Default, PartialEq)]
#[repr(C)]
pub struct Reading {
    #[doc(hidden)]
    pub present: bool,
    #[doc(hidden)]
    pub value: f32,
}

impl From<Option<f32>> for Reading {
    fn from(value: Option<f32>) -> Reading {
        Reading {
            present: value.is_some(),
            value: value.unwrap_or(0.0),
        }
    }
}

impl From<Reading> for Option<f32> {
    fn from(reading: Reading) -> Option<f32> {
        reading.present.then_some(reading.value)
    }
}

/// The readings, limits and state of a power port. A plain field is read and set as a field.
#[allow(missing_docs)] // the names say it, as in the Rust
#[derive(Clone, Copy, Debug, Default, PartialEq)]
#[repr(C)]
pub struct Port {
    pub voltage: f32,
    pub current: f32,
    pub frequency: Reading,
    pub phase_angle: Reading,
    pub active_power: f32,
    pub reactive_power: Reading,
    pub apparent_power: Reading,
    pub power_factor: Reading,
    pub displacement_pf: Reading,
    pub energy_imported: f64,
    pub energy_exported: f64,
    pub voltage_thd: Reading,
    pub current_thd: Reading,
    pub voltage_crest_factor: Reading,
    pub current_crest_factor: Reading,
    pub voltage_harmonics: [Reading; 16],
    pub current_harmonics: [Reading; 16],
    pub efficiency: Reading,
    pub losses: Reading,
    pub voltage_min: f32,
    pub voltage_max: f32,
    pub current_max: f32,
    pub power_max: f32,
    pub is_enabled: bool,
    pub is_faulted: bool,
    pub temperature: Reading,
}

impl Port {
    /// Voltage times current.
    pub fn instantaneous_power(&self) -> f32 {
        unsafe { raw::tj_instantaneous_power(*self) }
    }

    /// Clears the readings as the Rust's `reset_power_params` does.
    pub fn reset_power_params(&mut self) {
        *self = unsafe { raw::tj_reset_power_params(*self) };
    }

    /// The voltage harmonic at place `n`; absent from 16 on.
    pub fn voltage_harmonic(&self, n: u8) -> Option<f32> {
        unsafe { raw::tj_harmonic(self.voltage_harmonics.as_ptr(), n) }.into()
    }

    /// The current harmonic at place `n`; absent from 16 on.
    pub fn current_harmonic(&self, n: u8) -> Option<f32> {
        unsafe { raw::tj_harmonic(self.current_harmonics.as_ptr(), n) }.into()
    }

    /// Sets the voltage harmonic at place `n`; from 16 on nothing changes.
    pub fn set_voltage_harmonic(&mut self, n: u8, value: Option<f32>) {
        unsafe { raw::tj_set_harmonic(self.voltage_harmonics.as_mut_ptr(), n, value.into()) };
    }

    /// Sets the current harmonic at place `n`; from 16 on nothing changes.
    pub fn set_current_harmonic(&mut self, n: u8, value: Option<f32>) {
        unsafe { raw::tj_set_harmonic(self.current_harmonics.as_mut_ptr(), n, value.into()) };
    }
}
