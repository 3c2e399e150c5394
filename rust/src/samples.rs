//! Calls that fill or change samples. A slice gives a pointer that may be read, or written, for its length, and two slices never overlap
//! where one of them is written: what the header asks for.

use crate::{answered, raw, Refusal};

/// The waves that are generated.
#[derive(Clone, Copy, Debug, PartialEq, Eq)]
#[repr(u8)]
pub enum Wave {
    /// Constant.
    DC = 0,
    /// Pulses of a duty cycle.
    PWM = 1,
    /// Up and down in straight lines.
    Triangular = 2,
    /// Up in a straight line, and back at once.
    Sawtooth = 3,
}

/// Adds `offset` to every sample, in `f32`; [`Refusal::TooLong`] past 65,536 samples.
///
/// ```
/// let mut samples = [1.0, -2.0];
/// assert_eq!(tilljingle::add_dc_offset(&mut samples, 0.5), Ok(()));
/// assert_eq!(samples, [1.5, -1.5]);
/// ```
pub fn add_dc_offset(samples: &mut [f32], offset: f32) -> Result<(), Refusal> {
    answered(
        unsafe { raw::tj_add_dc_offset(samples.as_mut_ptr(), samples.len(), offset) },
        (),
    )
}

/// Multiplies every sample by `factor`, in `f32`; [`Refusal::TooLong`] past 65,536 samples.
pub fn scale(samples: &mut [f32], factor: f32) -> Result<(), Refusal> {
    answered(
        unsafe { raw::tj_scale(samples.as_mut_ptr(), samples.len(), factor) },
        (),
    )
}

/// Writes the sums of `a` and `b` to `output` as far as the shortest of the three reaches; the rest of `output` stays.
/// [`Refusal::TooLong`] where `a` or `b` has more than 65,536 samples.
pub fn add_signals(a: &[f32], b: &[f32], output: &mut [f32]) -> Result<(), Refusal> {
    let code = unsafe {
        raw::tj_add_signals(
            a.as_ptr(),
            a.len(),
            b.as_ptr(),
            b.len(),
            output.as_mut_ptr(),
            output.len(),
        )
    };
    answered(code, ())
}

/// Writes the magnitudes of the first half of the bins to `output`, places past them stay; sine and cosine come from document 01's table.
/// [`Refusal::OffGrid`] where the samples' count is none of 0, 1 and the powers of two to 4,096, [`Refusal::OutputShort`] where `output` has less than half as many places.
///
/// ```
/// let mut output = [7.0; 3];
/// assert_eq!(tilljingle::dft_magnitude_spectrum(&[1.0, 0.0, -1.0, 0.0], &mut output), Ok(()));
/// assert_eq!(output, [0.0, 1.0, 7.0]);
/// ```
pub fn dft_magnitude_spectrum(samples: &[f32], output: &mut [f32]) -> Result<(), Refusal> {
    let code =
        unsafe { raw::tj_dft_magnitude_spectrum(samples.as_ptr(), samples.len(), output.as_mut_ptr(), output.len()) };
    answered(code, ())
}

/// The same magnitudes, several bins at a time: `scratch` has a place for each sample and holds the sines afterwards.
/// [`Refusal::OutputShort`] also where `scratch` is shorter than `samples`.
pub fn dft_magnitude_spectrum_in(samples: &[f32], scratch: &mut [f64], output: &mut [f32]) -> Result<(), Refusal> {
    let (n, room) = (scratch.len(), output.len());
    let code = unsafe {
        raw::tj_dft_magnitude_spectrum_in(
            samples.as_ptr(),
            samples.len(),
            scratch.as_mut_ptr(),
            n,
            output.as_mut_ptr(),
            room,
        )
    };
    answered(code, ())
}

/// Fills every sample with the wave, operation by operation as the Rust's `generate_samples`; the phase in degrees.
/// [`Refusal::TooLong`] past 65,536 samples.
pub fn generate_samples(
    wave: Wave,
    amplitude: f32,
    phase: f32,
    frequency: f32,
    duty_cycle: f32,
    samples: &mut [f32],
) -> Result<(), Refusal> {
    let (place, n) = (samples.as_mut_ptr(), samples.len());
    answered(
        unsafe { raw::tj_generate_samples(wave as u8, amplitude, phase, frequency, duty_cycle, place, n) },
        (),
    )
}
