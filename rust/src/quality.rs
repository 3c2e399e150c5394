//! Distortion and the quotients behind the signal-to-noise figures.

use crate::{answered, raw, Refusal};

/// What SNR and SINAD hand to the logarithm.
#[derive(Clone, Copy, Debug, PartialEq)]
pub enum Quotient {
    /// The quotient of powers.
    Ratio(f64),
    /// The fundamental bin is 0 or past the end.
    UnusableBin,
}

/// What SFDR hands to the logarithm.
#[derive(Clone, Copy, Debug, PartialEq)]
pub enum Sfdr {
    /// The fundamental over the largest spur.
    Ratio(f32),
    /// The largest spur is at most 1e-12, or there is no other bin; a NaN is no spur.
    NoSpur,
    /// The fundamental bin is 0 or past the end.
    UnusableBin,
}

/// Total harmonic distortion in percent, over every multiple of the fundamental bin inside the spectrum; 0 for a bin of 0 or past the end.
/// [`Refusal::TooLong`] past 65,536 magnitudes.
pub fn compute_thd_from_spectrum(spectrum: &[f32], fundamental_bin: usize) -> Result<f32, Refusal> {
    let answer = unsafe { raw::tj_compute_thd_from_spectrum(spectrum.as_ptr(), spectrum.len(), fundamental_bin) };
    answered(answer.code, answer.value)
}

fn quotient(answer: raw::Quotient) -> Result<Quotient, Refusal> {
    let value = if answer.kind == 2 {
        Quotient::UnusableBin
    } else {
        Quotient::Ratio(answer.ratio)
    };
    answered(answer.code, value)
}

/// Power of the fundamental over that of the noise, harmonics left out.
pub fn snr_quotient(spectrum: &[f32], fundamental_bin: usize) -> Result<Quotient, Refusal> {
    quotient(unsafe { raw::tj_snr_quotient(spectrum.as_ptr(), spectrum.len(), fundamental_bin) })
}

/// Power of the fundamental over that of everything else.
pub fn sinad_quotient(spectrum: &[f32], fundamental_bin: usize) -> Result<Quotient, Refusal> {
    quotient(unsafe { raw::tj_sinad_quotient(spectrum.as_ptr(), spectrum.len(), fundamental_bin) })
}

/// The fundamental over the largest other bin.
///
/// ```
/// use tilljingle::{sfdr_quotient, Sfdr};
/// assert_eq!(sfdr_quotient(&[0.0, 8.0, 2.0], 1), Ok(Sfdr::Ratio(4.0)));
/// assert_eq!(sfdr_quotient(&[0.0, 8.0, 0.0], 1), Ok(Sfdr::NoSpur));
/// assert_eq!(sfdr_quotient(&[0.0, 8.0, 2.0], 0), Ok(Sfdr::UnusableBin));
/// ```
pub fn sfdr_quotient(spectrum: &[f32], fundamental_bin: usize) -> Result<Sfdr, Refusal> {
    let answer = unsafe { raw::tj_sfdr_quotient(spectrum.as_ptr(), spectrum.len(), fundamental_bin) };
    let value = match answer.kind {
        0 => Sfdr::Ratio(answer.ratio as f32), // an f32, held exactly
        1 => Sfdr::NoSpur,
        _ => Sfdr::UnusableBin,
    };
    answered(answer.code, value)
}

/// Effective number of bits of a SINAD in decibels.
pub fn compute_enob(sinad_db: f32) -> f32 {
    unsafe { raw::tj_compute_enob(sinad_db) }
}
