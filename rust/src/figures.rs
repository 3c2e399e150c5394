//! Power, frequency, slew rate and the time figures: calls that read samples and answer numbers.

use crate::{answered, raw, Refusal, Wave};

/// Active, nonactive and apparent power, and the power factor.
#[derive(Clone, Copy, Debug, Default, PartialEq)]
#[repr(C)]
pub struct Power {
    /// Active power: the mean of voltage times current.
    pub p: f32,
    /// Nonactive power, by IEEE 1459: the root of s² - p². It is not the reactive power of a phase shift: a distorted current has it with no phase shift.
    pub nonactive: f32,
    /// Apparent power: the product of the root mean squares.
    pub s: f32,
    /// The power factor, p / s; 0 where s is not above 1e-12.
    pub pf: f32,
}

/// Active and reactive power of the fundamental.
#[derive(Clone, Copy, Debug, Default, PartialEq)]
pub struct Fundamental {
    /// Active power of the fundamental.
    pub active: f32,
    /// Reactive power of the fundamental: positive where the current lags.
    pub reactive: f32,
}

/// The 19 time figures, in the order of the Rust's `SignalMetrics`, and two counts of samples that are no finite numbers.
///
/// No sample rate is given: for frequency, period and slew rate the samples are one second; for rise and fall time they are one period of the
/// frequency handed in where that is above 0, and else one second.
#[derive(Clone, Copy, Debug, Default, PartialEq)]
#[repr(C)]
pub struct TimeFigures {
    /// Largest less smallest sample.
    pub peak_to_peak: f32,
    /// Largest sample; a NaN never is.
    pub max: f32,
    /// Smallest sample; a NaN never is.
    pub min: f32,
    /// Largest excursion above the average.
    pub positive_peak: f32,
    /// Largest excursion below the average, as a size.
    pub negative_peak: f32,
    /// The average.
    pub average: f32,
    /// The root mean square.
    pub dc_rms: f32,
    /// The root mean square of the distances from the average.
    pub ac_rms: f32,
    /// Share of the samples that are high.
    pub duty_cycle_pos: f32,
    /// The other samples' share.
    pub duty_cycle_neg: f32,
    /// Time of the last rise, from a tenth to nine tenths of the swing, in seconds.
    pub rise_time: f32,
    /// Time of the last fall, in seconds.
    pub fall_time: f32,
    /// Peak over root mean square.
    pub crest_factor: f32,
    /// Frequency by rising crossings of the average.
    pub frequency: f32,
    /// One over the frequency.
    pub period: f32,
    /// Root mean square over the mean size.
    pub form_factor: f32,
    /// How far `max` lies above the amplitude, in percent of `peak_to_peak`.
    pub overshoot: f32,
    /// How far `min` lies below the negative amplitude, in percent of `peak_to_peak`.
    pub undershoot: f32,
    /// Largest step between neighbours, over the time between them.
    pub slew_rate: f32,
    /// How many samples are NaN, whatever their bits. Where this and `infinite` are 0, every sample that was measured is finite.
    pub not_numbers: u32,
    /// How many samples are an infinity of either sign.
    pub infinite: u32,
}

/// The frequency by rising crossings of the mean; 0 under two crossings. [`Refusal::TooLong`] past 65,536 samples.
///
/// ```
/// assert_eq!(tilljingle::measure_frequency(&[-1.0, 1.0, -1.0, 1.0, -1.0, 1.0], 6.0), Ok(3.0));
/// ```
pub fn measure_frequency(samples: &[f32], sample_rate: f32) -> Result<f32, Refusal> {
    let answer = unsafe { raw::tj_measure_frequency(samples.as_ptr(), samples.len(), sample_rate) };
    answered(answer.code, answer.value)
}

/// The largest step between neighbours, over the rounded time between them; 0 for a rate that is not above 0. [`Refusal::TooLong`] past 65,536 samples.
///
/// ```
/// assert_eq!(tilljingle::slew_rate(&[0.0, 3.0, 1.0], 2.0), Ok(6.0));
/// ```
pub fn slew_rate(samples: &[f32], sample_rate: f32) -> Result<f32, Refusal> {
    let answer = unsafe { raw::tj_slew_rate(samples.as_ptr(), samples.len(), sample_rate) };
    answered(answer.code, answer.value)
}

/// Power of a voltage and a current capture. For captures of 16-bit codes the figures are proved to be within the bounds of the exact ones that docs/PROMISES.md gives;
/// a NaN sample gives NaN for p and s and 0 for nonactive and pf. [`Refusal::TooLong`], then [`Refusal::LengthsDiffer`].
///
/// ```
/// use tilljingle::{compute_power, Power, Refusal};
/// assert_eq!(compute_power(&[3.0], &[-3.0], 1.0), Ok(Power { p: -9.0, nonactive: 0.0, s: 9.0, pf: -1.0 }));
/// assert_eq!(compute_power(&[1.0, 2.0], &[1.0], 1.0), Err(Refusal::LengthsDiffer));
/// ```
pub fn compute_power(voltage: &[f32], current: &[f32], sample_rate: f32) -> Result<Power, Refusal> {
    let answer = unsafe {
        raw::tj_compute_power(
            voltage.as_ptr(),
            voltage.len(),
            current.as_ptr(),
            current.len(),
            sample_rate,
        )
    };
    answered(answer.code, answer.power)
}

/// What [`compute_power`] answers for the codes as `f32`, without a buffer for them; the contract has those bounds in it.
///
/// ```
/// use tilljingle::{power_of_codes, Power};
/// assert_eq!(power_of_codes(&[3], &[-3]), Ok(Power { p: -9.0, nonactive: 0.0, s: 9.0, pf: -1.0 }));
/// ```
pub fn power_of_codes(volts: &[i16], amps: &[i16]) -> Result<Power, Refusal> {
    let answer = unsafe { raw::tj_power_of_codes(volts.as_ptr(), volts.len(), amps.as_ptr(), amps.len()) };
    answered(answer.code, answer.power)
}

/// Active and reactive power of the fundamental, at the bin that it has in a spectrum of the captures; sine and cosine come from document 01's table.
/// [`Refusal::TooLong`], then [`Refusal::LengthsDiffer`], then [`Refusal::OffGrid`] where the captures' length is none of 0, 1 and the powers of two
/// to 4,096, then [`Refusal::BinOutside`] where the bin is 0 or not below half of it.
///
/// ```
/// use tilljingle::{fundamental_power, Fundamental, Refusal};
/// let (voltage, lagging) = ([1.0, 0.0, -1.0, 0.0], [0.0, 1.0, 0.0, -1.0]);
/// assert_eq!(fundamental_power(&voltage, &lagging, 1), Ok(Fundamental { active: 0.0, reactive: 0.5 }));
/// assert_eq!(fundamental_power(&voltage, &lagging, 2), Err(Refusal::BinOutside));
/// ```
pub fn fundamental_power(voltage: &[f32], current: &[f32], bin: usize) -> Result<Fundamental, Refusal> {
    let (nv, ni) = (voltage.len(), current.len());
    let answer = unsafe { raw::tj_fundamental_power(voltage.as_ptr(), nv, current.as_ptr(), ni, bin) };
    let (active, reactive) = (answer.active, answer.reactive);
    answered(answer.code, Fundamental { active, reactive })
}

/// The time figures of samples; no samples give the earlier record back, its counts too. [`Refusal::TooLong`] past 65,536 samples.
///
/// ```
/// use tilljingle::{calculate_time_figures, TimeFigures, Wave};
/// let samples = [3.0, f32::NAN, -1.0, f32::NEG_INFINITY, f32::NAN];
/// let figures = calculate_time_figures(Wave::DC, 1.0, 0.0, TimeFigures::default(), &samples).unwrap();
/// assert_eq!((figures.not_numbers, figures.infinite), (2, 1));
/// assert_eq!(figures.max, 3.0);
/// assert_eq!(calculate_time_figures(Wave::DC, 1.0, 0.0, figures, &[]).unwrap().not_numbers, 2);
/// ```
pub fn calculate_time_figures(
    wave: Wave,
    amplitude: f32,
    frequency: f32,
    earlier: TimeFigures,
    samples: &[f32],
) -> Result<TimeFigures, Refusal> {
    let (place, n) = (samples.as_ptr(), samples.len());
    let answer = unsafe { raw::tj_calculate_time_figures(wave as u8, amplitude, frequency, earlier, place, n) };
    answered(answer.code, answer.figures)
}
