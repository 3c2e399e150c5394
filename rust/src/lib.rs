//! Safe calls of libtilljingle.a, the proved measuring code of a power-port probe: slices in, structs out, no heap, no standard library.
//!
//! Every call ends with an answer by name on every input. A refusal is a [`Refusal`], and then nothing that was lent is written. The figures
//! are those of libpower's signal.rs; docs/PROMISES.md says of each call what is proved, docs/DIFFERENCES.md where the two differ.
#![no_std]
#![warn(missing_docs)]

mod capture;
mod figures;
mod number;
mod port;
mod quality;
#[doc(hidden)]
pub mod raw;
mod samples;
mod signal;

pub use capture::{read_capture, report_text, write_capture, BadCapture};
pub use figures::{
    calculate_time_figures, compute_power, fundamental_power, measure_frequency, power_of_codes, slew_rate,
    Fundamental, Power, TimeFigures,
};
pub use number::{abs32, narrow, round32, sqrt32, sqrt64, sqrt64_narrowed};
pub use port::{Port, Reading};
pub use quality::{
    compute_enob, compute_thd_from_spectrum, sfdr_quotient, sinad_quotient, snr_quotient, Quotient, Sfdr,
};
pub use samples::{
    add_dc_offset, add_signals, dft_magnitude_spectrum, dft_magnitude_spectrum_in, generate_samples, scale, Wave,
};
pub use signal::{Edition, Metrics, Settings, Signal};

/// Why a call was refused: the numbers of document 01's table and of the requests of document 02, but for 0.
#[derive(Clone, Copy, Debug, PartialEq, Eq)]
#[repr(u8)]
pub enum Refusal {
    /// A voltage and a current slice that are read together differ in length.
    LengthsDiffer = 1,
    /// A lent output is shorter than what must be written.
    OutputShort = 2,
    /// A slice of samples, codes or magnitudes has more than 65,536 places, or a capture more than 65,536 pairs.
    TooLong = 3,
    /// The sample length is none of 0, 1 and the powers of two from 2 to 4,096.
    OffGrid = 4,
    /// A capture line has the wrong form.
    WrongForm = 5,
    /// Its sum is wrong.
    WrongSum = 6,
    /// Its sequence number doesn't follow.
    WrongSequence = 7,
    /// A bin is outside the spectrum's half.
    BinOutside = 8,
    /// An edition is neither 1 nor 2.
    UnknownEdition = 9,
    /// There is no such register or bench.
    NoSuchRegister = 10,
    /// A register is negative or would pass its limit.
    RegisterFull = 11,
    /// The bytes are no file of the kind that is read.
    NotSuchFile = 12,
    /// The slices have other lengths than at the first call.
    OtherLengths = 13,
    /// A number of no table. The library answers none.
    Unknown = 255,
}

/// The answer where the code is 0, else the refusal of that number.
fn answered<T>(code: u8, answer: T) -> Result<T, Refusal> {
    Err(match code {
        0 => return Ok(answer),
        1 => Refusal::LengthsDiffer,
        2 => Refusal::OutputShort,
        3 => Refusal::TooLong,
        4 => Refusal::OffGrid,
        5 => Refusal::WrongForm,
        6 => Refusal::WrongSum,
        7 => Refusal::WrongSequence,
        8 => Refusal::BinOutside,
        9 => Refusal::UnknownEdition,
        10 => Refusal::NoSuchRegister,
        11 => Refusal::RegisterFull,
        12 => Refusal::NotSuchFile,
        13 => Refusal::OtherLengths,
        _ => Refusal::Unknown,
    })
}

#[cfg(test)]
mod tests {
    use super::{answered, Refusal};

    #[test]
    fn every_number_has_its_name() {
        assert_eq!(answered(0, 7), Ok(7));
        let table = [
            Refusal::LengthsDiffer,
            Refusal::OutputShort,
            Refusal::TooLong,
            Refusal::OffGrid,
            Refusal::WrongForm,
            Refusal::WrongSum,
            Refusal::WrongSequence,
            Refusal::BinOutside,
            Refusal::UnknownEdition,
            Refusal::NoSuchRegister,
            Refusal::RegisterFull,
            Refusal::NotSuchFile,
            Refusal::OtherLengths,
        ];
        for (code, name) in (1..=13).zip(table) {
            assert_eq!(answered(code, ()), Err(name));
            assert_eq!(name as u8, code);
        }
        for code in 14..=255 {
            assert_eq!(answered(code, ()), Err(Refusal::Unknown));
        }
    }
}
