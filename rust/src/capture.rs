//! Capture lines, read and written by document 01's grammar, and the report.

use crate::{answered, raw, Refusal};

/// Why a capture was refused, and where.
#[derive(Clone, Copy, Debug, PartialEq, Eq)]
pub struct BadCapture {
    /// The reason.
    pub refusal: Refusal,
    /// The line from 1, for a wrong form, sum or sequence number; else 0.
    pub line: usize,
}

/// Reads a capture's pairs into the two outputs and answers their count; places past them stay. All lines are examined before anything is written.
///
/// ```
/// use tilljingle::{read_capture, BadCapture, Refusal};
/// let (mut volts, mut amps) = ([0; 4], [0; 4]);
/// assert_eq!(read_capture(b"0000010001FFFF00\n", &mut volts, &mut amps), Ok(1));
/// assert_eq!((volts[0], amps[0]), (1, -1));
/// let wrong = read_capture(b"0000010001FFFF01\n", &mut volts, &mut amps);
/// assert_eq!(wrong, Err(BadCapture { refusal: Refusal::WrongSum, line: 1 }));
/// ```
pub fn read_capture(text: &[u8], volts: &mut [i16], amps: &mut [i16]) -> Result<usize, BadCapture> {
    let (nv, na) = (volts.len(), amps.len());
    let answer =
        unsafe { raw::tj_read_capture(text.as_ptr(), text.len(), volts.as_mut_ptr(), nv, amps.as_mut_ptr(), na) };
    answered(answer.code, answer.pairs).map_err(|refusal| BadCapture {
        refusal,
        line: answer.line,
    })
}

/// Writes the pairs as capture lines from the sequence number `first` and answers the bytes written; reading them gives the same codes.
/// [`Refusal::TooLong`], [`Refusal::LengthsDiffer`], [`Refusal::OutputShort`].
pub fn write_capture(volts: &[i16], amps: &[i16], first: u16, text: &mut [u8]) -> Result<usize, Refusal> {
    let (place, room) = (text.as_mut_ptr(), text.len());
    let answer = unsafe {
        raw::tj_write_capture(
            volts.as_ptr(),
            volts.len(),
            amps.as_ptr(),
            amps.len(),
            first,
            place,
            room,
        )
    };
    answered(answer.code, answer.bytes)
}

/// Writes what the report program prints for this input and answers the bytes written. [`Refusal::OutputShort`] where `text` has no room for it.
pub fn report_text(input: &[u8], text: &mut [u8]) -> Result<usize, Refusal> {
    let (place, room) = (text.as_mut_ptr(), text.len());
    let answer = unsafe { raw::tj_report_text(input.as_ptr(), input.len(), place, room) };
    answered(answer.code, answer.bytes)
}
