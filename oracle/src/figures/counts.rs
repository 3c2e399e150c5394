//! Request h of document 02, read apart from the library: the two counts that the Rust's record doesn't have, by the bits of the samples.

use super::LONGEST;
use crate::common::Random;
use tilljingle::TimeFigures;

/// How many samples are no number, and how many are infinite.
#[derive(Debug, Clone, Copy, PartialEq, Eq, Default)]
pub struct Counts {
    pub not_numbers: u32,
    pub infinite: u32,
}

/// What IEEE 754 says of a pattern whose exponent is all ones: an infinity where the fraction is 0, and else no number.
fn judged(bits: u32) -> (bool, bool) {
    let (exponent, fraction) = (bits >> 23 & 0xFF, bits & 0x7F_FFFF);
    (exponent == 0xFF && fraction != 0, exponent == 0xFF && fraction == 0)
}

impl Counts {
    /// Those of these samples.
    pub fn of(samples: &[f32]) -> Counts {
        let mut counts = Counts::default();
        for sample in samples {
            let (not_number, infinite) = judged(sample.to_bits());
            counts.not_numbers += not_number as u32;
            counts.infinite += infinite as u32;
        }
        counts
    }

    /// Those after a call on these samples: with none, and with more than are taken, the earlier ones come back.
    pub fn after(self, samples: &[f32]) -> Counts {
        if samples.is_empty() || samples.len() > LONGEST {
            return self;
        }
        Counts::of(samples)
    }

    /// Counts that a caller may hand in: any.
    pub fn any(random: &mut Random) -> Counts {
        let mut count = || match random.below(3) {
            0 => random.below(4) as u32,
            1 => random.pick(&[65_536, 65_537, 0x0100_0001, 0x8000_0000, u32::MAX]),
            _ => random.bits() as u32,
        };
        Counts {
            not_numbers: count(),
            infinite: count(),
        }
    }

    /// Those of a record.
    pub fn in_record(figures: &TimeFigures) -> Counts {
        Counts {
            not_numbers: figures.not_numbers,
            infinite: figures.infinite,
        }
    }
}
