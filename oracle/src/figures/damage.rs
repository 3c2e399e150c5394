//! Captures with samples that are no number or infinite: every short one, one such sample at every place, lengths about the limits, random damage.

use super::{any_figures, compare_short, of_bits, random_record, Record, LONGEST};
use crate::common::{Log, Random};

/// The infinities, and NaN, quiet and signalling, of either sign, with the least and the most of a fraction.
const DAMAGE: [u32; 8] = [
    0x7F80_0000,
    0xFF80_0000,
    0x7FC0_0000,
    0xFFC0_0000,
    0x7F80_0001,
    0xFF80_0001,
    0x7FFF_FFFF,
    0xFFFF_FFFF,
];

/// -1, and 0.
const NUMBERS: [u32; 2] = [0xBF80_0000, 0];

/// Numbers to stand beside damage: the largest, which have the next bits, 1, and a subnormal with all of a fraction.
const SOUND: [u32; 4] = [0x7F7F_FFFF, 0xFF7F_FFFF, 0x3F80_0000, 0x807F_FFFF];

/// The longest capture with one sample of damage: a few blocks of any loop.
const PLACES: usize = 150;

/// The lengths at which something may change, the limit's last.
fn lengths() -> Vec<usize> {
    let about = |n: usize| [n - 1, n, n + 1];
    let powers = (3..=12).map(|k| 1 << k).flat_map(about);
    powers
        .chain([LONGEST - 2])
        .chain(about(LONGEST))
        .chain([LONGEST + 2])
        .collect()
}

/// A record of these samples; on none of its lengths has the frequency a bin, so that the Rust works out no spectrum.
fn record(random: &mut Random, words: &[u32]) -> Record {
    Record {
        wave: random.below(4) as u8,
        amplitude: 1.0,
        frequency: 0.0,
        earlier: any_figures(random),
        samples: of_bits(words),
    }
}

fn compare_places(log: &mut Log, random: &mut Random) {
    let check = log.check("tj_calculate_time_figures: one NaN or infinity at each place of up to 150");
    for n in 1..=PLACES {
        for k in 0..n {
            let mut words: Vec<u32> = (0..n).map(|_| random.pick(&SOUND)).collect();
            words[k] = random.pick(&DAMAGE);
            record(random, &words).see(log, check);
        }
    }
}

/// Of each length: every sample the same damage; none; every second one; the first alone, and the last.
fn compare_lengths(log: &mut Log, random: &mut Random) {
    let check =
        log.check("tj_calculate_time_figures: damage throughout and in part, lengths about powers of two and 65,536");
    for n in lengths() {
        for (bits, sound) in DAMAGE.into_iter().zip(SOUND.into_iter().cycle()) {
            let only =
                |is: &dyn Fn(usize) -> bool| -> Vec<u32> { (0..n).map(|k| if is(k) { bits } else { sound }).collect() };
            for words in [
                only(&|_| true),
                only(&|_| false),
                only(&|k| k % 2 == 0),
                only(&|k| k == 0),
                only(&|k| k + 1 == n),
            ] {
                record(random, &words).see(log, check);
            }
        }
    }
}

/// Any pattern whose exponent is all ones.
fn damage(random: &mut Random) -> u32 {
    let fraction = match random.below(4) {
        0 => 0,
        1 => 1 << random.below(23),
        _ => random.bits() as u32 & 0x7F_FFFF,
    };
    (random.below(2) as u32) << 31 | 0x7F80_0000 | fraction
}

/// A random record, of whose samples every one, or one of so many, is damaged.
fn damaged_record(random: &mut Random, round: u64) -> Record {
    let sound = random_record(random, round);
    let share = random.pick(&[1, 2, 10, 100]);
    let words: Vec<u32> = sound
        .samples
        .iter()
        .map(|x| {
            if random.below(share) == 0 {
                damage(random)
            } else {
                x.to_bits()
            }
        })
        .collect();
    Record {
        samples: of_bits(&words),
        ..sound
    }
}

pub fn compare(rounds: u64, log: &mut Log) {
    let check = log.check("tj_calculate_time_figures: every capture of up to 5 of -1, 0, both infinities and six NaN");
    compare_short(log, check, &[&NUMBERS[..], &DAMAGE].concat());
    let mut random = Random::new(7);
    compare_places(log, &mut random);
    compare_lengths(log, &mut random);
    let check = log.check("tj_calculate_time_figures: random damage");
    for round in 0..rounds {
        damaged_record(&mut random, round).see(log, check);
    }
}
