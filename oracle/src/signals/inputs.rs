//! Random calls on a signal.

use super::calls::{Call, Maker};
use crate::common::{Kind, Random};
use crate::port::ABSENT;

pub fn amplitude(random: &mut Random) -> f32 {
    let odd = [0.0, -0.0, 1e-13, 1e-12, -3.5, f32::NAN, f32::INFINITY, f32::MAX];
    match random.below(9) {
        0 => random.sample(Kind::Mixed),
        1 => random.pick(&odd),
        2 => random.sample(Kind::Small),
        3 => -(2f64.powf(random.unit() * 30.0) as f32),
        _ => 2f64.powf(random.unit() * 30.0) as f32,
    }
}

pub fn frequency(random: &mut Random, n: usize) -> f32 {
    let half = n as f32 / 2.0;
    let odd = [
        0.0,
        -1.0,
        0.5,
        0.49,
        half,
        half - 0.5,
        n as f32,
        f32::NAN,
        f32::INFINITY,
        1e30,
    ];
    match random.below(9) {
        0 => random.sample(Kind::Mixed),
        1 => random.pick(&odd),
        2 => (random.unit() * (half as f64 + 1.0)) as f32,
        3 => n as f32 / (random.below(9) + 1) as f32,
        4 => random.below(n as u64 / 2 + 1) as f32,
        _ => (random.below(8) + 1) as f32,
    }
}

pub fn phase(random: &mut Random) -> f32 {
    match random.below(6) {
        0 => random.sample(Kind::Mixed),
        1 => random.pick(&[0.0, -0.0, 90.0, 180.0, -360.0, f32::NAN, f32::INFINITY]),
        _ => (random.unit() * 720.0 - 360.0) as f32,
    }
}

pub fn duty(random: &mut Random) -> f32 {
    match random.below(6) {
        0 => random.sample(Kind::Mixed),
        1 => random.pick(&[0.0, -0.0, 1.0, 1.5, -0.5, f32::NAN, f32::INFINITY]),
        2 => 0.0,
        _ => random.unit() as f32,
    }
}

pub fn call(random: &mut Random) -> Call {
    match random.below(7) {
        0..=2 => Call::Phase(phase(random)),
        3..=5 => Call::Duty(duty(random)),
        _ => Call::Reset,
    }
}

pub fn maker(random: &mut Random, n: usize) -> Maker {
    if random.below(6) == 0 {
        let (voltage, current) = (amplitude(random), amplitude(random));
        let reading = match random.below(3) {
            0 => ABSENT,
            _ => Some(frequency(random, n)).into(),
        };
        return Maker::Port(voltage, current, reading);
    }
    // numbers past 3 name DC
    let wave = random.pick(&[0, 1, 1, 1, 2, 2, 3, 3, 200]);
    Maker::Wave(wave, amplitude(random), frequency(random, n))
}

/// An edition, often one of those that there are.
pub fn edition(random: &mut Random) -> u8 {
    match random.below(4) {
        0 => random.bits() as u8,
        1 => random.pick(&[0, 3, 255]),
        _ => random.pick(&[1, 2]),
    }
}

/// A length that is refused; seldom a long one.
pub fn refused_length(random: &mut Random) -> usize {
    match random.below(40) {
        0 => random.pick(&[8192, 32768, 65535, 65536]),
        1 => random.pick(&[65537, 65538, 131_072]),
        2 => random.pick(&[4095, 4097, 5000]),
        _ => random.pick(&[3, 5, 6, 7, 9, 15, 17, 24, 100]),
    }
}
