//! Numbers and slices.

use super::wrong::Field;
use super::{long, word, words, Given, Lines, Said, TINY};
use crate::common::{edges32, edges64, Kind, KINDS};
use crate::fundamental;
use crate::generator::wave_of;
use crate::quality::cut;
use crate::signal::{self, Signal};
use crate::signals::Quarter;
use crate::spectrum::over_sines;

pub fn number(lines: &mut Lines) {
    let mut wide = edges64();
    let mut slim = edges32();
    wide.extend((0..80).map(|_| f64::from_bits(lines.random.bits())));
    wide.extend((0..80).map(|_| lines.random.sample(Kind::Wide) as f64 * (1.0 + lines.random.unit() / 8_388_608.0)));
    slim.extend((0..80).map(|_| lines.random.sample(Kind::Bits)));
    slim.extend((0..40).map(|_| lines.random.sample(Kind::Middle)));
    for x in wide {
        let given = Given::numbers(words(x).to_vec());
        lines.line(1, &given, &Said::floats(vec![x as f32]));
        lines.line(2, &given, &Said::wide(libm::sqrt(x), vec![]));
    }
    for x in slim {
        lines.float(3, x, libm::sqrtf(x));
        lines.float(4, x, libm::fabsf(x));
        lines.float(5, x, libm::roundf(x));
    }
}

pub fn samples(lines: &mut Lines) {
    for _ in 0..150 {
        for (which, call) in [(1, signal::add_dc_offset as fn(&mut [f32], f32)), (2, signal::scale)] {
            let (list, x) = (lines.list(), lines.random.sample(Kind::Mixed));
            let mut out = list.clone();
            call(&mut out, x);
            lines.line(which, &Given::into(vec![word(&x)], list), &Said::left(vec![], out));
        }
        let given = Given {
            a: lines.list(),
            b: lines.list(),
            out: lines.list(),
            ..Given::default()
        };
        let mut out = given.out.clone();
        signal::add_signals(&given.a, &given.b, &mut out);
        lines.line(3, &given, &Said::left(vec![], out));
    }
}

pub fn timing(lines: &mut Lines) {
    for round in 0..250 {
        let mut a = lines.list();
        // every other list swings about its mean
        if round % 2 == 0 {
            let turn = lines.random.unit() * 3.2;
            a.iter_mut()
                .enumerate()
                .for_each(|(i, x)| *x = (i as f64 * turn).sin() as f32 + 0.25);
        }
        let rate = lines.setting();
        let answers = [signal::measure_frequency(&a, rate), signal::slew_rate(&a, rate)];
        let given = Given::on(vec![word(&rate)], a);
        for (answer, which) in answers.iter().zip(1..) {
            lines.line(which, &given, &Said::floats(vec![*answer]));
        }
    }
    // 01: "Slew of 0, 3, 1 at rate 2: 6. At a NaN rate: 0."
    for (rate, slew) in [(2.0, 6.0), (f32::NAN, 0.0)] {
        let a = vec![0.0, 3.0, 1.0];
        let floats = vec![signal::slew_rate(&a, rate)];
        assert_eq!(floats, [slew]);
        lines.line(2, &Given::on(vec![word(&rate)], a), &Said::floats(floats));
    }
}

/// Every tenth pair of slices differs in length: 1, and all zero.
pub fn power(lines: &mut Lines) {
    for round in 0..400 {
        let (mut a, mut b) = (lines.list(), lines.list());
        if round % 10 > 0 {
            let n = a.len().min(b.len());
            a.truncate(n);
            b.truncate(n);
        }
        let mut said = Said {
            code: (a.len() != b.len()) as u32,
            ..Said::floats(vec![0.0; 4])
        };
        if said.code == 0 {
            let (p, q, s, pf) = signal::compute_power(&a, &b, 1.0);
            said.floats = vec![p, q, s, pf];
        }
        lines.line(1, &Given::on_two(a, b), &said);
    }
    // an apparent power of 1e-12, and a bit above and below
    for bits in [TINY - 1, TINY, TINY + 1] {
        let (a, b) = (vec![1.0], vec![f32::from_bits(bits)]);
        let (p, q, s, pf) = signal::compute_power(&a, &b, 1.0);
        lines.line(1, &Given::on_two(a, b), &Said::floats(vec![p, q, s, pf]));
    }
}

/// The sines of n places as 01 has them: whole numbers over 2^30.
pub fn sines(n: usize) -> Vec<f64> {
    let turn = |j| 2.0 * std::f64::consts::PI * j as f64 / n as f64;
    (0..n)
        .map(|j| libm::round(libm::sin(turn(j)) * 1_073_741_824.0) / 1_073_741_824.0)
        .collect()
}

/// What stands in the scratch before.
pub const SCRATCH: f64 = 0.75;

/// The Rust's operations over 01's sines, which the call with scratch leaves there; off the grid 4; an output or a scratch that is too short 2.
pub fn spectrum(lines: &mut Lines) {
    for round in 0..300 {
        let kind = lines.random.pick(&KINDS);
        let n = match round % 8 {
            7 => lines.random.below(33) as usize,
            _ => lines.random.pick(&[0, 1, 2, 4, 8, 8, 16, 16, 32]),
        };
        let room = |lines: &mut Lines, needed: usize| match lines.random.below(8) {
            0 => needed.saturating_sub(1),
            1 => (needed + 2).min(32),
            _ => needed,
        };
        let (n_out, n_scratch) = (room(lines, n / 2), room(lines, n));
        let given = Given {
            out: vec![-77.25; n_out],
            ..Given::on(vec![n_scratch as u32], lines.random.samples(kind, n))
        };
        for which in [1, 2] {
            let mut given = given.clone();
            let mut said = Said::left(vec![], given.out.clone());
            said.code = match n {
                0 | 1 | 2 | 4 | 8 | 16 | 32 => 2 * (n_out < n / 2 || which == 2 && n_scratch < n) as u32,
                _ => 4,
            };
            let mut scratch = vec![SCRATCH; n_scratch];
            if said.code == 0 {
                over_sines(&given.a, &sines(n), &mut said.out);
                scratch.splice(..n.min(n_scratch), sines(n));
            }
            if which == 2 {
                given.answers = (0..n_scratch).map(|k| (1 + 2 * k, Field::Double)).collect();
                given.words.extend(scratch.into_iter().flat_map(words));
            }
            lines.line(which, &given, &said);
        }
    }
    long::spectra(lines);
}

pub fn quality(lines: &mut Lines) {
    for _ in 0..200 {
        let mut a = lines.list();
        match lines.random.below(4) {
            0 => (),
            1 => a.iter_mut().for_each(|x| *x = x.abs() * 1e-12),
            _ => a.iter_mut().for_each(|x| *x = x.abs()),
        }
        let bin = match lines.random.below(8) {
            0 => 0,
            1 => usize::MAX - lines.random.below(3) as usize,
            2 => a.len(),
            _ => 1 + lines.random.below(4) as usize,
        };
        quotients(lines, a, bin);
        let x = lines.random.sample(Kind::Mixed);
        lines.float(2, x, signal::compute_enob(x));
    }
    // a fundamental and a spur of 1e-12, and a bit above and below
    for bits in [TINY - 1, TINY, TINY + 1] {
        quotients(lines, vec![0.0, f32::from_bits(bits), 3.0, 5.0], 1);
        quotients(lines, vec![0.0, 3.0, f32::from_bits(bits), 0.0], 1);
    }
    long::qualities(lines);
}

/// THD and the three quotients of a spectrum at a bin.
pub fn quotients(lines: &mut Lines, a: Vec<f32>, bin: usize) {
    let given = Given::on(vec![(bin as u64 >> 32) as u32, bin as u32], a);
    let thd = signal::compute_thd_from_spectrum(&given.a, bin);
    lines.line(1, &given, &Said::floats(vec![thd]));
    for (which, cut) in [(3, cut::cut_snr as fn(&[f32], usize) -> (u8, f64)), (4, cut::cut_sinad)] {
        let (kind, wide) = cut(&given.a, bin);
        lines.line(which, &given, &Said::wide(wide, vec![kind as f32]));
    }
    let (kind, ratio) = cut::cut_sfdr(&given.a, bin);
    lines.line(5, &given, &Said::floats(vec![kind as f32, ratio as f32]));
}

pub fn generator(lines: &mut Lines) {
    for _ in 0..300 {
        let wave = lines.wave();
        let n = lines.random.below(13) as usize;
        let [amplitude, phase, duty] = [0; 3].map(|_| lines.setting());
        let [phase, duty] = [
            lines.random.pick(&[0.0, 90.0, phase]),
            lines.random.pick(&[0.25, 0.5, duty]),
        ];
        let frequency = lines.random.pick(&[1.0, 2.0, n as f32 / 4.0, -1.0, phase]);
        let out = lines.random.samples(Kind::Small, n);
        let mut said = Said::left(vec![], out.clone());
        Signal::tail_generate(wave_of(wave), amplitude, phase, frequency, duty, &mut said.out);
        let mut words = vec![wave as u32];
        words.extend([amplitude, phase, frequency, duty].iter().map(word));
        lines.line(1, &Given::into(words, out), &said);
    }
}

/// Lengths of the grid and others, every tenth pair of slices of different lengths; bins that are taken, and some that are not.
pub fn fundamental(lines: &mut Lines) {
    let quarter = Quarter::new();
    for round in 0..300 {
        let n = match round % 10 {
            9 => lines.random.below(33) as usize,
            _ => lines.random.pick(&[0, 1, 2, 4, 4, 8, 8, 16, 16, 32]),
        };
        let ni = if round % 10 == 8 { n / 2 } else { n };
        let [voltage, current] = [n, ni].map(|n| {
            let kind = lines
                .random
                .pick(&[Kind::Codes, Kind::Small, Kind::Steps, Kind::Mostly, Kind::Mixed]);
            lines.random.samples(kind, n)
        });
        let bin = match lines.random.below(8) {
            0 => lines.random.pick(&[0, n / 2, n, usize::MAX, (1 << 32) + 1]),
            1 => (n / 2).saturating_sub(1),
            _ => 1 + lines.random.below((n as u64 / 2).max(2) - 1) as usize,
        };
        power_at(lines, &quarter, voltage, current, bin);
    }
    // 02: "(1, 0, -1, 0) and (0, 1, 0, -1) at bin 1 give 0 and 0.5"; and exchanged
    let [one, other] = [[1.0, 0.0, -1.0, 0.0], [0.0, 1.0, 0.0, -1.0]];
    for (voltage, current, reactive) in [(one, other, 0.5), (other, one, -0.5)] {
        assert_eq!(
            fundamental::answer(&quarter, &voltage, &current, 1),
            (0, [0.0, reactive])
        );
        power_at(lines, &quarter, voltage.to_vec(), current.to_vec(), 1);
    }
    long::fundamentals(lines, &quarter);
    // a current of three times the voltage: the reactive figure is what rounding leaves, and shows the order of the operations
    for n in [8, 16, 32].into_iter().cycle().take(40) {
        let half = 1 << 21;
        let voltage: Vec<f32> = (0..n)
            .map(|_| (lines.random.below(2 * half) as i64 - half as i64) as f32)
            .collect();
        let current = voltage.iter().map(|x| 3.0 * x).collect();
        let bin = 1 + lines.random.below(n / 2 - 1) as usize;
        power_at(lines, &quarter, voltage, current, bin);
    }
}

/// Active and reactive power of two slices at a bin, by the reading of 02 that the comparison has.
pub fn power_at(lines: &mut Lines, quarter: &Quarter, a: Vec<f32>, b: Vec<f32>, bin: usize) {
    let (code, figures) = fundamental::answer(quarter, &a, &b, bin);
    let said = Said {
        code: code as u32,
        ..Said::floats(figures.to_vec())
    };
    let given = Given {
        words: vec![(bin as u64 >> 32) as u32, bin as u32],
        ..Given::on_two(a, b)
    };
    lines.line(1, &given, &said);
}
