//! The limit of 65,536: slices of that many places and of one more; of signals also those past a line's room, and the editions. What is refused, and in which
//! order, comes from 01 and 02.

use super::captures::{ended, pairs, power};
use super::ports::record;
use super::run::Maker;
use super::signals::Script;
use super::slices::SCRATCH;
use super::wrong::{Field, PAIR, WHOLE};
use super::{editions, long, word, words, Given, Lines, Said, FUNDAMENTAL};
use crate::generator::wave_of;
use crate::lines::{self, LONGEST};
use crate::quality::cut;
use crate::signal::{self, Signal};

/// The longest slice that is taken, and the shortest that isn't.
const LENGTHS: [usize; 2] = [LONGEST, LONGEST + 1];

/// 3 where one of these lengths is too long, and else the code given.
fn limited(lengths: &[usize], code: u32) -> u32 {
    match lengths.iter().max() > Some(&LONGEST) {
        true => 3,
        false => code,
    }
}

/// So many places with one number in each.
pub fn level(n: usize) -> Vec<f32> {
    vec![1.5; n]
}

/// One call of this item: the code, and, where that is 0, what the Rust says and leaves; else zeros, as many, and nothing written.
fn case(lines: &mut Lines, item: u32, which: u32, given: &Given, code: u32, answer: impl Fn(&Given, &mut Said)) {
    let mut said = Said::left(vec![], given.out.clone());
    answer(given, &mut said);
    if code > 0 {
        said.wide = 0.0;
        said.floats.fill(0.0);
        said.out = given.out.clone();
    }
    said.code = code;
    lines.item = item;
    lines.line(which, given, &said);
}

/// The calls that are given samples or magnitudes.
pub fn slices(lines: &mut Lines) {
    for n in LENGTHS {
        let code = limited(&[n], 0);
        let by = vec![word(&0.25)];
        for (which, call) in [(1, signal::add_dc_offset as fn(&mut [f32], f32)), (2, signal::scale)] {
            let given = Given::into(by.clone(), level(n));
            case(lines, 2, which, &given, code, |_, said| call(&mut said.out, 0.25));
        }
        for (which, call) in [
            (1, signal::measure_frequency as fn(&[f32], f32) -> f32),
            (2, signal::slew_rate),
        ] {
            case(
                lines,
                3,
                which,
                &Given::on(by.clone(), level(n)),
                code,
                |given, said| said.floats = vec![call(&given.a, 0.25)],
            );
        }
        spectra(lines, n);
        qualities(lines, n);
        let settings: Vec<u32> = [0.5, 90.0, 2.0, 0.25].iter().map(word).collect();
        let words = [&[0], &settings[..]].concat();
        case(lines, 8, 1, &Given::into(words, level(n)), code, |_, said| {
            Signal::tail_generate(wave_of(0), 0.5, 90.0, 2.0, 0.25, &mut said.out)
        });
    }
    two_slices(lines);
}

/// `add_signals`, whose output may have any length, `compute_power`, and the power of the fundamental, whose 4 and 8 come after both.
fn two_slices(lines: &mut Lines) {
    let [taken, refused] = LENGTHS;
    for (na, nb, n) in [
        (taken, taken, taken),
        (refused, refused, refused),
        (taken, 3, 2),
        (refused, 3, 2),
        (3, taken, 2),
        (3, refused, 2),
        (refused, 0, 0),
        (0, 3, refused),
        (3, 0, refused),
    ] {
        let given = Given {
            out: vec![-77.25; n],
            ..Given::on_two(level(na), vec![0.25; nb])
        };
        case(lines, 2, 3, &given, limited(&[na, nb], 0), |given, said| {
            signal::add_signals(&given.a, &given.b, &mut said.out)
        });
    }
    for (na, nb) in [
        (taken, taken),
        (refused, refused),
        (refused, 2),
        (2, refused),
        (taken, refused),
        (taken, 2),
        (2, taken),
    ] {
        let given = Given::on_two(level(na), vec![0.25; nb]);
        let code = limited(&[na, nb], (na != nb) as u32);
        case(lines, 4, 1, &given, code, |given, said| {
            let (p, q, s, pf) = match na == nb {
                true => signal::compute_power(&given.a, &given.b, 1.0),
                false => (0.0, 0.0, 0.0, 0.0),
            };
            said.floats = vec![p, q, s, pf];
        });
        let given = Given {
            words: vec![0, (na % 2) as u32],
            ..given
        };
        let code = limited(&[na, nb], if na != nb { 1 } else { 4 });
        case(lines, FUNDAMENTAL, 1, &given, code, |_, said| {
            said.floats = vec![0.0; 2]
        });
    }
}

/// Both calls, with room and with too little: 3 comes before 4, and 4 before 2.
fn spectra(lines: &mut Lines, n: usize) {
    for (which, scratch) in [(1, 0), (2, 4)] {
        let kept = vec![SCRATCH; scratch].into_iter().flat_map(words);
        let words = [scratch as u32].into_iter().chain(kept).collect();
        let given = Given {
            out: vec![-77.25; 2],
            answers: (0..scratch).map(|k| (1 + 2 * k, Field::Double)).collect(),
            ..Given::on(words, level(n))
        };
        case(lines, 6, which, &given, limited(&[n], 4), |_, _| ());
    }
}

/// Distortion and the quotients at a bin that is usable and at one that isn't.
fn qualities(lines: &mut Lines, n: usize) {
    let code = limited(&[n], 0);
    for bin in [1, 0, n] {
        let given = Given::on(vec![0, bin as u32], level(n));
        case(lines, 7, 1, &given, code, |given, said| {
            said.floats = vec![signal::compute_thd_from_spectrum(&given.a, bin)]
        });
        for (which, cut) in [(3, cut::cut_snr as fn(&[f32], usize) -> (u8, f64)), (4, cut::cut_sinad)] {
            case(lines, 7, which, &given, code, |given, said| {
                let (kind, wide) = cut(&given.a, bin);
                (said.wide, said.floats) = (wide, vec![kind as f32]);
            });
        }
        case(lines, 7, 5, &given, code, |given, said| {
            let (kind, ratio) = cut::cut_sfdr(&given.a, bin);
            said.floats = vec![kind as f32, ratio as f32];
        });
    }
}

/// Signals on lengths past a line's room, and on those that are refused, when they are made and when they are set.
pub fn signals(lines: &mut Lines) {
    long::signals(lines);
    let settings = |settings: [u32; 3]| [0, 1, 2].map(|k| (settings[k], [45.0, 0.75, 0.5][k]));
    for n in LENGTHS {
        for maker in [Maker::Wave(1, 2.0, 3.0), Maker::Port(2.0, 3.0, Some(50.0))] {
            Script::new(maker, 1, settings([0, 0, 0])).line(lines, &level(n));
        }
    }
    // `new` is on eight samples here, and what is set on n; pulses of infinity leave a count of four
    for n in [3, 12, LONGEST, LONGEST + 1] {
        for (wave, amplitude, set) in [
            (2, 2.0, [1, 0, 0]),
            (2, 2.0, [2, 0, 0]),
            (2, 2.0, [3, 0, 0]),
            (2, 2.0, [3, 2, 1]),
            (1, f32::INFINITY, [3, 2, 1]),
            (2, f32::NAN, [3, 2, 1]),
        ] {
            Script {
                apart: true,
                ..Script::new(Maker::Wave(wave, amplitude, 1.0), 1, settings(set))
            }
            .line(lines, &level(n));
        }
    }
    editions::long(lines);
}

/// The time figures, whose earlier record comes back.
pub fn figures(lines: &mut Lines) {
    for x in [1.5, f32::NAN, f32::NEG_INFINITY] {
        for n in LENGTHS {
            let earlier = [0; 24].map(|_| lines.random.unit() as f32);
            record(lines, 2, 2.0, 3.0, &earlier, vec![x; n]);
        }
    }
}

// ---------------------------------------------------------------------------- captures

/// Codes of which the program makes as many as it needs.
const CODES: (i16, i16) = (7, 8);

/// A capture of 65,536 pairs, and one pair more in a line of its own.
fn long_text() -> Vec<u8> {
    let mut text = vec![0; 561_152];
    lines::write(&vec![CODES.0; LONGEST], &vec![CODES.1; LONGEST], 0, &mut text);
    text.extend(lines::line_of(4096, &[CODES]));
    text
}

pub fn captures(lines: &mut Lines) {
    lines.item = 11;
    reads(lines);
    writes(lines);
    lines.item = 4;
    powers(lines);
}

/// The text's length, and the rooms.
fn reads(lines: &mut Lines) {
    let [taken, over] = LENGTHS;
    let text = long_text();
    for (n, nv, na) in [
        (561_152, over, over),
        (561_152, taken, taken),
        (561_152, taken, taken - 1),
        (561_152, 4, 4),
        (561_168, over, over),
        (561_169, over, over),
        (561_169, taken, taken),
        (561_169, 4, 4),
    ] {
        let (mut volts, mut amps) = (vec![5; over], vec![6; over]);
        let read = lines::read(&text[..n], &mut volts[..nv], &mut amps[..na]);
        let mut words: Vec<u32> = [n, nv, na, read.line, read.pairs].iter().map(|x| *x as u32).collect();
        for k in [0, LONGEST - 1, LONGEST] {
            words.push(k as u32);
            words.extend(pairs(&volts[k..=k], &amps[k..=k]));
        }
        let answers = vec![(3, WHOLE), (4, WHOLE), (6, PAIR), (8, PAIR), (10, PAIR)];
        ended(lines, 5, words, answers, read.code as u32);
    }
}

/// The counts of codes, and the room.
fn writes(lines: &mut Lines) {
    let [taken, over] = LENGTHS;
    for (nv, na, n) in [
        (taken, taken, 561_169),
        (taken, taken, 561_152),
        (taken, taken, 561_151),
        (taken, taken - 1, 561_169),
        (over, over, 561_169),
        (over, 1, 561_169),
        (1, over, 561_169),
        (over, over, 4),
    ] {
        let mut text = vec![b'.'; 561_169];
        let written = lines::write(&vec![CODES.0; nv], &vec![CODES.1; na], 0, &mut text[..n]);
        let mut words: Vec<u32> = [nv, na, n, written.bytes].iter().map(|x| *x as u32).collect();
        for k in [0, 561_151, 561_152] {
            words.extend([k as u32, text[k] as u32]);
        }
        let answers = [3, 5, 7, 9].map(|k| (k, WHOLE)).to_vec();
        ended(lines, 6, words, answers, written.code as u32);
    }
}

/// The counts of codes.
fn powers(lines: &mut Lines) {
    let [taken, over] = LENGTHS;
    for (nv, na) in [(taken, taken), (over, over), (over, 2), (2, over), (taken, taken - 1)] {
        let given = Given::numbers(vec![nv as u32, na as u32]);
        lines.line(7, &given, &power(&vec![CODES.0; nv], &vec![CODES.1; na]));
    }
}
