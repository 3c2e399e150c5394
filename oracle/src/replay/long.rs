//! Lists of more places than a line has words for, made by a rule from one word and compared by a sum: as crates/replaying/src/made.rt has them.

use super::run::Maker;
use super::signals::{with_values, Script};
use super::slices::{power_at, quotients, sines, SCRATCH};
use super::wrong::WHOLE;
use super::{word, Given, Lines, Said, ROOM};
use crate::lines::LONGEST;
use crate::signals::Quarter;
use crate::spectrum::over_sines;

/// Whether a list of so many places is made by the rule.
pub fn is_made(n: usize) -> bool {
    ROOM < n && n < LONGEST
}

/// Numbers below 65,537, each 75 times the one before, and 74; of each a float from a half to two, negative where it is odd.
pub fn made(first: u32, n: usize) -> Vec<f32> {
    let numbers = std::iter::successors(Some(first as u64 % 65537), |s| Some((s * 75 + 74) % 65537));
    let float = |s: u64| f32::from_bits((0x3F00_0000 + s * 0x100 + s % 2 * 0x8000_0000) as u32);
    numbers.map(float).take(n).collect()
}

/// The word that this list was made from.
pub fn first_of(list: &[f32]) -> u32 {
    let first = (list[0].abs().to_bits() - 0x3F00_0000) / 0x100;
    assert_eq!(made(first, list.len()), list);
    first
}

/// The sum of so many words.
fn summed(words: impl Iterator<Item = u32>) -> u32 {
    words.fold(0, |sum, word| (sum * 65599 + word as u64) % 4_294_967_291) as u32
}

/// The sum of a list's words: one word for every NaN, and one for either zero.
pub fn sum(list: &[f32]) -> u32 {
    summed(list.iter().map(|x| if *x == 0.0 { 0 } else { word(x) }))
}

/// The same for f64 that are numbers.
fn sum_of_doubles(list: &[f64]) -> u32 {
    let bits = |x: &f64| if *x == 0.0 { 0 } else { x.to_bits() };
    summed(list.iter().flat_map(|x| [(bits(x) >> 32) as u32, bits(x) as u32]))
}

/// The lengths past a line's room: those of the grid, their neighbours, and some beyond.
const LENGTHS: [usize; 17] = [
    33, 63, 64, 65, 100, 128, 256, 512, 1024, 2047, 2048, 4095, 4096, 4097, 6000, 8192, 65535,
];

/// 01, row 4, past a line's room: the powers of two up to 4,096.
fn on_grid(n: usize) -> bool {
    n.is_power_of_two() && n <= 4096
}

/// A list to write to, of the rule where it is too long for a line.
fn lent(n: usize) -> Vec<f32> {
    if is_made(n) {
        made(n as u32, n)
    } else {
        vec![-77.25; n]
    }
}

/// Both calls with enough room and with more, and at two lengths with too little.
pub fn spectra(lines: &mut Lines) {
    for (n, spare) in LENGTHS.iter().zip([0, 1, 2].iter().cycle()) {
        for which in [1, 3] {
            spectrum(lines, which, *n, n / 2 + spare, (n + spare).min(4096));
        }
    }
    for n in [64, 4096] {
        spectrum(lines, 1, n, n / 2 - 1, 0);
        spectrum(lines, 3, n, n / 2 - 1, n);
        spectrum(lines, 3, n, n / 2, n - 1);
    }
}

/// The spectrum of n places of the rule into so many; the call 3 with a scratch among 4,096 places, whose sum stands in the line.
fn spectrum(lines: &mut Lines, which: u32, n: usize, n_out: usize, n_scratch: usize) {
    let a = made(7 * n as u32 + 1, n);
    let out = lent(n_out);
    let short = n_out < n / 2 || which == 3 && n_scratch < n;
    let mut scratch = vec![SCRATCH; 4096];
    let mut said = Said {
        code: if on_grid(n) { 2 * short as u32 } else { 4 },
        ..Said::left(vec![], out.clone())
    };
    if said.code == 0 {
        over_sines(&a, &sines(n), &mut said.out);
        scratch.splice(..n, sines(n));
    }
    let mut given = Given {
        out,
        ..Given::on(vec![n_scratch as u32], a)
    };
    if which == 3 {
        given.words.push(sum_of_doubles(&scratch));
        given.answers = vec![(1, WHOLE)];
    }
    lines.line(which, &given, &said);
}

/// Distortion and the quotients of spectra of the rule, at the first bins above 0 and at those about whose multiple by 16 the spectrum ends.
pub fn qualities(lines: &mut Lines) {
    for n in [33, 64, 2048, 4096, 65535] {
        let a = made(n as u32 + 5, n);
        let from = |first: usize| (first..n).filter(|bin| a[*bin] > 0.0);
        for bin in from(1).take(3).chain(from((n - 1) / 17).take(3)) {
            quotients(lines, a.clone(), bin);
        }
    }
}

/// The power of the fundamental at the first bins, the last ones and half; two captures of the rule, and at one bin of different lengths.
pub fn fundamentals(lines: &mut Lines, quarter: &Quarter) {
    for n in LENGTHS {
        let pair = |ni: usize| [made(3 * n as u32 + 1, n), made(5 * n as u32 + 2, ni)];
        for bin in [1, 2, n / 4 + 1, n / 2 - 1, n / 2] {
            let [voltage, current] = pair(n);
            power_at(lines, quarter, voltage, current, bin);
        }
        let [voltage, current] = pair(n - 1);
        power_at(lines, quarter, voltage, current, 1);
    }
}

/// Signals of edition 1 and every wave, at frequencies whose order 16 lies just below half, at half or past it, or far below; then a duty cycle, a phase
/// and, at times, a reset. Off the grid one is enough.
pub fn signals(lines: &mut Lines) {
    for n in LENGTHS {
        let half = n as f32 / 2.0;
        let frequencies = [1.0, half / 16.0 - 0.6, half / 16.0, half / 20.0, half / 15.0, 2.0];
        let many = match n {
            64 | 4096 => 6,
            _ if on_grid(n) => 2,
            _ => 1,
        };
        for (k, frequency) in frequencies[..many].iter().enumerate() {
            let settings = [[0, 0, 0], [2, 1, 0], [1, 2, 3 * (k as u32 / 5)]][k % 3];
            for (wave, settings) in [(3, settings), (k as u8 % 3, [2, 0, settings[1]])] {
                let maker = Maker::Wave(wave, 1.5, *frequency);
                Script::new(maker, 1, with_values(settings)).line(lines, &made(n as u32, n));
            }
        }
    }
    for n in [64, 4096, 4097] {
        Script::new(Maker::Port(2.5, -3.0, Some(50.0)), 1, [(0, 0.0); 3]).line(lines, &made(n as u32, n));
    }
}
