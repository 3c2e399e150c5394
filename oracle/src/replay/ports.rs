//! Time figures and ports.

use super::{word, words, Given, Lines, Said, TINY};
use crate::common::{Kind, Random};
use crate::figures::Counts;
use crate::generator::wave_of;
use crate::lines::LONGEST;
use crate::signal::{Signal, SignalMetrics, SignalType};

/// The bits of the f32 nearest to 1e-6.
const MILLIONTH: u32 = 0x358637BD;

pub fn figures(lines: &mut Lines) {
    for round in 0..300 {
        let (wave, amplitude, frequency) = (lines.wave(), lines.setting(), lines.setting());
        let a = lines.list();
        let mut earlier = [0.0; 24];
        // the earlier record is seen where there are no samples
        if round % 3 == 0 || a.is_empty() {
            lines.random.fill(Kind::Mixed, &mut earlier);
        }
        record(lines, wave, amplitude, frequency, &earlier, a);
    }
    // at the limits: a fall that begins at the high threshold and ends at the low one; a NaN within a rise; a NaN frequency
    record(lines, 0, 1.0, 1.0, &[0.0; 24], vec![0.0, 10.0, 9.0, 8.0, 1.0, 0.0]);
    record(lines, 0, 1.0, 1.0, &[0.0; 24], vec![0.0, 5.0, f32::NAN, 10.0]);
    record(lines, 2, 1.0, f32::NAN, &[0.0; 24], (0..12).map(|i| i as f32).collect());
    // PWM's distance from the amplitude, strictly below 1e-6
    record(
        lines,
        1,
        0.0,
        1.0,
        &[0.0; 24],
        [MILLIONTH, MILLIONTH - 1].map(f32::from_bits).to_vec(),
    );
    // a swing and a mean of 1e-12, and a bit above
    for bits in [TINY - 1, TINY, TINY + 1] {
        record(lines, 3, 0.0, 1.0, &[0.0; 24], vec![0.0, f32::from_bits(bits)]);
        record(lines, 0, 0.0, 1.0, &[0.0; 24], vec![f32::from_bits(bits); 2]);
    }
    // none, some and all of the samples no number, infinite, or the largest number
    let damage = [f32::NAN, f32::INFINITY, f32::NEG_INFINITY, f32::MAX];
    for share in [0, 1, 2, 4] {
        for (wave, n) in [(0, 1), (1, 7), (2, 32)] {
            let a = (0..n).map(|k| if k % 4 < share { damage[k / 4 % 4] } else { 1.0 });
            record(lines, wave, 1.0, 0.0, &[0.0; 24], a.collect());
        }
    }
}

/// The record of these samples. What is refused brings the earlier one; its counts have a source of their own.
pub fn record(lines: &mut Lines, wave: u8, amplitude: f32, frequency: f32, earlier: &[f32; 24], a: Vec<f32>) {
    let earlier = SignalMetrics::tail_from(earlier);
    let counts = Counts::any(&mut Random::new(lines.cases.len() as u64));
    let mut list = a.clone();
    let mut signal = Signal::tail_over(wave_of(wave), amplitude, frequency, &earlier, &mut list);
    let refused = a.len() > LONGEST;
    if !refused {
        signal.tail_calculate();
    }
    let said = Said {
        code: 3 * refused as u32,
        counts: Some(counts.after(&a)),
        ..Said::floats(signal.get_metrics().tail_time().to_vec())
    };
    let mut words = vec![wave as u32, word(&amplitude), word(&frequency)];
    words.extend(earlier.tail_time().iter().map(word));
    words.extend([counts.not_numbers, counts.infinite]);
    lines.line(1, &Given::on(words, a), &said);
}

/// The words of a reading: whether there is a number, and it.
pub fn reading(r: Option<f32>) -> [u32; 2] {
    [r.is_some() as u32, word(&r.unwrap_or(0.0))]
}

/// One setting of the port, by number; what it is given.
fn set(random: &mut Random, which: u32, place: u8, signal: &mut Signal) -> Vec<u32> {
    let mut x = || random.sample(Kind::Mixed);
    let r = (x() < 1.0).then(&mut x);
    macro_rules! of {
        (float $setter:ident) => {{
            let x = x();
            signal.$setter(x);
            vec![word(&x)]
        }};
        (double $setter:ident) => {{
            let x = x() as f64 / 3.0;
            signal.$setter(x);
            words(x).to_vec()
        }};
        (reading $setter:ident) => {{
            signal.$setter(r);
            reading(r).to_vec()
        }};
        (harmonic $setter:ident) => {{
            signal.$setter(place, r);
            [&reading(r)[..], &[place as u32]].concat()
        }};
    }
    match which {
        1 => of!(float set_voltage),
        2 => of!(float set_current),
        3 => of!(reading set_frequency),
        4 => of!(reading set_phase_angle),
        5 => of!(float set_active_power),
        6 => of!(reading set_reactive_power),
        7 => of!(reading set_apparent_power),
        8 => of!(reading set_power_factor),
        9 => of!(reading set_displacement_pf),
        10 => of!(double set_energy_imported),
        11 => of!(double set_energy_exported),
        12 => of!(reading set_voltage_thd),
        13 => of!(reading set_current_thd),
        14 => of!(reading set_voltage_crest_factor),
        15 => of!(reading set_current_crest_factor),
        16 => of!(harmonic set_voltage_harmonic),
        17 => of!(harmonic set_current_harmonic),
        18 => of!(reading set_efficiency),
        19 => of!(reading set_losses),
        20 => {
            let limits = [0; 4].map(|_| x());
            signal.set_limits(limits[0], limits[1], limits[2], limits[3]);
            limits.iter().map(word).collect()
        }
        21 => {
            let flags = [x() < 0.0, x() < 0.0];
            signal.set_state(flags[0], flags[1]);
            flags.map(|flag| flag as u32).to_vec()
        }
        22 => of!(reading set_temperature),
        _ => {
            signal.reset_power_params();
            vec![]
        }
    }
}

/// What a getter says, by number: that of the setting with the same number; those of `more` have none, or one with others.
fn get(which: u32, place: u8, signal: &Signal) -> Said {
    let float = |x| Said::floats(vec![x]);
    let double = |wide| Said::wide(wide, vec![]);
    let flag = |x| float(x as u8 as f32);
    let reading = |r: Option<f32>| Said::floats(vec![r.is_some() as u8 as f32, r.unwrap_or(0.0)]);
    match which {
        1 => float(signal.voltage()),
        2 => float(signal.current()),
        3 => reading(signal.frequency()),
        4 => reading(signal.phase_angle()),
        5 => float(signal.active_power()),
        6 => reading(signal.reactive_power()),
        7 => reading(signal.apparent_power()),
        8 => reading(signal.power_factor()),
        9 => reading(signal.displacement_pf()),
        10 => double(signal.energy_imported()),
        11 => double(signal.energy_exported()),
        12 => reading(signal.voltage_thd()),
        13 => reading(signal.current_thd()),
        14 => reading(signal.voltage_crest_factor()),
        15 => reading(signal.current_crest_factor()),
        16 => reading(signal.voltage_harmonic(place)),
        17 => reading(signal.current_harmonic(place)),
        18 => reading(signal.efficiency()),
        19 => reading(signal.losses()),
        20 => float(signal.voltage_min()),
        21 => flag(signal.is_enabled()),
        22 => reading(signal.temperature()),
        23 => float(signal.voltage_max()),
        24 => float(signal.current_max()),
        25 => float(signal.power_max()),
        26 => flag(signal.is_faulted()),
        _ => float(signal.instantaneous_power()),
    }
}

/// Up to six settings of a cleared port, and then a getter, which is often that of a setting made.
pub fn port(lines: &mut Lines) {
    for round in 0..540 {
        let which = round % 27 + 1;
        let place = lines.random.below(18) as u8;
        let mut signal = Signal::new(SignalType::DC, 0.0, 0.0, &mut []);
        signal.reset_power_params();
        let mut given = vec![place as u32];
        for _ in 0..6 {
            let setting = match (lines.random.below(6), which) {
                (0, _) => 0,
                (1, _) => lines.random.below(23) as u32 + 1,
                (_, 23..=25) => 20,
                (_, 26) => 21,
                (2, 27) => 1,
                (_, 27) => 2,
                _ => which,
            };
            let mut words = vec![setting];
            if setting > 0 {
                let at = match lines.random.below(3) {
                    0 => lines.random.below(18) as u8,
                    _ => place,
                };
                words.extend(set(&mut lines.random, setting, at, &mut signal));
            }
            words.resize(5, 0);
            given.extend(words);
        }
        lines.line(which, &Given::numbers(given), &get(which, place, &signal));
    }
}
