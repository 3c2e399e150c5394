//! Port readings, against the setters and getters of the Rust's `Signal`. Over the boundary a plain field is read and set as a field; the calls do the rest.

use crate::common::{black_box, same32, same64, Kind, Log, Random, Table};
use crate::signal::Signal;
use tilljingle::raw::{
    tj_current_harmonic, tj_harmonic, tj_instantaneous_power, tj_reset_power_params, tj_set_current_harmonic,
    tj_set_harmonic, tj_set_voltage_harmonic, tj_voltage_harmonic,
};
use tilljingle::{Port, Reading};

/// Random sequences of a full comparison.
pub const ROUNDS: u64 = 500_000;

/// The most calls of a sequence.
const CALLS: u64 = 20;

pub const ABSENT: Reading = Reading {
    present: false,
    value: 0.0,
};

fn same_reading(a: Reading, b: Reading) -> bool {
    a.present == b.present && same32(a.value, b.value)
}

/// What the Rust's getters give.
pub fn port_of(signal: &Signal) -> Port {
    let mut voltage_harmonics = [ABSENT; 16];
    let mut current_harmonics = [ABSENT; 16];
    for n in 0..16u8 {
        voltage_harmonics[n as usize] = signal.voltage_harmonic(n).into();
        current_harmonics[n as usize] = signal.current_harmonic(n).into();
    }
    Port {
        voltage: signal.voltage(),
        current: signal.current(),
        frequency: signal.frequency().into(),
        phase_angle: signal.phase_angle().into(),
        active_power: signal.active_power(),
        reactive_power: signal.reactive_power().into(),
        apparent_power: signal.apparent_power().into(),
        power_factor: signal.power_factor().into(),
        displacement_pf: signal.displacement_pf().into(),
        energy_imported: signal.energy_imported(),
        energy_exported: signal.energy_exported(),
        voltage_thd: signal.voltage_thd().into(),
        current_thd: signal.current_thd().into(),
        voltage_crest_factor: signal.voltage_crest_factor().into(),
        current_crest_factor: signal.current_crest_factor().into(),
        voltage_harmonics,
        current_harmonics,
        efficiency: signal.efficiency().into(),
        losses: signal.losses().into(),
        voltage_min: signal.voltage_min(),
        voltage_max: signal.voltage_max(),
        current_max: signal.current_max(),
        power_max: signal.power_max(),
        is_enabled: signal.is_enabled(),
        is_faulted: signal.is_faulted(),
        temperature: signal.temperature().into(),
    }
}

fn readings(port: &Port) -> Vec<Reading> {
    let mut all = vec![
        port.frequency,
        port.phase_angle,
        port.reactive_power,
        port.apparent_power,
        port.power_factor,
        port.displacement_pf,
        port.voltage_thd,
        port.current_thd,
        port.voltage_crest_factor,
        port.current_crest_factor,
        port.efficiency,
        port.losses,
        port.temperature,
    ];
    all.extend(port.voltage_harmonics);
    all.extend(port.current_harmonics);
    all
}

fn numbers(port: &Port) -> [f32; 7] {
    [
        port.voltage,
        port.current,
        port.active_power,
        port.voltage_min,
        port.voltage_max,
        port.current_max,
        port.power_max,
    ]
}

pub fn same_port(a: &Port, b: &Port) -> bool {
    numbers(a).iter().zip(numbers(b)).all(|(x, y)| same32(*x, y))
        && readings(a).iter().zip(readings(b)).all(|(x, y)| same_reading(*x, y))
        && same64(a.energy_imported, b.energy_imported)
        && same64(a.energy_exported, b.energy_exported)
        && a.is_enabled == b.is_enabled
        && a.is_faulted == b.is_faulted
}

fn number(random: &mut Random) -> f32 {
    random.sample(Kind::Mixed)
}

fn reading(random: &mut Random) -> Reading {
    match random.below(4) {
        0 => ABSENT,
        _ => Some(number(random)).into(),
    }
}

/// A harmonic place, often past the last.
fn place(random: &mut Random) -> u8 {
    match random.below(4) {
        0 => random.below(256) as u8,
        _ => random.below(18) as u8,
    }
}

/// One setting, the same on both sides.
pub fn set(random: &mut Random, ours: &mut Port, theirs: &mut Signal) {
    macro_rules! one {
        ($field:ident, $setter:ident, $value:expr) => {{
            let value = $value;
            ours.$field = value;
            theirs.$setter(value.into());
        }};
    }
    match random.below(28) {
        0 => one!(voltage, set_voltage, number(random)),
        1 => one!(current, set_current, number(random)),
        2 => one!(frequency, set_frequency, reading(random)),
        3 => one!(phase_angle, set_phase_angle, reading(random)),
        4 => one!(active_power, set_active_power, number(random)),
        5 => one!(reactive_power, set_reactive_power, reading(random)),
        6 => one!(apparent_power, set_apparent_power, reading(random)),
        7 => one!(power_factor, set_power_factor, reading(random)),
        8 => one!(displacement_pf, set_displacement_pf, reading(random)),
        9 => one!(energy_imported, set_energy_imported, f64::from_bits(random.bits())),
        10 => one!(energy_exported, set_energy_exported, f64::from_bits(random.bits())),
        11 => one!(voltage_thd, set_voltage_thd, reading(random)),
        12 => one!(current_thd, set_current_thd, reading(random)),
        13 => one!(voltage_crest_factor, set_voltage_crest_factor, reading(random)),
        14 => one!(current_crest_factor, set_current_crest_factor, reading(random)),
        15 => one!(efficiency, set_efficiency, reading(random)),
        16 => one!(losses, set_losses, reading(random)),
        17 => one!(temperature, set_temperature, reading(random)),
        18 => {
            let [low, high, current, power] = [0; 4].map(|_| number(random));
            ours.voltage_min = low;
            ours.voltage_max = high;
            ours.current_max = current;
            ours.power_max = power;
            theirs.set_limits(low, high, current, power);
        }
        19 => {
            ours.is_enabled = random.below(2) == 0;
            ours.is_faulted = random.below(2) == 0;
            theirs.set_state(ours.is_enabled, ours.is_faulted);
        }
        20 => {
            *ours = unsafe { tj_reset_power_params(*ours) };
            theirs.reset_power_params();
        }
        kind => {
            let (n, value) = (place(random), reading(random));
            match kind % 2 {
                0 => theirs.set_voltage_harmonic(n, value.into()),
                _ => theirs.set_current_harmonic(n, value.into()),
            }
            unsafe {
                match kind {
                    22 => *ours = tj_set_voltage_harmonic(*ours, n, value),
                    21 | 23 => *ours = tj_set_current_harmonic(*ours, n, value),
                    24 | 26 => tj_set_harmonic(ours.voltage_harmonics.as_mut_ptr(), n, value),
                    _ => tj_set_harmonic(ours.current_harmonics.as_mut_ptr(), n, value),
                }
            }
        }
    }
}

pub fn compare(rounds: u64, log: &mut Log) {
    let whole = log.check("the whole port after each call");
    let power = log.check("tj_instantaneous_power, instantaneous_power");
    let voltage = log.check("tj_voltage_harmonic, voltage_harmonic");
    let current = log.check("tj_current_harmonic, current_harmonic");
    let lent = log.check("tj_harmonic, voltage_harmonic and current_harmonic");
    let mut random = Random::new(9);
    for _ in 0..rounds {
        let (volts, amps, frequency) = (number(&mut random), number(&mut random), reading(&mut random));
        let mut theirs = Signal::new_power_port(volts, amps, frequency.into(), &mut []);
        let mut ours = port_of(&theirs);
        for _ in 0..random.below(CALLS) + 1 {
            set(&mut random, &mut ours, &mut theirs);
            let expected = port_of(&theirs);
            log.see(whole, same_port(&ours, &expected), || format!("{:?}, Rust {:?}", ours, expected));
            let n = place(&mut random);
            unsafe {
                log.see32(power, tj_instantaneous_power(ours), theirs.instantaneous_power(), || {
                    format!("{:?}", ours)
                });
                let (a, b) = (tj_voltage_harmonic(ours, n), theirs.voltage_harmonic(n).into());
                log.see(voltage, same_reading(a, b), || format!("{}: {:?}, Rust {:?}", n, a, b));
                let a = tj_harmonic(ours.voltage_harmonics.as_ptr(), n);
                log.see(lent, same_reading(a, b), || format!("{}: {:?}, Rust {:?}", n, a, b));
                let (a, b) = (tj_current_harmonic(ours, n), theirs.current_harmonic(n).into());
                log.see(current, same_reading(a, b), || format!("{}: {:?}, Rust {:?}", n, a, b));
                let a = tj_harmonic(ours.current_harmonics.as_ptr(), n);
                log.see(lent, same_reading(a, b), || format!("{}: {:?}, Rust {:?}", n, a, b));
            }
        }
    }
    compare_places(rounds, log);
}

/// Lent places that hold anything, absent ones a value too, with one more at either end: only the place that is set changes.
fn compare_places(rounds: u64, log: &mut Log) {
    let set = log.check("tj_set_harmonic, every place and those beside");
    let get = log.check("tj_harmonic, the same places");
    let mut random = Random::new(19);
    let mut any = || Reading {
        present: random.below(2) == 0,
        value: number(&mut random),
    };
    let mut beside = Random::new(29);
    for _ in 0..rounds {
        let (n, value) = (place(&mut beside), any());
        let mut lent = [ABSENT; 18].map(|_| any());
        let mut expected = lent;
        if n < 16 {
            expected[n as usize + 1] = Option::from(value).into();
        }
        unsafe { tj_set_harmonic(lent[1..].as_mut_ptr(), n, value) };
        let same = lent.iter().zip(expected).all(|(a, b)| same_reading(*a, b));
        log.see(set, same, || format!("{}: {:?}, expected {:?}", n, lent, expected));
        let n = place(&mut beside);
        let a = unsafe { tj_harmonic(lent[1..].as_ptr(), n) };
        let b = expected[1..17].get(n as usize).map_or(ABSENT, |r| Option::from(*r).into());
        log.see(get, same_reading(a, b), || format!("{}: {:?}, expected {:?}", n, a, b));
    }
}

pub fn bench(table: &mut Table) {
    let mut signal = Signal::new_power_port(230.0, 5.0, Some(50.0), &mut []);
    let mut port = port_of(&signal);
    let value: Reading = Some(2.5).into();
    let mut theirs = || {
        for n in 0..16 {
            signal.set_voltage_harmonic(black_box(n), black_box(Some(2.5)));
            black_box(&mut signal);
        }
    };
    table.each("set_voltage_harmonic, in place", 16, &mut theirs, || {
        for n in 0..16 {
            unsafe { tj_set_harmonic(port.voltage_harmonics.as_mut_ptr(), black_box(n), black_box(value)) };
            black_box(&mut port);
        }
    });
    table.each("set_voltage_harmonic, the port by value", 16, &mut theirs, || {
        for n in 0..16 {
            port = unsafe { tj_set_voltage_harmonic(port, black_box(n), black_box(value)) };
            black_box(&mut port);
        }
    });
    let mut theirs = || {
        for n in 0..16 {
            black_box(black_box(&signal).voltage_harmonic(black_box(n)));
        }
    };
    table.each("voltage_harmonic, in place", 16, &mut theirs, || {
        for n in 0..16 {
            black_box(unsafe { tj_harmonic(black_box(&port).voltage_harmonics.as_ptr(), black_box(n)) });
        }
    });
    table.each("voltage_harmonic, the port by value", 16, &mut theirs, || {
        for n in 0..16 {
            black_box(unsafe { tj_voltage_harmonic(*black_box(&port), black_box(n)) });
        }
    });
    table.each(
        "instantaneous_power, the port by value",
        1,
        || {
            black_box(black_box(&signal).instantaneous_power());
        },
        || {
            black_box(unsafe { tj_instantaneous_power(*black_box(&port)) });
        },
    );
    table.each(
        "reset_power_params, the port by value",
        1,
        || {
            black_box(&mut signal).reset_power_params();
            black_box(&mut signal);
        },
        || {
            port = unsafe { tj_reset_power_params(*black_box(&port)) };
            black_box(&mut port);
        },
    );
}
