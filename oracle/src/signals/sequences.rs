//! Sequences of calls, against the Rust's `Signal`: in edition 1 throughout, and in both with others written into the state between the calls.

use super::calls::{same, settings_of, zero, Call, Lent, Maker, BESIDE};
use super::editions::{highest_order, number};
use super::inputs;
use super::thd::{claimed, usable_bin, Quarter};
use crate::common::{all_same32, list32, same32, Check, Kind, Log, Random};
use crate::figures::{any_figures, metrics_of, Counts};
use crate::generator::wave_of;
use crate::port;
use crate::signal::{Signal, SignalMetrics, TailSettings};
use tilljingle::raw::SignalAnswer;
use tilljingle::Settings;

/// The most calls of a sequence.
const CALLS: u64 = 20;

/// The lengths on the grid, and how many of 10,000 sequences have each: the Rust's time grows with the square.
const GRID: [(usize, u64); 14] = [
    (0, 600),
    (1, 600),
    (2, 1400),
    (4, 1500),
    (8, 1500),
    (16, 1400),
    (32, 1500),
    (64, 900),
    (128, 420),
    (256, 120),
    (512, 45),
    (1024, 11),
    (2048, 3),
    (4096, 1),
];

struct Checks {
    quarter: Quarter,
    fields: Check,
    counts: Check,
    samples: Check,
    settings: Check,
    /// Of edition 1, and of edition 2.
    thd: [Check; 2],
    near: [Check; 2],
    kept: Check,
    silent: Check,
    cleared: Check,
    refused: Check,
    refused_new: Check,
    unknown: Check,
    /// The largest difference of THD where 01 claims one, in points.
    worst: [f64; 2],
}

impl Checks {
    fn open(log: &mut Log) -> Checks {
        Checks {
            quarter: Quarter::new(),
            fields: log.check("after each call: number 0, edition, settings, 19 figures, both counts and the port"),
            counts: log.check("after a call that is to leave a count above 0: both counts"),
            samples: log.check("after each call: every sample"),
            settings: log.check("after each port setting in between: every field"),
            thd: [
                log.check("edition 1, THD at a usable bin: 01 read over a table made here, bit for bit"),
                log.check("edition 2, THD at a usable bin: 02 read over a table made here, bit for bit"),
            ],
            near: [
                log.check("edition 1, THD within 0.05 points of the Rust's, where 01 claims it"),
                log.check("edition 2, THD within 0.05 points of the Rust's text with 40 orders, where 01 claims it"),
            ],
            kept: log.check("THD as it was where the bin is unusable, the Rust's too"),
            silent: log.check("THD as it was at a usable bin on samples that are all 0, the Rust's too"),
            cleared: log.check("THD after a reset: the Rust's"),
            refused: log.check("a refused call: its number, the state as it was, nothing written"),
            refused_new: log.check("a refused new or new_power_port: its number, the zero state, nothing written"),
            unknown: log.check("a setting in an edition that is neither: 9, the state as it was, nothing written"),
            worst: [0.0; 2],
        }
    }

    /// THD after a call that generates in this edition, where it was `earlier` on both sides. The Rust's own has 16 orders.
    fn see_thd(&mut self, log: &mut Log, edition: u8, earlier: f32, ours: &Settings, theirs: &mut Signal) {
        let (which, highest) = (edition as usize - 1, highest_order(edition).expect("an edition"));
        let (samples, rust) = (theirs.get_samples(), theirs.get_metrics().thd);
        let words = || format!("{:?} {}", ours, list32(samples));
        let bin = match usable_bin(ours.frequency, samples.len()) {
            Some(bin) => bin,
            None => {
                let same = same32(ours.thd, earlier) && same32(rust, earlier);
                return log.see(self.kept, same, words);
            }
        };
        let expected = self.quarter.thd(samples, ours.frequency, highest, earlier);
        log.see32(self.thd[which], ours.thd, expected, words);
        if samples.iter().all(|x| *x == 0.0) {
            let same = same32(ours.thd, earlier) && same32(rust, earlier);
            log.see(self.silent, same, words);
        }
        if claimed(samples, theirs.tail_bin(bin)) {
            self.see_near(log, which, ours, theirs);
        }
    }

    /// The same where 01 claims that both are near: to the Rust's own, or to its text with 40 for 16.
    fn see_near(&mut self, log: &mut Log, which: usize, ours: &Settings, theirs: &mut Signal) {
        if which == 1 {
            theirs.tail_thd(40);
        }
        let rust = theirs.get_metrics().thd;
        let off = (ours.thd as f64 - rust as f64).abs();
        self.worst[which] = self.worst[which].max(off);
        log.see(self.near[which], off <= 0.05, || {
            format!("{:?} {}: Rust {}", ours, list32(theirs.get_samples()), rust)
        });
    }

    /// Everything but THD, where the edition is to be this one. The Rust goes on with our THD, so that every call starts from the same state.
    fn see(&self, log: &mut Log, edition: u8, answer: SignalAnswer, lent: &Lent, theirs: &mut Signal, counts: Counts) {
        let (code, ours) = (answer.code, &answer.signal);
        let metrics = SignalMetrics {
            thd: ours.thd,
            ..theirs.get_metrics()
        };
        theirs.tail_set_metrics(&metrics);
        theirs.set_voltage_thd(Some(ours.thd));
        let expected = settings_of(theirs, ours.wave, edition, counts);
        let wave = ours.wave < 4 && wave_of(ours.wave) == theirs.tail_settings().wave_type;
        let same = code == 0 && wave && same(ours, &expected);
        log.see(self.fields, same, || {
            format!("{}: {:?}, Rust {:?}", code, ours, expected)
        });
        let counted = Counts::in_record(&ours.figures);
        if counts != Counts::default() {
            log.see(self.counts, counted == counts, || {
                format!("{:?}, not {:?}", ours, counts)
            });
        }
        let same = lent.ends_stayed() && all_same32(lent.get(), theirs.get_samples());
        log.see(self.samples, same, || {
            format!(
                "{:?}: {}, Rust {}",
                ours,
                list32(lent.get()),
                list32(theirs.get_samples())
            )
        });
    }

    fn see_refused(&self, log: &mut Log, random: &mut Random, state: &Settings) {
        let n = inputs::refused_length(random);
        let call = inputs::call(random);
        let mut lent = Lent::new(n);
        let answer = call.ours(*state, lent.get_mut());
        let code = call.number(state.edition, n);
        let same = answer.code == code && same(&answer.signal, state) && lent.is(&Lent::new(n));
        log.see(self.refused, same, || {
            format!("{}: {:?} of {:?}: {:?}", n, call, state, answer)
        });
    }

    /// Each wave and a port in an edition on a length that is refused.
    fn see_refused_new(&self, log: &mut Log, random: &mut Random, editions: bool) {
        let n = inputs::refused_length(random);
        let mut lent = Lent::new(n);
        let (a, b) = (inputs::amplitude(random), inputs::frequency(random, n));
        for wave in 0..5 {
            let edition = if editions { inputs::edition(random) } else { 1 };
            let maker = match wave {
                4 => Maker::Port(a, b, Some(b).into()),
                _ => Maker::Wave(wave, a, b),
            };
            let answer = maker.ours(edition, lent.get_mut());
            let same = answer.code == number(edition, n) && same(&answer.signal, &zero());
            let same = same && lent.is(&Lent::new(n));
            log.see(self.refused_new, same, || {
                format!("{:?} {} {}: {:?}", maker, edition, n, answer)
            });
        }
    }

    /// One call that has a state already.
    fn step(&mut self, log: &mut Log, call: Call, state: &mut Settings, lent: &mut Lent, signal: &mut Signal) {
        let (edition, thd, counts) = (state.edition, state.thd, Counts::in_record(&state.figures));
        let (before, earlier) = (lent.clone(), *state);
        let answer = call.ours(earlier, lent.get_mut());
        *state = answer.signal;
        if call.number(edition, lent.get().len()) == 9 {
            let same = answer.code == 9 && same(state, &earlier) && lent.is(&before);
            return log.see(self.unknown, same, || {
                format!("{:?} of {:?}: {:?}", call, earlier, answer)
            });
        }
        call.theirs(signal);
        match call {
            Call::Reset => log.see32(self.cleared, state.thd, signal.get_metrics().thd, || {
                format!("{:?}", state)
            }),
            _ => self.see_thd(log, edition, thd, state, signal),
        }
        let counts = call.counts(counts, signal.get_samples());
        self.see(log, edition, answer, lent, signal, counts);
    }

    /// One signal of n samples, and up to 19 calls on it; with `editions` in either, and with others put into the state at times.
    fn sequence(&mut self, log: &mut Log, random: &mut Random, n: usize, editions: bool) {
        let (mut ours, mut theirs) = (Lent::new(n), vec![BESIDE; n]);
        let maker = inputs::maker(random, n);
        let edition = if editions { random.pick(&[1, 2, 2]) } else { 1 };
        let answer = maker.ours(edition, ours.get_mut());
        let mut signal = maker.theirs(&mut theirs);
        let mut state = answer.signal;
        self.see_thd(log, edition, 0.0, &state, &mut signal);
        let counts = Counts::default().after(signal.get_samples());
        self.see(log, edition, answer, &ours, &mut signal, counts);
        for _ in 0..random.below(CALLS) {
            if editions && random.below(5) == 0 {
                state.edition = inputs::edition(random);
            }
            match random.below(12) {
                0 | 1 => self.see_setting(log, random, &mut state, &mut signal),
                2 => self.see_refused(log, random, &state),
                3 => disturb(random, &mut state, &mut signal),
                _ => self.step(log, inputs::call(random), &mut state, &mut ours, &mut signal),
            }
        }
    }

    /// A setting of the port, which looks at no edition.
    fn see_setting(&self, log: &mut Log, random: &mut Random, state: &mut Settings, signal: &mut Signal) {
        let counts = Counts::in_record(&state.figures);
        port::set(random, &mut state.port, signal);
        let expected = settings_of(signal, state.wave, state.edition, counts);
        log.see(self.settings, same(state, &expected), || {
            format!("{:?}, Rust {:?}", state, expected)
        });
    }
}

/// Other settings, figures and THD on both sides: the record that a caller hands in may be any.
fn disturb(random: &mut Random, state: &mut Settings, signal: &mut Signal) {
    state.amplitude = inputs::amplitude(random);
    state.phase = inputs::phase(random);
    state.frequency = inputs::frequency(random, signal.get_samples().len());
    state.duty_cycle = inputs::duty(random);
    state.figures = any_figures(random);
    state.thd = random.sample(Kind::Mixed);
    signal.tail_set(TailSettings {
        wave_type: wave_of(state.wave),
        amplitude: state.amplitude,
        phase: state.phase,
        frequency: state.frequency,
        duty_cycle: state.duty_cycle,
    });
    signal.tail_set_metrics(&SignalMetrics {
        thd: state.thd,
        ..metrics_of(&state.figures)
    });
}

pub fn compare(rounds: u64, log: &mut Log) {
    let mut checks = Checks::open(log);
    for (seed, editions) in [(10, false), (11, true)] {
        let mut random = Random::new(seed);
        for (n, share) in GRID {
            for _ in 0..(rounds * share / 10_000).max(1) {
                checks.sequence(log, &mut random, n, editions);
            }
        }
        for _ in 0..(rounds / 100).max(10) {
            checks.see_refused_new(log, &mut random, editions);
        }
    }
    for (edition, worst) in (1..).zip(checks.worst) {
        println!(
            "signals: edition {}: the worst difference of THD where 01 claims one is {:.6} points",
            edition, worst
        );
    }
}
