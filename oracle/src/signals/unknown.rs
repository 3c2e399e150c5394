//! Every number that an edition may have, named and held by the state, at each call and on lengths of every kind.

use super::calls::{same, zero, Call, Lent, Maker};
use super::editions::number;
use super::inputs;
use crate::common::{Check, Kind, Log, Random};
use crate::figures::any_figures;
use tilljingle::Settings;

/// Lengths that are taken, some with orders above 16; those that are refused with 4, and with 3.
const LENGTHS: [usize; 17] = [
    0, 1, 2, 8, 32, 64, 128, 3, 12, 100, 4095, 4097, 8192, 65535, 65536, 65537, 131_072,
];

struct Checks {
    named: Check,
    held: Check,
    reset: Check,
}

impl Checks {
    /// A signal made in this edition: refused, the zero state.
    fn see_named(&self, log: &mut Log, random: &mut Random, edition: u8, n: usize) {
        let maker = inputs::maker(random, n);
        let before = Lent::new(n);
        let mut lent = before.clone();
        let answer = maker.ours(edition, lent.get_mut());
        let refused = same(&answer.signal, &zero()) && lent.is(&before);
        let right = match number(edition, n) {
            0 => answer.code == 0 && answer.signal.edition == edition && lent.ends_stayed(),
            code => answer.code == code && refused,
        };
        log.see(self.named, right, || {
            format!("{:?}, edition {} on {}: {:?}", maker, edition, n, answer)
        });
    }

    /// A call on a state of this edition: refused, the state as it was; a reset clears THD and the samples, whatever the edition.
    fn see_held(&self, log: &mut Log, call: Call, state: Settings, n: usize) {
        let before = Lent::new(n);
        let mut lent = before.clone();
        let answer = call.ours(state, lent.get_mut());
        let cleared = answer.signal.thd == 0.0 && lent.get().iter().all(|x| *x == 0.0);
        let (check, done) = match call {
            Call::Reset => (self.reset, cleared),
            _ => (self.held, true),
        };
        let right = match call.number(state.edition, n) {
            0 => answer.code == 0 && answer.signal.edition == state.edition && lent.ends_stayed() && done,
            code => answer.code == code && same(&answer.signal, &state) && lent.is(&before),
        };
        log.see(check, right, || {
            format!("{:?} of {:?} on {}: {:?}", call, state, n, answer)
        });
    }
}

/// A state that a caller may hand in, of this edition.
fn any_state(random: &mut Random, edition: u8) -> Settings {
    let made = Maker::Wave(random.below(4) as u8, 2.0, 1.0).ours(1, Lent::new(8).get_mut());
    Settings {
        edition,
        amplitude: inputs::amplitude(random),
        frequency: inputs::frequency(random, 8),
        figures: any_figures(random),
        thd: random.sample(Kind::Mixed),
        ..made.signal
    }
}

pub fn compare(log: &mut Log) {
    let checks = Checks {
        named: log.check("all 256 editions named, every kind of length: the number; refused, the zero state and nothing written"),
        held: log.check("all 256 editions held, set_phase and set_duty_cycle: the number; refused, the state as it was and nothing written"),
        reset: log.check("all 256 editions held, reset_waveform: the length's number, and the edition kept"),
    };
    let mut random = Random::new(13);
    for n in LENGTHS {
        for edition in 0..=255 {
            for _ in 0..2 {
                checks.see_named(log, &mut random, edition, n);
                let (phase, duty) = (inputs::phase(&mut random), inputs::duty(&mut random));
                for call in [Call::Phase(phase), Call::Duty(duty), Call::Reset] {
                    checks.see_held(log, call, any_state(&mut random, edition), n);
                }
            }
        }
    }
}
