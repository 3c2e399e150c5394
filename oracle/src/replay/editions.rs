//! Request e of 02: both editions where they differ and where they agree, editions that are neither, named or held by the state; and wrong answers to them.

use super::limits::level;
use super::long::{is_made, made};
use super::run::Maker;
use super::signals::{with_values, Powered, Script, Sequence};
use super::{Lines, Said};
use crate::lines::LONGEST;

/// Editions that are neither 1 nor 2.
const UNKNOWN: [u8; 3] = [0, 3, 255];

/// Where the THD, the edition and the port's voltage THD stand in what is said of a signal.
const THD: usize = 19;
const EDITION: usize = 20;
const VOLTAGE_THD: usize = 29;

/// A sawtooth of one period, which has every order.
const SAWTOOTH: Maker = Maker::Wave(3, 1.5, 1.0);

/// A slice of n places to write to.
fn lent(n: usize) -> Vec<f32> {
    match n {
        _ if is_made(n) => made(n as u32, n),
        _ => level(n),
    }
}

/// This script with an edition put into its state.
fn with_put(script: Script, put: u8) -> Script {
    Script {
        put: Some(put),
        ..script
    }
}

// ---------------------------------------------------------------------------- by value

/// On lengths that a line has room for, where the editions have the same THD.
pub fn short(lines: &mut Lines) {
    let makers = [SAWTOOTH, Maker::Port(2.0, -3.0, None), Maker::Wave(1, -2.0, 3.0)];
    let settings = [[0, 0, 0], [1, 0, 0], [2, 3, 0], [3, 2, 0], [2, 1, 3]].map(with_values);
    let mut settings = settings.into_iter().cycle();
    for (n, maker) in [0, 1, 2, 8, 3, 12].into_iter().zip(makers.into_iter().cycle()) {
        for unknown in UNKNOWN {
            Script::new(maker, unknown, settings.next().unwrap()).line(lines, &lent(n));
            let made = Script::new(maker, 1 + n as u8 % 2, settings.next().unwrap());
            with_put(made, unknown).line(lines, &lent(n));
        }
    }
    // the zero state, or one that was made, in another edition
    for (named, put) in [(0, 2), (3, 1), (1, 2), (2, 1)] {
        for n in [4, 3] {
            let script = Script::new(SAWTOOTH, named, with_values([1, 0, 0]));
            with_put(script, put).line(lines, &lent(n));
        }
    }
}

/// A length, a frequency, and whether an order above 16 lies below half: all up to 40, some, 17 alone, none.
const ORDERS: [(usize, f32, bool); 14] = [
    (64, 1.0, true),
    (64, 2.0, false),
    (128, 1.0, true),
    (128, 3.0, true),
    (128, 4.0, false),
    (256, 3.0, true),
    (256, 4.0, true),
    (256, 7.0, true),
    (256, 8.0, false),
    (1024, 12.0, true),
    (1024, 13.0, true),
    (1024, 30.0, true),
    (1024, 31.0, false),
    (1024, 32.0, false),
];

/// Past a line's room, and at lengths that are refused.
pub fn long(lines: &mut Lines) {
    for (k, (n, frequency, differ)) in ORDERS.into_iter().enumerate() {
        for wave in 1..=3 {
            let settings = with_values([[0, 0, 0], [2, 0, 0], [1, 2, 0]][(k + wave as usize) % 3]);
            let maker = Maker::Wave(wave, 1.5, frequency);
            let thds = [1, 2].map(|edition| Script::new(maker, edition, settings).line(lines, &lent(n)).floats[THD]);
            assert_eq!(thds[0] != thds[1], differ, "{n} {frequency} {wave}");
        }
    }
    for n in [64, 256] {
        put(lines, n);
    }
    for n in [33, 100, 4097, 65535, LONGEST, LONGEST + 1] {
        refused(lines, n);
    }
    wrong_editions(lines);
    wrong_numbers(lines);
}

/// Editions that a caller writes into the state between the calls.
fn put(lines: &mut Lines, n: usize) {
    for (named, put, settings) in [
        (1, 2, [0, 0, 0]),
        (1, 2, [1, 0, 0]),
        (2, 1, [2, 0, 0]),
        (2, 1, [3, 1, 0]),
        (1, 0, [1, 0, 0]),
        (2, 3, [2, 0, 0]),
        (2, 255, [1, 2, 0]),
        (1, 3, [3, 0, 0]),
        (2, 0, [1, 3, 0]),
        (2, 255, [3, 1, 0]),
        (1, 3, [2, 3, 2]),
        (3, 2, [1, 0, 0]),
        (0, 1, [2, 0, 0]),
        (255, 255, [3, 0, 0]),
    ] {
        for apart in [false, true] {
            let script = Script {
                apart,
                ..Script::new(SAWTOOTH, named, with_values(settings))
            };
            with_put(script, put).line(lines, &lent(n));
        }
    }
    for edition in [1, 2, 0, 3, 255] {
        let port = Maker::Port(2.5, -3.0, Some(50.0));
        Script::new(port, edition, with_values([0, 0, 0])).line(lines, &lent(n));
        Script::new(port, edition, with_values([3, 1, 0])).line(lines, &lent(n));
    }
}

/// On a length that is refused: 9 where the edition is unknown, and so after a refused `new`, which leaves edition 0; a reset knows no 9.
fn refused(lines: &mut Lines, n: usize) {
    for (named, put, settings) in [
        (0, None, [0, 0, 0]),
        (3, None, [0, 0, 0]),
        (255, None, [3, 0, 0]),
        (2, None, [0, 0, 0]),
        (1, None, [1, 0, 0]),
        (2, None, [2, 3, 0]),
        (1, Some(2), [2, 0, 0]),
        (3, Some(1), [1, 0, 0]),
        (1, Some(3), [1, 3, 0]),
        (2, Some(0), [3, 2, 0]),
    ] {
        for apart in [false, true] {
            Script {
                put,
                apart,
                ..Script::new(SAWTOOTH, named, with_values(settings))
            }
            .line(lines, &lent(n));
        }
    }
    for edition in [2, 0, 3] {
        Script::new(Maker::Port(2.0, 3.0, None), edition, with_values([0, 0, 0])).line(lines, &lent(n));
    }
}

// ---------------------------------------------------------------------------- held

/// The four sequences in known and unknown editions, on lengths of the grid and on those that are refused.
pub fn held(lines: &mut Lines) {
    let all = [1, 2, 0, 3, 255];
    for (n, frequency, editions) in [
        (64, 1.0, &all[..]),
        (8, 2.0, &[3]),
        (256, 7.0, &[1, 2]),
        (0, 1.0, &[2, 0]),
        (12, 1.0, &[1, 2, 3]),
        (LONGEST + 1, 1.0, &[1, 3]),
    ] {
        for edition in editions {
            for which in 1..=3 {
                held_line(which, *edition, frequency).line(lines, &lent(n));
            }
            powered(*edition).line(lines, &lent(n));
        }
    }
    wrong_held(lines);
}

fn held_line(which: u32, edition: u8, frequency: f32) -> Sequence {
    Sequence {
        which,
        shape: (3, 1.5, frequency),
        edition,
        duty: 0.3,
        phase: 100.0,
    }
}

fn powered(edition: u8) -> Powered {
    Powered {
        port: (2.0, -3.0, Some(50.0)),
        edition,
        next: 4.0,
    }
}

// ---------------------------------------------------------------------------- wrong answers

/// The same with another number.
fn number(said: &Said, code: u32) -> Said {
    Said { code, ..said.clone() }
}

/// The same with these floats of the other.
fn mixed(said: &Said, places: &[usize], other: &Said) -> Said {
    let mut said = said.clone();
    for place in places {
        said.floats[*place] = other.floats[*place];
    }
    said
}

/// The same with this edition.
fn of_edition(said: &Said, edition: u8) -> Said {
    let mut said = said.clone();
    said.floats[EDITION] = edition as f32;
    said
}

/// The edition and THD: the other's, or an edition that is lost.
fn wrong_editions(lines: &mut Lines) {
    let out = lent(64);
    for edition in [1, 2] {
        let script = Script::new(SAWTOOTH, edition, with_values([1, 0, 0]));
        let other = Script {
            edition: 3 - edition,
            ..script
        };
        let (said, other) = (script.said(&out), other.said(&out));
        for places in [
            &[EDITION][..],
            &[THD],
            &[VOLTAGE_THD],
            &[THD, VOLTAGE_THD],
            &[THD, VOLTAGE_THD, EDITION],
        ] {
            script.wrong_line(lines, &out, &mixed(&said, places, &other));
        }
        script.wrong_line(lines, &out, &of_edition(&said, 0));
        let reset = Script::new(SAWTOOTH, edition, with_values([3, 0, 0]));
        for wrong in [0, 3 - edition] {
            reset.wrong_line(lines, &out, &of_edition(&reset.said(&out), wrong));
        }
    }
}

/// The numbers: another for 9, and 9 for another; what is refused done all the same, or not left as it was.
fn wrong_numbers(lines: &mut Lines) {
    let out = lent(64);
    let named = Script::new(SAWTOOTH, 3, with_values([0, 0, 0]));
    let held = with_put(Script::new(SAWTOOTH, 2, with_values([1, 0, 0])), 3);
    for (script, known) in [
        (named, Script { edition: 1, ..named }),
        (named, Script { edition: 2, ..named }),
        (held, with_put(held, 1)),
        (held, with_put(held, 2)),
    ] {
        let (said, done) = (script.said(&out), known.said(&out));
        script.wrong_line(lines, &out, &done);
        script.wrong_line(lines, &out, &number(&done, 9));
        let written = done.out.clone();
        script.wrong_line(lines, &out, &Said { out: written, ..said });
    }
    for script in [named, held] {
        let said = script.said(&out);
        for code in [0, 4, 3] {
            script.wrong_line(lines, &out, &number(&said, code));
        }
        for edition in [1, 2] {
            script.wrong_line(lines, &out, &of_edition(&said, edition));
        }
    }
    named.wrong_line(lines, &out, &of_edition(&named.said(&out), 3));
    held.wrong_line(lines, &out, &named.said(&out));
    let reset = with_put(Script::new(SAWTOOTH, 2, with_values([3, 0, 0])), 3);
    reset.wrong_line(lines, &out, &number(&reset.said(&out), 9));
    reset.wrong_line(lines, &out, &of_edition(&reset.said(&out), 0));
    wrong_order(lines);
}

/// 9 before 4 and before 3, and those where the edition is known or no THD is worked out.
fn wrong_order(lines: &mut Lines) {
    for (n, code) in [(33, 4), (LONGEST + 1, 3)] {
        let out = lent(n);
        let apart = |put: u8, settings: [u32; 3]| Script {
            apart: true,
            ..with_put(Script::new(SAWTOOTH, 1, with_values(settings)), put)
        };
        for (script, right) in [
            (Script::new(SAWTOOTH, 3, with_values([0, 0, 0])), 9),
            (Script::new(SAWTOOTH, 1, with_values([1, 0, 0])), 9),
            (Script::new(Maker::Port(2.0, 3.0, None), 0, with_values([0, 0, 0])), 9),
            (apart(3, [2, 0, 0]), 9),
            (Script::new(SAWTOOTH, 2, with_values([0, 0, 0])), code),
            (Script::new(SAWTOOTH, 1, with_values([3, 0, 0])), code),
            (apart(2, [1, 0, 0]), code),
            (apart(3, [3, 0, 0]), code),
        ] {
            let said = script.said(&out);
            assert_eq!(said.code, right);
            script.wrong_line(lines, &out, &number(&said, 9 + code - right));
            script.wrong_line(lines, &out, &number(&said, 0));
        }
    }
}

/// The same of the sequences.
fn wrong_held(lines: &mut Lines) {
    let (good, off) = (lent(64), lent(12));
    for which in 1..=3 {
        let known = held_line(which, 2, 1.0);
        let (said, other) = (known.said(&good), held_line(which, 1, 1.0).said(&good));
        known.wrong_line(lines, &good, &of_edition(&said, 1));
        known.wrong_line(lines, &good, &of_edition(&said, 0));
        if which != 2 {
            known.wrong_line(lines, &good, &mixed(&said, &[THD], &other));
        }
        let unknown = held_line(which, 3, 1.0);
        let said = unknown.said(&good);
        let other = if which == 2 { 9 } else { 0 };
        for code in [other, 4] {
            unknown.wrong_line(lines, &good, &number(&said, code));
        }
        unknown.wrong_line(lines, &good, &of_edition(&said, 3));
        for sequence in [unknown, known] {
            let said = sequence.said(&off);
            sequence.wrong_line(lines, &off, &number(&said, 13 - said.code));
            sequence.wrong_line(lines, &off, &number(&said, 0));
        }
    }
    let said = powered(3).said(&good);
    for code in [0, 4] {
        powered(3).wrong_line(lines, &good, &number(&said, code));
    }
    powered(3).wrong_line(lines, &good, &powered(1).said(&good));
    powered(3).wrong_line(lines, &off, &number(&powered(3).said(&off), 4));
    powered(1).wrong_line(lines, &off, &number(&powered(1).said(&off), 9));
}
