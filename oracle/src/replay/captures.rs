//! Capture lines, read and written; the power of codes; the report.

use super::wrong::{text_fields, Field, PAIR};
use super::{Given, Lines, Said};
use crate::common::Random;
use crate::lines;
use crate::mutate::{self, mutate};
use crate::report;
use crate::signal::compute_power;
use tilljingle::raw::Read;

/// A voltage and a current code in a word.
pub fn pairs(volts: &[i16], amps: &[i16]) -> Vec<u32> {
    let word = |(volt, amp): (&i16, &i16)| (*volt as u16 as u32) << 16 | *amp as u16 as u32;
    volts.iter().zip(amps).map(word).collect()
}

/// Four bytes in a word; the last word is filled up with zeros.
fn packed(text: &[u8]) -> Vec<u32> {
    let at = |four: &[u8], k: usize| four.get(k).copied().unwrap_or(0);
    text.chunks(4)
        .map(|four| u32::from_be_bytes([0, 1, 2, 3].map(|k| at(four, k))))
        .collect()
}

/// A call that is given words alone, and answers a number; some of them are what it answers, or what stands somewhere afterwards.
pub fn ended(lines: &mut Lines, which: u32, words: Vec<u32>, answers: Vec<(usize, Field)>, code: u32) {
    let given = Given {
        answers,
        ..Given::numbers(words)
    };
    let said = Said {
        code,
        ..Said::default()
    };
    lines.line(which, &given, &said);
}

/// A capture of up to 20 pairs in a few lines, often spoiled in one place.
fn text(random: &mut Random) -> Vec<u8> {
    let mut number = random.pick(&[0, 1, 0xFFFE, 0xFFFF, 0x1234]);
    let mut text = Vec::new();
    for _ in 0..random.below(4) {
        let most = random.pick(&[2, 4, 6]);
        let pairs: Vec<lines::Pair> = (0..=random.below(most))
            .map(|_| (random.bits() as i16, random.bits() as i16))
            .collect();
        text.extend(lines::line_of(number, &pairs));
        number = number.wrapping_add(if random.below(8) == 0 { 2 } else { 1 });
    }
    if !text.is_empty() {
        let at = random.below(text.len() as u64) as usize;
        match random.below(12) {
            0 => text[at] = random.pick(b"0F9A\nag G"),
            1 => drop(text.remove(at)),
            2 => text.insert(at, random.pick(b"0F\r\n ")),
            3 => drop(text.pop()),
            4 => text[at] = text[at].wrapping_add(1),
            _ => (),
        }
    }
    text.truncate(192);
    text
}

/// Captures read and written by `lines`; the rooms have 20 places.
pub fn capture(lines: &mut Lines) {
    for _ in 0..250 {
        let text = text(&mut lines.random);
        let needed = lines::pairs_of(&text).map_or(3, |pairs| pairs.len() as u64);
        let [nv, na] = [0; 2].map(|_| {
            lines
                .random
                .pick(&[needed, needed, needed + 1, 20, 20, needed.max(1) - 1])
                .min(20) as usize
        });
        read_into(lines, &text, nv, na);
    }
    writes(lines);
    // 01: "Sequence FFFF then 0000 is good, FFFF twice gives 7."
    for (second, expected) in [(0, (0, 0, 2)), (0xFFFF, (7, 2, 0))] {
        let text = [lines::line_of(0xFFFF, &[(1, -1)]), lines::line_of(second, &[(2, -2)])].concat();
        let read = read_into(lines, &text, 20, 20);
        assert_eq!((read.code, read.line, read.pairs), expected);
    }
}

/// Reads a capture into so many places of 20.
fn read_into(lines: &mut Lines, text: &[u8], nv: usize, na: usize) -> Read {
    let (mut volts, mut amps) = ([7; 20], [8; 20]);
    let read = lines::read(text, &mut volts[..nv], &mut amps[..na]);
    let mut words = vec![text.len() as u32, nv as u32, na as u32];
    words.extend(pairs(&volts, &amps));
    words.extend(packed(text));
    let code = read.code as u32 + 16 * read.line as u32 + 65_536 * read.pairs as u32;
    ended(lines, 1, words, (3..23).map(|k| (k, PAIR)).collect(), code);
    read
}

fn writes(lines: &mut Lines) {
    for round in 0..150 {
        let codes = [0; 40].map(|_| lines.random.bits() as i16);
        let (volts, amps) = codes.split_at(20);
        let nv = lines.random.below(21) as usize;
        let na = if round % 10 == 0 {
            lines.random.below(21) as usize
        } else {
            nv
        };
        let first = lines.random.pick(&[0, 7, 0xFFFF, 0xABCD]);
        let mut text = [b'.'; 192];
        let needed = lines::write(&volts[..nv], &amps[..na], first, &mut text).bytes;
        let room = lines
            .random
            .pick(&[needed, needed, needed + 1, 192, needed.max(1) - 1])
            .min(192);
        text = [b'.'; 192];
        let written = lines::write(&volts[..nv], &amps[..na], first, &mut text[..room]);
        let mut words = vec![first as u32, room as u32, nv as u32, na as u32];
        words.extend(pairs(volts, amps));
        words.extend(packed(&text[..room]));
        let code = written.code as u32 + 16 * written.bytes as u32;
        ended(lines, 2, words, text_fields(24, room), code);
    }
}

/// The Rust's power of these codes as f32; where the lengths differ 1, where there are more than 65,536 3, and all zero.
pub fn power(volts: &[i16], amps: &[i16]) -> Said {
    let code = match (volts.len(), amps.len()) {
        (n, m) if n.max(m) > lines::LONGEST => 3,
        (n, m) => (n != m) as u32,
    };
    let samples = |codes: &[i16]| -> Vec<f32> { codes.iter().map(|code| *code as f32).collect() };
    let (p, q, s, pf) = match code {
        0 => compute_power(&samples(volts), &samples(amps), 1.0),
        _ => (0.0, 0.0, 0.0, 0.0),
    };
    Said {
        code,
        ..Said::floats(vec![p, q, s, pf])
    }
}

/// Every tenth pair of slices has lengths of its own.
pub fn codes(lines: &mut Lines) {
    for round in 0..240 {
        let (volts, amps): (Vec<i16>, Vec<i16>) = mutate::codes(&mut lines.random, 20).into_iter().unzip();
        let nv = lines.random.below(21) as usize;
        let na = if round % 10 == 0 {
            lines.random.below(21) as usize
        } else {
            nv
        };
        let mut words = vec![nv as u32, na as u32];
        words.extend(pairs(&volts, &amps));
        lines.line(4, &Given::numbers(words), &power(&volts[..nv], &amps[..na]));
    }
}

/// The bytes of a report's input that a line has room for, and those of the room for the report.
const INPUT: usize = 640;
const PRINTED: usize = 96;

/// What is printed into so many bytes of room.
fn reported(lines: &mut Lines, input: &[u8], room: usize) {
    let text = report::reference_report(input);
    let mut printed = [b'.'; PRINTED];
    let code = match printed[..room].get_mut(..text.len()) {
        Some(front) => {
            front.copy_from_slice(&text);
            16 * text.len() as u32
        }
        None => 2,
    };
    let mut words = vec![input.len() as u32, room as u32];
    words.extend(packed(&printed));
    words.extend(packed(input));
    ended(lines, 3, words, text_fields(2, room), code);
}

/// The edges that have room here, each with much, enough, too little and no room; then captures of a few lines, every other one changed.
pub fn report(lines: &mut Lines) {
    let edges = report::edges(&mut lines.random);
    for input in edges.iter().filter(|input| input.len() <= INPUT) {
        let needed = report::reference_report(input).len();
        for room in [PRINTED, needed + 1, needed, needed - 1, 0] {
            reported(lines, input, room);
        }
    }
    for round in 0..220 {
        let most = lines.random.pick(&[1, 3, 7]);
        let counts: Vec<usize> = (0..lines.random.below(8))
            .map(|_| 1 + lines.random.below(most) as usize)
            .collect();
        let first = lines.random.pick(&[0, 1, 0xFFFA, 0xFFFF, 0x1234]);
        let mut input = mutate::capture(&mut lines.random, first, &counts);
        if round % 2 == 0 {
            mutate(&mut lines.random, &mut input);
            input.truncate(INPUT);
        }
        let needed = report::reference_report(&input).len();
        let room = lines.random.pick(&[needed, needed, needed + 1, PRINTED, needed - 1]);
        reported(lines, &input, room);
    }
}
