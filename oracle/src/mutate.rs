//! Captures to read: right ones, and changes of them.

use crate::common::Random;
use crate::lines::{frame, line_of, Pair};

/// Codes of every size, the ends of the range among them.
pub fn codes(random: &mut Random, n: usize) -> Vec<Pair> {
    let edges = [0, 1, -1, i16::MAX, i16::MIN, 100, -100];
    (0..n)
        .map(|_| match random.below(3) {
            0 => (random.pick(&edges), random.pick(&edges)),
            _ => (random.bits() as i16, random.bits() as i16),
        })
        .collect()
}

/// These pairs in lines of so many each, numbered from `first`.
pub fn grouped(pairs: &[Pair], first: u16, counts: &[usize]) -> Vec<u8> {
    let mut text = Vec::new();
    let mut rest = pairs;
    for (k, count) in counts.iter().enumerate() {
        let (line, more) = rest.split_at(*count);
        text.extend(line_of(first.wrapping_add(k as u16), line));
        rest = more;
    }
    text
}

/// Random pairs in lines of so many each, numbered from `first`.
pub fn capture(random: &mut Random, first: u16, counts: &[usize]) -> Vec<u8> {
    let pairs = codes(random, counts.iter().sum());
    grouped(&pairs, first, counts)
}

/// The captures from which changes start.
pub fn short_captures() -> Vec<Vec<u8>> {
    let mut random = Random::new(11);
    vec![
        Vec::new(),
        b"0000010001FFFF00\n".to_vec(),
        b"00010200640032FF9CFFCEFF\n".to_vec(),
        capture(&mut random, 65535, &[1, 1]),
        capture(&mut random, 7, &[2, 1, 3]),
        capture(&mut random, 0xABCD, &[16, 2]),
    ]
}

/// A capture of none to six lines, whose numbers pass 65,535 often; now and then with a count that no line may have.
pub fn small_capture(random: &mut Random) -> Vec<u8> {
    let first = random.pick(&[0, 1, 65533, 65534, 65535, 4660]);
    let lines = random.pick(&[0, 1, 1, 2, 2, 3, 4, 6]);
    let counts: Vec<usize> = (0..lines)
        .map(|_| match random.below(60) {
            0 => random.pick(&[0, 17]),
            _ => random.pick(&[1, 1, 2, 3, 5, 15, 16, 16]),
        })
        .collect();
    capture(random, first, &counts)
}

/// Bytes at which a reader's tests change.
const EDGES: &[u8] = b"0123456789ABCDEF\n\n\r /:@G`afg\0\x7f\x80\xff";

/// One change of any of many kinds.
pub fn mutate(random: &mut Random, text: &mut Vec<u8>) {
    let at = random.below(text.len() as u64 + 1) as usize;
    let end = (at + random.below(40) as usize).min(text.len());
    let inside = at < text.len();
    match random.below(13) {
        0 if inside => text[at] = random.pick(EDGES),
        1 if inside => text[at] = random.bits() as u8,
        2 if inside => text[at] ^= 1 << random.below(8),
        3 => text.insert(at, random.pick(EDGES)),
        4 if inside => drop(text.remove(at)),
        5 => text.truncate(at),
        6 => {
            let part = text[at..end].to_vec();
            let to = random.below(text.len() as u64 + 1) as usize;
            text.splice(to..to, part);
        }
        7 => drop(text.drain(at..end)),
        8 => rewrite(random, text, |random, number, pairs| {
            (number.wrapping_add(random.pick(&[1, 2, 65535])), pairs)
        }),
        9 => rewrite(random, text, |random, number, mut pairs| {
            let kept = random.below(17) as usize;
            pairs.truncate(kept);
            (number, pairs)
        }),
        10 => renumber(text),
        11 => mend(text),
        _ => text.extend(small_capture(random)),
    }
}

/// The lines of a text, each with its line feed.
fn lines_of(text: &[u8]) -> Vec<Vec<u8>> {
    text.split_inclusive(|b| *b == b'\n').map(<[u8]>::to_vec).collect()
}

/// The number and the pairs of a line that has its line feed and is right.
fn right_line(line: &[u8]) -> Option<(u16, Vec<Pair>)> {
    frame(line.strip_suffix(b"\n")?).ok()
}

/// Writes one line of the text anew, changed, with its sum.
fn rewrite(random: &mut Random, text: &mut Vec<u8>, change: impl Fn(&mut Random, u16, Vec<Pair>) -> (u16, Vec<Pair>)) {
    let mut lines = lines_of(text);
    if lines.is_empty() {
        return;
    }
    let chosen = random.below(lines.len() as u64) as usize;
    if let Some((number, pairs)) = right_line(&lines[chosen]) {
        let (number, pairs) = change(random, number, pairs);
        lines[chosen] = line_of(number, &pairs);
        *text = lines.concat();
    }
}

/// Numbers the right lines one after the other, as the first of them begins.
fn renumber(text: &mut Vec<u8>) {
    let mut due = None;
    let mut lines = lines_of(text);
    for line in &mut lines {
        if let Some((number, pairs)) = right_line(line) {
            let number = due.unwrap_or(number);
            *line = line_of(number, &pairs);
            due = Some(number.wrapping_add(1));
        }
    }
    *text = lines.concat();
}

/// Gives every line of the right form its right sum.
fn mend(text: &mut Vec<u8>) {
    let mut lines = lines_of(text);
    for line in lines.iter_mut().filter(|line| line.ends_with(b"\n")) {
        let end = line.len() - 1;
        let mut sum = 0..=255;
        while frame(&line[..end]) == Err(6) {
            let digits = format!("{:02X}", sum.next().expect("one of 256 sums is right"));
            line[end - 2..end].copy_from_slice(digits.as_bytes());
        }
    }
    *text = lines.concat();
}

/// Rooms that are short, exact, longer and unequal.
pub fn rooms(random: &mut Random, pairs: usize) -> (usize, usize) {
    let mut one = || match random.below(6) {
        0 => pairs.saturating_sub(1),
        1 => pairs,
        2 => pairs + 1,
        3 => 0,
        _ => pairs + 40,
    };
    (one(), one())
}
