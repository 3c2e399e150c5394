//! Capture lines, against the reader and the writer of lines.rs.

use crate::common::{black_box, Check, Log, Random, Table};
use crate::lines::{self, Pair, LONGEST};
use crate::mutate::{capture, codes, grouped, mutate, rooms, short_captures, small_capture};
use crate::wall::{fenced, lent, Wall};
use tilljingle::raw::{tj_read_capture, tj_write_capture, Read, Written};

/// Mutated captures of a full comparison.
pub const ROUNDS: u64 = 2_000_000;

fn library_read(text: &[u8], volts: &mut [i16], amps: &mut [i16]) -> Read {
    unsafe {
        tj_read_capture(
            text.as_ptr(),
            text.len(),
            volts.as_mut_ptr(),
            volts.len(),
            amps.as_mut_ptr(),
            amps.len(),
        )
    }
}

fn library_write(volts: &[i16], amps: &[i16], first: u16, text: &mut [u8]) -> Written {
    unsafe {
        tj_write_capture(
            volts.as_ptr(),
            volts.len(),
            amps.as_ptr(),
            amps.len(),
            first,
            text.as_mut_ptr(),
            text.len(),
        )
    }
}

// ---------------------------------------------------------------------------- one call

/// What stood in the lent slices before.
const VOLT: i16 = 0x5A5A;
const AMP: i16 = -0x3C3C;
const BYTE: u8 = 0xEE;

/// Reads by both, and compares the answers and all that was lent, with what stands around it.
pub struct Reader {
    wall: Wall,
    /// How often each number was answered.
    pub answers: [u64; 8],
}

impl Reader {
    /// For texts of at most so many bytes.
    pub fn new(bytes: usize) -> Reader {
        Reader {
            wall: Wall::new(bytes),
            answers: [0; 8],
        }
    }

    /// Into slices of these lengths. The reference's answer comes back.
    pub fn see(&mut self, log: &mut Log, check: Check, text: &[u8], nv: usize, na: usize) -> Read {
        let (mut our_v, mut our_a) = (fenced(nv, VOLT), fenced(na, AMP));
        let (mut their_v, mut their_a) = (fenced(nv, VOLT), fenced(na, AMP));
        let walled = self.wall.holding(text);
        let ours = library_read(black_box(walled), lent(&mut our_v), lent(&mut our_a));
        let theirs = lines::read(text, lent(&mut their_v), lent(&mut their_a));
        let same = ours == theirs && our_v == their_v && our_a == their_a && walled == text;
        log.see(check, same, || {
            let shown = String::from_utf8_lossy(&text[..text.len().min(400)]).into_owned();
            format!("{:?}, room {} {}: {:?}, the reference {:?}", shown, nv, na, ours, theirs)
        });
        self.answers[theirs.code as usize] += 1;
        theirs
    }
}

/// Writes by both into a text of this length, and compares as `Reader` does. What the library answered and left comes back.
fn see_write(log: &mut Log, check: Check, volts: &[i16], amps: &[i16], first: u16, room: usize) -> (Written, Vec<u8>) {
    let (mut our_t, mut their_t) = (fenced(room, BYTE), fenced(room, BYTE));
    let ours = library_write(volts, amps, first, lent(&mut our_t));
    let theirs = lines::write(volts, amps, first, lent(&mut their_t));
    log.see(check, ours == theirs && our_t == their_t, || {
        let lengths = format!("{} and {} codes", volts.len(), amps.len());
        format!("{} from {}, room {}: {:?}, the reference {:?}", lengths, first, room, ours, theirs)
    });
    (ours, lent(&mut our_t).to_vec())
}

/// Whether the library reads just these pairs from the text.
fn reads_as(text: &[u8], pairs: &[Pair]) -> bool {
    let (mut volts, mut amps) = (vec![VOLT; pairs.len()], vec![AMP; pairs.len()]);
    let answer = library_read(text, &mut volts, &mut amps);
    let done = Read {
        code: 0,
        line: 0,
        pairs: pairs.len(),
    };
    answer == done && volts.into_iter().zip(amps).eq(pairs.iter().copied())
}

// ---------------------------------------------------------------------------- short captures, exhaustively

/// Every change of one byte, every truncation, removal and insertion.
fn changes(log: &mut Log, reader: &mut Reader) {
    let changed = log.check("tj_read_capture: each byte of short captures set to each of 256 values");
    let inserted = log.check("tj_read_capture: each of 256 values put in at each place of short captures");
    let cut = log.check("tj_read_capture: short captures cut off or begun at each place, or without the byte there");
    for text in short_captures() {
        for at in 0..=text.len() {
            reader.see(log, cut, &text[..at], 40, 40);
            reader.see(log, cut, &text[at..], 40, 40);
            if at < text.len() {
                let mut shorter = text.clone();
                shorter.remove(at);
                reader.see(log, cut, &shorter, 40, 40);
            }
            for value in 0..=255 {
                let mut longer = text.clone();
                longer.insert(at, value);
                reader.see(log, inserted, &longer, 40, 40);
                if at < text.len() {
                    longer.remove(at + 1);
                    reader.see(log, changed, &longer, 40, 40);
                }
            }
        }
    }
}

/// Every change of two bytes of one line, and every text of at most two bytes.
fn twice(log: &mut Log, reader: &mut Reader) {
    let changed = log.check("tj_read_capture: each two bytes of one line set to each of 65,536 values");
    let tiny = log.check("tj_read_capture: each text of at most two bytes");
    let line = b"0000010001FFFF00\n";
    for value in 0..=u16::MAX {
        let [high, low] = value.to_be_bytes();
        for one in 0..line.len() {
            for other in one + 1..line.len() {
                let mut text = *line;
                text[one] = high;
                text[other] = low;
                reader.see(log, changed, &text, 2, 2);
            }
        }
        reader.see(log, tiny, &[high, low], 2, 2);
    }
    for value in 0..=255 {
        reader.see(log, tiny, &[value], 2, 2);
    }
    reader.see(log, tiny, &[], 2, 2);
}

/// The lengths of the parts into which the bits of `cuts` cut n pairs.
fn parts(n: usize, cuts: u32) -> Vec<usize> {
    let mut counts = vec![1];
    for place in 0..n - 1 {
        match (cuts >> place & 1, counts.last_mut()) {
            (0, Some(last)) => *last += 1,
            _ => counts.push(1),
        }
    }
    counts
}

/// Up to 18 pairs, grouped into lines in every way; and two captures in one text.
fn splits(log: &mut Log, reader: &mut Reader) {
    let grouping = log.check("tj_read_capture: 1 to 18 pairs, grouped into lines in every way");
    let same = log.check("tj_read_capture: the same pairs from every grouping into lines of at most 16");
    let joined = log.check("tj_read_capture: a short capture put into another at each place, or its end replaced");
    let mut random = Random::new(16);
    for n in 1..=18 {
        let pairs = codes(&mut random, n);
        for cuts in 0..1u32 << (n - 1) {
            let counts = parts(n, cuts);
            let text = grouped(&pairs, 65_530, &counts);
            let room = n - (cuts % 7 == 0) as usize;
            reader.see(log, grouping, &text, room, n);
            if counts.iter().all(|count| *count <= 16) {
                log.see(same, reads_as(&text, &pairs), || format!("{:?}", counts));
            }
        }
    }
    let shorts = short_captures();
    for text in &shorts {
        for other in &shorts {
            for at in 0..=text.len() {
                let mut both = [&text[..at], other.as_slice()].concat();
                reader.see(log, joined, &both, 40, 40);
                both.extend(&text[at..]);
                reader.see(log, joined, &both, 40, 40);
            }
        }
    }
}

// ---------------------------------------------------------------------------- large and random captures

/// Reads it with rooms around its pairs, then with a wrong digit and a missing end in its last line.
fn see_around(log: &mut Log, check: Check, reader: &mut Reader, mut text: Vec<u8>, total: usize) {
    let less = total.saturating_sub(1);
    for (nv, na) in [(total, total), (less, total), (total, less), (total + 7, total + 1), (0, 0), (70_000, 70_000)] {
        reader.see(log, check, &text, nv, na);
    }
    let last = text.len() - 2;
    text[last] = if text[last] == b'0' { b'1' } else { b'0' };
    reader.see(log, check, &text, total, total);
    text.truncate(last + 1);
    reader.see(log, check, &text, total, total);
}

/// Captures around the limit of pairs, and random ones up to it.
fn large(log: &mut Log, reader: &mut Reader) {
    let around = log.check("tj_read_capture: 65,535 to 65,552 pairs, 1, 3 or 16 a line, with room and without");
    let anyhow = log.check("tj_read_capture: 1 to 66,000 pairs, grouped at random, with room and without");
    let mut random = Random::new(12);
    for total in [65_535, 65_536, 65_537, 65_552] {
        for most in [1, 3, 16] {
            let mut counts = vec![most; total / most];
            counts.extend(Some(total % most).filter(|rest| *rest > 0));
            let text = capture(&mut random, 65_000, &counts);
            see_around(log, around, reader, text, total);
        }
    }
    for _ in 0..400 {
        let bound = 1 << random.below(18);
        let wanted = random.below(bound.min(66_000)) as usize + 1;
        let mut counts: Vec<usize> = Vec::new();
        let mut total = 0;
        while total < wanted {
            counts.push(random.below(16) as usize + 1);
            total += counts[counts.len() - 1];
        }
        let first = random.bits() as u16;
        let text = capture(&mut random, first, &counts);
        see_around(log, anyhow, reader, text, total);
    }
}

/// Small captures with none to three changes.
fn mutated(rounds: u64, log: &mut Log, reader: &mut Reader) {
    let check = log.check("tj_read_capture: mutated captures");
    let mut random = Random::new(13);
    for _ in 0..rounds {
        let mut text = small_capture(&mut random);
        for _ in 0..random.below(4) {
            mutate(&mut random, &mut text);
        }
        let pairs = lines::pairs_of(&text).map_or(0, |pairs| pairs.len());
        let (nv, na) = rooms(&mut random, pairs);
        reader.see(log, check, &text, nv, na);
    }
}

// ---------------------------------------------------------------------------- the writer

/// The bytes that n pairs take.
fn bytes_of(n: usize) -> usize {
    8 * n + 9 * ((n + 15) / 16)
}

/// Every length to 130, lengths around the limits, and random ones: with room and without, and beside a slice of another length.
fn writer(rounds: u64, log: &mut Log) {
    let check = log.check("tj_write_capture");
    let back = log.check("tj_read_capture: the pairs that tj_write_capture wrote");
    let mut random = Random::new(14);
    let mut lengths: Vec<usize> = (0..=130).collect();
    lengths.extend([4095, 4096, 65_535, 65_536, 65_537, 65_600]);
    lengths.extend((0..rounds / 100).map(|_| random.below(300) as usize));
    for n in lengths {
        let pairs = codes(&mut random, n);
        let (volts, mut amps): (Vec<i16>, Vec<i16>) = pairs.iter().copied().unzip();
        let first = random.pick(&[0, 1, 65535, 65000, 0x1234]);
        let need = bytes_of(n);
        for room in [need, need + 3, need.saturating_sub(1), 0] {
            let (answer, text) = see_write(log, check, &volts, &amps, first, room);
            if answer.code == 0 {
                log.see(back, reads_as(&text[..answer.bytes], &pairs), || format!("{:?} from {}", pairs, first));
            }
        }
        // another length: one more, and any
        let other = random.pick(&[n + 1, n + 1, n / 2, 0, LONGEST, LONGEST + 1]);
        amps.resize(other, -1);
        for room in [need + 9, 0] {
            see_write(log, check, &volts, &amps, first, room);
            see_write(log, check, &amps, &volts, first, room);
        }
    }
}

pub fn compare(rounds: u64, log: &mut Log) {
    // the longest: 66,016 lines of one pair
    let mut reader = Reader::new(17 * 66_016);
    changes(log, &mut reader);
    twice(log, &mut reader);
    splits(log, &mut reader);
    large(log, &mut reader);
    mutated(rounds, log, &mut reader);
    println!("read_capture answered 0 to 7 so often: {:?}", reader.answers);
    writer(rounds, log);
}

pub fn bench(table: &mut Table) {
    let mut random = Random::new(15);
    let text = capture(&mut random, 0, &[16; LONGEST / 16]);
    let (mut volts, mut amps) = (vec![0; LONGEST], vec![0; LONGEST]);
    let (mut their_v, mut their_a) = (vec![0; LONGEST], vec![0; LONGEST]);
    table.row(
        "read_capture of n bytes, against oracle/src/lines.rs",
        text.len(),
        || assert_eq!(lines::read(black_box(&text), &mut their_v, &mut their_a).pairs, LONGEST),
        || assert_eq!(library_read(black_box(&text), &mut volts, &mut amps).pairs, LONGEST),
    );
    let (mut ours, mut theirs) = (vec![0; text.len()], vec![0; text.len()]);
    table.row(
        "write_capture of n bytes, against oracle/src/lines.rs",
        text.len(),
        || assert_eq!(lines::write(black_box(&their_v), &their_a, 0, &mut theirs).code, 0),
        || assert_eq!(library_write(black_box(&volts), &amps, 0, &mut ours).code, 0),
    );
}
