//! Mutations of captures for as long as wanted, the reference beside.

use crate::capture::Reader;
use crate::common::{Log, Random};
use crate::mutate::{mutate, short_captures};
use crate::report::see_call;
use crate::wall::Wall;
use std::collections::HashSet;
use std::time::{Duration, Instant};

/// The longest capture that others are made from.
const LONG: usize = 4000;

/// Changes captures of a corpus for so many minutes. One whose answer, length in lines or pairs is new joins the corpus.
pub fn fuzz(minutes: u64, seed: u64, log: &mut Log) {
    let check = log.check("tj_read_capture: fuzzed captures");
    let report = log.check("tj_report_text: the same");
    let mut reader = Reader::new(4 * LONG);
    let mut wall = Wall::new(4 * LONG);
    let mut random = Random::new(seed);
    let mut corpus = short_captures();
    let mut kinds = HashSet::new();
    let start = Instant::now();
    while start.elapsed() < Duration::from_secs(60 * minutes) {
        for _ in 0..1000 {
            let mut text = corpus[random.below(corpus.len() as u64) as usize].clone();
            for _ in 0..random.below(6) + 1 {
                mutate(&mut random, &mut text);
            }
            text.truncate(2 * LONG);
            let (nv, na) = (random.below(600) as usize, random.below(600) as usize);
            let answer = reader.see(log, check, &text, nv, na);
            see_call(log, report, &mut wall, &text, random.below(4) as isize - 1);
            let lines = text.iter().filter(|b| **b == b'\n').count();
            if text.len() <= LONG && kinds.insert((answer, lines)) {
                corpus.push(text);
            }
        }
    }
    println!(
        "seed {}, {} minutes, {} captures in the corpus",
        seed,
        minutes,
        corpus.len()
    );
    println!("answered 0 to 7 so often: {:?}", reader.answers);
}
