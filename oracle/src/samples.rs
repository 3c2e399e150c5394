//! An offset, a factor, and the sum of two signals: every place afterwards, and the refusals.

use crate::common::{all_same32, bits32, black_box, edges32, list32, Check, Kind, Log, Random, Table, KINDS};
use crate::signal::{add_dc_offset, add_signals, scale};
use std::cell::RefCell;
use tilljingle::raw::{tj_add_dc_offset, tj_add_signals, tj_scale};

/// Random lists of a full comparison, for each call.
pub const ROUNDS: u64 = 1_000_000;

fn our_offset(samples: &mut [f32], offset: f32) -> u8 {
    unsafe { tj_add_dc_offset(samples.as_mut_ptr(), samples.len(), offset) }
}

fn our_scale(samples: &mut [f32], factor: f32) -> u8 {
    unsafe { tj_scale(samples.as_mut_ptr(), samples.len(), factor) }
}

fn our_sum(a: &[f32], b: &[f32], output: &mut [f32]) -> u8 {
    unsafe { tj_add_signals(a.as_ptr(), a.len(), b.as_ptr(), b.len(), output.as_mut_ptr(), output.len()) }
}

/// A few values of every sort.
const VALUES: [f32; 7] = [-1.5, -0.0, 0.1, f32::MAX, f32::NEG_INFINITY, f32::NAN, 1e-45];

/// The most places that are taken.
const LONGEST: usize = 65536;

/// Lengths about the ends of blocks of 32 places.
const BLOCKS: [usize; 12] = [31, 32, 33, 63, 64, 65, 95, 96, 97, 127, 128, 129];

struct Checks {
    offset: Check,
    scale: Check,
    sum: Check,
    refused: Check,
}

impl Checks {
    fn open(log: &mut Log) -> Checks {
        Checks {
            offset: log.check("tj_add_dc_offset: 0, and each place the Rust's"),
            scale: log.check("tj_scale: 0, and each place the Rust's"),
            sum: log.check("tj_add_signals: 0, and each place of the output the Rust's"),
            refused: log.check("more than 65,536 places: 3, and nothing written"),
        }
    }

    /// The two calls on one list.
    fn one(&self, log: &mut Log, samples: &[f32], x: f32) {
        let words = || format!("{} with {}", list32(samples), bits32(x));
        let (mut ours, mut theirs) = (samples.to_vec(), samples.to_vec());
        let code = our_offset(&mut ours, x);
        add_dc_offset(&mut theirs, x);
        log.see(self.offset, code == 0 && all_same32(&ours, &theirs), words);
        let (mut ours, mut theirs) = (samples.to_vec(), samples.to_vec());
        let code = our_scale(&mut ours, x);
        scale(&mut theirs, x);
        log.see(self.scale, code == 0 && all_same32(&ours, &theirs), words);
    }

    /// The sum of two lists into a third.
    fn two(&self, log: &mut Log, a: &[f32], b: &[f32], output: &[f32]) {
        let (mut ours, mut theirs) = (output.to_vec(), output.to_vec());
        let code = our_sum(a, b, &mut ours);
        add_signals(a, b, &mut theirs);
        log.see(self.sum, code == 0 && all_same32(&ours, &theirs), || {
            format!("{} and {} into {}", list32(a), list32(b), list32(output))
        });
    }

    /// Calls that are refused leave this list as it is.
    fn too_long(&self, log: &mut Log, long: &[f32], short: &[f32]) {
        let calls: [&dyn Fn(&mut [f32]) -> u8; 4] = [
            &|out| our_offset(out, 1.0),
            &|out| our_scale(out, 2.0),
            &|out| our_sum(long, short, out),
            &|out| our_sum(short, long, out),
        ];
        for (number, call) in calls.iter().enumerate() {
            let mut out = long.to_vec();
            let code = call(&mut out);
            let kept = out.iter().zip(long).all(|(x, y)| x.to_bits() == y.to_bits());
            log.see(self.refused, code == 3 && kept, || format!("call {number}: {code}"));
        }
    }
}

/// Every length to 40 and about the ends of blocks, with every pair of values and every offset or factor among `VALUES`, and all edges against all.
fn small(checks: &Checks, log: &mut Log) {
    for n in (0..=40).chain(BLOCKS) {
        for v in VALUES {
            for w in VALUES {
                let list: Vec<f32> = (0..n).map(|i| if i % 2 == 0 { v } else { w }).collect();
                for x in VALUES {
                    checks.one(log, &list, x);
                }
                checks.two(log, &list, &vec![w; n], &vec![0.25; n + 1]);
            }
        }
    }
    let edges = edges32();
    for x in &edges {
        checks.one(log, &edges, *x);
        checks.two(log, &edges, &vec![*x; edges.len()], &edges);
    }
}

/// Every three lengths to 20, some near 40, and about the ends of blocks.
fn lengths(checks: &Checks, log: &mut Log, random: &mut Random) {
    let all: Vec<usize> = (0..=20).chain([39, 40]).chain(BLOCKS).collect();
    for a in &all {
        for b in &all {
            for out in &all {
                let lists = [a, b, out].map(|n| random.samples(Kind::Mixed, *n));
                checks.two(log, &lists[0], &lists[1], &lists[2]);
            }
        }
    }
}

pub fn compare(rounds: u64, log: &mut Log) {
    let checks = Checks::open(log);
    let mut random = Random::new(3);
    small(&checks, log);
    lengths(&checks, log, &mut random);
    for _ in 0..rounds {
        let kind = random.pick(&KINDS);
        let lists = [0; 3].map(|_| {
            let n = random.below(161) as usize;
            random.samples(kind, n)
        });
        let x = random.sample(Kind::Mixed);
        checks.one(log, &lists[0], x);
        checks.two(log, &lists[0], &lists[1], &lists[2]);
    }
    // the limit, on both sides
    for kind in KINDS {
        let full = random.samples(kind, LONGEST);
        let long = random.samples(kind, LONGEST + 1);
        checks.one(log, &full, 1.25);
        checks.two(log, &full, &full, &long);
        checks.two(log, &full, &full[..7], &long);
        checks.too_long(log, &long, &full[..7]);
    }
}

pub fn bench(table: &mut Table) {
    let mut random = Random::new(4);
    for n in [4096, LONGEST] {
        let (a, b) = (random.samples(Kind::Small, n), random.samples(Kind::Small, n));
        // both write to the same places: where a slice lies decides as much as the loop over it
        let out = RefCell::new(a.clone());
        table.row(
            "add_dc_offset",
            n,
            || add_dc_offset(black_box(&mut out.borrow_mut()), black_box(0.0)),
            || drop(black_box(our_offset(black_box(&mut out.borrow_mut()), black_box(0.0)))),
        );
        table.row(
            "scale",
            n,
            || scale(black_box(&mut out.borrow_mut()), black_box(-1.0)),
            || drop(black_box(our_scale(black_box(&mut out.borrow_mut()), black_box(-1.0)))),
        );
        table.row(
            "add_signals",
            n,
            || add_signals(black_box(&a), black_box(&b), black_box(&mut out.borrow_mut())),
            || drop(black_box(our_sum(black_box(&a), black_box(&b), black_box(&mut out.borrow_mut())))),
        );
    }
}
