//! Power, against the Rust; and the bounds on its figures, with exact whole numbers.

use crate::common::{all_same32, black_box, list32, Check, Kind, Log, Random, Table, KINDS};
use crate::signal::compute_power;
use tilljingle::raw::{tj_compute_power, tj_power_of_codes, PowerAnswer};
use tilljingle::Power;

/// Random captures of a full comparison.
pub const ROUNDS: u64 = 1_500_000;
/// One round in so many is a capture of codes, held against exact sums.
const EXACT: u64 = 10;

fn ours(voltage: &[f32], current: &[f32], rate: f32) -> PowerAnswer {
    unsafe { tj_compute_power(voltage.as_ptr(), voltage.len(), current.as_ptr(), current.len(), rate) }
}

fn of_codes(volts: &[i16], amps: &[i16]) -> PowerAnswer {
    unsafe { tj_power_of_codes(volts.as_ptr(), volts.len(), amps.as_ptr(), amps.len()) }
}

fn list(power: Power) -> [f32; 4] {
    [power.p, power.nonactive, power.s, power.pf]
}

// ---------------------------------------------------------------------------- against the Rust

fn see(log: &mut Log, check: Check, voltage: &[f32], current: &[f32], rate: f32) {
    let (p, q, s, pf) = compute_power(voltage, current, rate);
    let answer = ours(voltage, current, rate);
    let same = answer.code == 0 && all_same32(&list(answer.power), &[p, q, s, pf]);
    log.see(check, same, || {
        format!(
            "{} and {}: {:?}, Rust {:?}",
            list32(voltage),
            list32(current),
            answer,
            (p, q, s, pf)
        )
    });
}

/// A refusal, of samples and of codes: its code, and a record that is zero throughout.
fn see_refused(log: &mut Log, check: Check, nv: usize, ni: usize, code: u8) {
    let (voltage, current) = (vec![1.0f32; nv], vec![1.0f32; ni]);
    let (volts, amps) = (vec![1i16; nv], vec![1i16; ni]);
    for answer in [ours(&voltage, &current, 1.0), of_codes(&volts, &amps)] {
        let zero = list(answer.power).iter().all(|x| x.to_bits() == 0);
        log.see(check, answer.code == code && zero, || {
            format!("{} and {}: {:?}", nv, ni, answer)
        });
    }
}

fn length(random: &mut Random) -> usize {
    match random.below(1000) {
        0 => 65536,
        1..=4 => random.below(65537) as usize,
        5..=14 => 4096,
        15..=99 => random.below(300) as usize,
        _ => random.below(12) as usize,
    }
}

pub fn compare(rounds: u64, log: &mut Log) {
    let refused = log.check("refusals");
    for (nv, ni, code) in [
        (2, 1, 1),
        (0, 1, 1),
        (65536, 65535, 1),
        (65537, 65537, 3),
        (65537, 0, 3),
        (0, 65537, 3),
        (65536, 65537, 3),
        (70000, 65537, 3),
    ] {
        see_refused(log, refused, nv, ni, code);
    }

    // every pattern of special values in one and in two pairs
    let special = log.check("every pattern of special values, Rust");
    let values = [
        f32::NAN,
        f32::INFINITY,
        f32::NEG_INFINITY,
        0.0,
        -0.0,
        f32::MAX,
        f32::MIN,
        1.0,
        -1.0,
        1e-45,
        3e-23,
    ];
    for a in values {
        for b in values {
            see(log, special, &[a], &[b], 1.0);
            for c in values {
                for d in values {
                    see(log, special, &[a, c], &[b, d], 1.0);
                }
            }
        }
    }

    let random_pairs = log.check("random captures, Rust");
    let mut random = Random::new(4);
    for round in 0..rounds {
        let n = length(&mut random);
        let kind = KINDS[(round % 10) as usize];
        let voltage = random.samples(kind, n);
        let current = match random.below(4) {
            0 => voltage.clone(),
            1 => voltage.iter().map(|x| -x).collect(),
            2 => random.samples(kind, n),
            _ => {
                let other = random.pick(&KINDS);
                random.samples(other, n)
            }
        };
        let rate = random.sample(Kind::Bits);
        see(log, random_pairs, &voltage, &current, rate);
    }

    bounds(rounds / EXACT, log);
}

// ---------------------------------------------------------------------------- exact whole numbers

/// A whole number of up to 320 bits, least digit first. What is compared here stays below that.
#[derive(Debug, Clone, Copy, PartialEq, Eq)]
struct Big([u64; 5]);

impl Big {
    fn of(x: u64) -> Big {
        Big([x, 0, 0, 0, 0])
    }

    fn times(self, x: u64) -> Big {
        let mut out = [0; 5];
        let mut carry = 0u128;
        for (place, digit) in self.0.iter().enumerate() {
            let sum = *digit as u128 * x as u128 + carry;
            out[place] = sum as u64;
            carry = sum >> 64;
        }
        assert!(carry == 0);
        Big(out)
    }

    fn shifted(self, bits: u32) -> Big {
        (0..bits).fold(self, |x, _| x.times(2))
    }

    fn at_most(self, other: Big) -> bool {
        self.0.iter().rev().le(other.0.iter().rev())
    }

    fn less(self, other: Big) -> Big {
        let mut out = [0; 5];
        let mut borrow = false;
        for (place, digit) in self.0.iter().enumerate() {
            let (a, b1) = digit.overflowing_sub(other.0[place]);
            let (b, b2) = a.overflowing_sub(borrow as u64);
            out[place] = b;
            borrow = b1 | b2;
        }
        assert!(!borrow);
        Big(out)
    }

    fn gap(self, other: Big) -> Big {
        if self.at_most(other) {
            other.less(self)
        } else {
            self.less(other)
        }
    }

    fn float(self) -> f64 {
        self.0
            .iter()
            .rev()
            .fold(0.0, |sum, digit| sum * 18446744073709551616.0 + *digit as f64)
    }
}

/// A finite f32 in size: `digits * 2^up / 2^down`.
struct Fraction {
    digits: u64,
    up: u32,
    down: u32,
}

fn fraction(x: f32) -> Fraction {
    let bits = x.to_bits();
    let field = bits >> 23 & 0xFF;
    assert!(field != 0xFF);
    let digits = (bits & 0x7F_FFFF) as u64 | if field == 0 { 0 } else { 0x80_0000 };
    let exponent = field.max(1) as i32 - 150;
    if digits == 0 {
        Fraction {
            digits: 0,
            up: 0,
            down: 0,
        }
    } else {
        let cut = digits
            .trailing_zeros()
            .min(if exponent < 0 { -exponent as u32 } else { 0 });
        let exponent = exponent + cut as i32;
        Fraction {
            digits: digits >> cut,
            up: exponent.max(0) as u32,
            down: (-exponent).max(0) as u32,
        }
    }
}

/// Whether a and b are within t / 2^k of each other; the share of that which is used goes into `worst`.
fn within(a: Big, b: Big, t: Big, k: u32, worst: &mut f64) -> bool {
    let gap = a.gap(b).shifted(k);
    if t != Big::of(0) {
        *worst = worst.max(gap.float() / t.float());
    }
    gap.at_most(t)
}

/// The five sentences, at one capture of codes: whether each holds.
fn sentences(volts: &[i16], amps: &[i16], r: Power, worst: &mut [f64; 5]) -> [bool; 5] {
    let n = volts.len() as u64;
    let sum = |x: &[i16], y: &[i16]| x.iter().zip(y).map(|(a, b)| *a as i64 * *b as i64).sum::<i64>();
    let (v, i, w) = (sum(volts, volts) as u64, sum(amps, amps) as u64, sum(volts, amps));
    let size = w.unsigned_abs();
    let (p, q, s, pf) = (fraction(r.p), fraction(r.nonactive), fraction(r.s), fraction(r.pf));
    let right_way = w == 0 || r.p == 0.0 || (r.p < 0.0) == (w < 0);
    let product = Big::of(v).times(i);
    let square = Big::of(size).times(size);
    let t = Big::of(size).shifted(p.down);
    let active = within(Big::of(n).times(p.digits).shifted(p.up), t, t, 23, &mut worst[0]);
    let t = product.shifted(2 * s.down);
    let apparent = within(
        Big::of(n * n).times(s.digits).times(s.digits).shifted(2 * s.up),
        t,
        t,
        21,
        &mut worst[1],
    );
    let t = product.shifted(2 * q.down);
    let nonactive = within(
        Big::of(n * n).times(q.digits).times(q.digits).shifted(2 * q.up),
        product.less(square).shifted(2 * q.down),
        t,
        20,
        &mut worst[2],
    );
    let t = square.shifted(2 * pf.down);
    let factor = within(
        product.times(pf.digits).times(pf.digits).shifted(2 * pf.up),
        t,
        t,
        20,
        &mut worst[3],
    );
    let sign = if w == 0 {
        r.pf == 0.0
    } else {
        r.pf != 0.0 && (r.pf < 0.0) == (w < 0)
    };
    let (low, high) = (
        Big::of(pf.digits).shifted(21 + pf.up),
        Big::of((1 << 21) + 1).shifted(pf.down),
    );
    let one = Big::of(1).shifted(21 + pf.down);
    if one.at_most(low) {
        worst[4] = worst[4].max(low.less(one).float() / Big::of(1).shifted(pf.down).float());
    }
    [
        active && right_way,
        apparent,
        nonactive,
        factor,
        sign && low.at_most(high),
    ]
}

/// A capture of codes of the kind with this number; 10 kinds in all.
fn codes(random: &mut Random, kind: u64) -> (Vec<i16>, Vec<i16>) {
    let n = match random.below(2000) {
        0 => 65536,
        1..=20 => 4096,
        21..=400 => 1 + random.below(200) as usize,
        _ => 1 + random.below(9) as usize,
    };
    let top = random.pick(&[1, 2, 5, 20, 100, 1000, 32768]);
    let code = |random: &mut Random, top: u64| (random.below(2 * top + 1) as i64 - top as i64).min(32767) as i16;
    let mut volts: Vec<i16> = (0..n).map(|_| code(random, top)).collect();
    let mut amps: Vec<i16> = (0..n).map(|_| code(random, top)).collect();
    match kind {
        // all -32,768, or all at the two ends
        0 => {
            let ends = [i16::MIN, i16::MAX, i16::MIN];
            let most = 1 + random.below(3) as usize;
            volts
                .iter_mut()
                .for_each(|x| *x = ends[random.below(most as u64) as usize]);
            amps.iter_mut()
                .for_each(|x| *x = ends[random.below(most as u64) as usize]);
        }
        // one that is not 0
        1 => {
            volts.iter_mut().for_each(|x| *x = 0);
            amps.iter_mut().for_each(|x| *x = 0);
            volts[random.below(n as u64) as usize] = code(random, 32768);
            amps[random.below(n as u64) as usize] = code(random, 32768);
        }
        // W is 0: the current is the voltage turned by a quarter, pair by pair
        2 => {
            for at in 0..n {
                amps[at] = if at ^ 1 >= n {
                    0
                } else if at % 2 == 0 {
                    volts[at ^ 1]
                } else {
                    volts[at ^ 1].saturating_neg()
                };
            }
        }
        // W is tiny: the same, and one pair changed a little
        3 => {
            for at in 0..n {
                amps[at] = if at ^ 1 >= n {
                    0
                } else if at % 2 == 0 {
                    volts[at ^ 1]
                } else {
                    volts[at ^ 1].saturating_neg()
                };
            }
            let at = random.below(n as u64) as usize;
            volts[at] = 1;
            amps[at] = 1;
        }
        // proportional, either way round
        4 => amps.copy_from_slice(&volts),
        5 => (0..n).for_each(|at| amps[at] = volts[at].saturating_neg()),
        6 => (0..n).for_each(|at| amps[at] = volts[at] / 3),
        // nearly proportional
        7 => (0..n).for_each(|at| amps[at] = volts[at].saturating_add(code(random, 1))),
        _ => {}
    }
    (volts, amps)
}

fn bounds(rounds: u64, log: &mut Log) {
    let checks = [
        log.check("codes: n p within |W| / 2^23 of W"),
        log.check("codes: n² s² within V I / 2^21 of V I"),
        log.check("codes: n² q² within V I / 2^20 of V I - W², where q is nonactive"),
        log.check("codes: pf² V I within W² / 2^20 of W²"),
        log.check("codes: pf with the sign of W, at most 1 + 1 / 2^21"),
    ];
    let same = log.check("power_of_codes, against compute_power of the codes as f32");
    let mut worst = [0.0; 5];
    let mut random = Random::new(44);
    for round in 0..rounds {
        let (volts, amps) = codes(&mut random, round % 10);
        let voltage: Vec<f32> = volts.iter().map(|x| *x as f32).collect();
        let current: Vec<f32> = amps.iter().map(|x| *x as f32).collect();
        let answer = ours(&voltage, &current, 1.0);
        let (p, q, s, pf) = compute_power(&voltage, &current, 1.0);
        let coded = of_codes(&volts, &amps);
        log.see(same, coded.code == 0 && all_same32(&list(coded.power), &[p, q, s, pf]), || {
            format!("{} and {}: {:?}", list32(&voltage), list32(&current), coded)
        });
        let held = sentences(&volts, &amps, answer.power, &mut worst);
        for (check, holds) in checks.iter().zip(held) {
            log.see(*check, holds && answer.code == 0, || {
                format!("{} and {}: {:?}", list32(&voltage), list32(&current), answer)
            });
        }
    }
    println!("power: the largest share of each bound that was used: {:.4?}", worst);
}

// ---------------------------------------------------------------------------- times

pub fn bench(table: &mut Table) {
    let mut random = Random::new(3);
    for n in [4096, 65536] {
        let voltage = random.samples(Kind::Codes, n);
        let current = random.samples(Kind::Codes, n);
        table.row(
            "compute_power",
            n,
            || {
                black_box(compute_power(black_box(&voltage), black_box(&current), 1.0));
            },
            || {
                black_box(ours(black_box(&voltage), black_box(&current), 1.0));
            },
        );
        let (volts, amps): (Vec<i16>, Vec<i16>) = voltage.iter().zip(&current).map(|(v, i)| (*v as i16, *i as i16)).unzip();
        let (mut v, mut i) = (voltage.clone(), current.clone());
        table.row(
            "power_of_codes, against the codes cast into buffers and compute_power",
            n,
            || {
                let cast = |codes: &[i16], to: &mut [f32]| codes.iter().zip(to).for_each(|(c, x)| *x = *c as f32);
                cast(black_box(&volts), &mut v);
                cast(black_box(&amps), &mut i);
                black_box(compute_power(black_box(&v), black_box(&i), 1.0));
            },
            || {
                black_box(of_codes(black_box(&volts), black_box(&amps)));
            },
        );
    }
}
