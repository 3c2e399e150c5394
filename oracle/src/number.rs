//! The number kit, against the hardware's instructions and libm.

use crate::common::{bits32, bits64, black_box, edges32, edges64, same32, same64, Check, Log, Random, Table};
use tilljingle::raw::{tj_abs32, tj_narrow, tj_round32, tj_sqrt32, tj_sqrt64, tj_sqrt64_narrowed};

/// Random f64 of a full comparison; every f32 function sees each 97th pattern beside it.
pub const ROUNDS: u64 = 24_000_000;

/// The checks of one f64.
struct Wide {
    narrow: Check,
    root: Check,
    narrowed: Check,
}

impl Wide {
    fn open(log: &mut Log) -> Wide {
        Wide {
            narrow: log.check("tj_narrow: as f32"),
            root: log.check("tj_sqrt64: f64::sqrt and libm::sqrt"),
            narrowed: log.check("tj_sqrt64_narrowed: f64::sqrt as f32"),
        }
    }

    fn see(&self, log: &mut Log, x: f64) {
        let (narrow, root, narrowed) = unsafe { (tj_narrow(x), tj_sqrt64(x), tj_sqrt64_narrowed(x)) };
        log.see32(self.narrow, narrow, black_box(x) as f32, || bits64(x));
        log.see64(self.root, root, agreed64(black_box(x).sqrt(), libm::sqrt(x)), || {
            bits64(x)
        });
        log.see32(self.narrowed, narrowed, black_box(x).sqrt() as f32, || bits64(x));
    }
}

/// The checks of one f32.
struct Slim {
    root: Check,
    abs: Check,
    round: Check,
}

impl Slim {
    fn open(log: &mut Log) -> Slim {
        Slim {
            root: log.check("tj_sqrt32: f32::sqrt and libm::sqrtf"),
            abs: log.check("tj_abs32: libm::fabsf"),
            round: log.check("tj_round32: libm::roundf"),
        }
    }

    fn see(&self, log: &mut Log, x: f32) {
        let (root, abs, round) = unsafe { (tj_sqrt32(x), tj_abs32(x), tj_round32(x)) };
        log.see32(self.root, root, agreed32(black_box(x).sqrt(), libm::sqrtf(x)), || {
            bits32(x)
        });
        log.see32(self.abs, abs, libm::fabsf(x), || bits32(x));
        log.see32(self.round, round, libm::roundf(x), || bits32(x));
    }
}

/// The answer that the hardware and libm give alike; they are to differ nowhere.
fn agreed64(hardware: f64, libm: f64) -> f64 {
    assert!(
        same64(hardware, libm),
        "the hardware's root is {}, libm's {}",
        bits64(hardware),
        bits64(libm)
    );
    hardware
}

/// As `agreed64`.
fn agreed32(hardware: f32, libm: f32) -> f32 {
    assert!(
        same32(hardware, libm),
        "the hardware's root is {}, libm's {}",
        bits32(hardware),
        bits32(libm)
    );
    hardware
}

const SIGN: u64 = 1 << 63;
const FRACTION: u64 = (1 << 52) - 1;

/// How many kinds of f64 `wide_input` makes.
const KINDS: u64 = 11;

/// An f64 of the kind with this number.
fn wide_input(random: &mut Random, kind: u64) -> f64 {
    let bits = random.bits();
    let sign = bits & SIGN;
    match kind {
        // any pattern
        0 | 1 => f64::from_bits(bits),
        // a normal f32, or the tie above it
        2 | 3 => {
            let exponent = random.below(254) + 1023 - 126;
            let kept = bits & FRACTION & u64::MAX << 29;
            let tie = random.below(2) << 28;
            near(random, sign | exponent << 52 | kept | tie)
        }
        // the same where f32 is subnormal: from a quarter of the smallest subnormal up to the smallest normal number
        4 => {
            let exponent = random.below(26) + 1023 - 151;
            let dropped = 29 + (1023 - 126 - exponent).min(24);
            let kept = bits & FRACTION & u64::MAX << dropped;
            let tie = random.below(2) << (dropped - 1) & FRACTION;
            near(random, sign | exponent << 52 | kept | tie)
        }
        // around the place where narrowing turns to infinity
        5 => f64::from_bits(sign | (0x47EF_FFFF_F000_0000 + random.below(1 << 30) - (1 << 29))),
        // f64's subnormals, of every size
        6 => f64::from_bits(sign | (bits & FRACTION) >> random.below(52)),
        // squares: of 26 bits, which are exact, and of 53 bits, whose neighbours have roots near ties
        7 => near_square(random, (bits & 0x03FF_FFFF | 0x0200_0000) as f64),
        8 => near_square(random, (bits >> 11 | 1) as f64),
        // squares of odd numbers of 25 bits, whose roots are ties between two f32, and their neighbours
        9 => near_square(random, (bits & 0x01FF_FFFF | 0x0100_0001) as f64),
        // squares around f32's smallest normal number and around its largest
        _ => {
            let exponent = random.pick(&[1023 - 252, 1023 + 255]) + random.below(3) - 1;
            let fraction = random.pick(&[bits & 0x7F, FRACTION - (bits & 0x7F), bits & FRACTION]);
            f64::from_bits(exponent << 52 | fraction)
        }
    }
}

/// The square of this number, times any of many even powers of two; or a neighbour of it.
fn near_square(random: &mut Random, root: f64) -> f64 {
    let scale = f64::from_bits((1023 - 500 + 2 * random.below(450)) << 52);
    near(random, (root * root * scale).to_bits())
}

/// The f64 with these bits, or one at most two places from it.
fn near(random: &mut Random, bits: u64) -> f64 {
    f64::from_bits(bits + random.below(5) - 2)
}

pub fn compare(rounds: u64, log: &mut Log) {
    let wide = Wide::open(log);
    for x in edges64() {
        wide.see(log, x);
    }
    let mut random = Random::new(1);
    for round in 0..rounds {
        let x = wide_input(&mut random, round % KINDS);
        wide.see(log, x);
    }

    let slim = Slim::open(log);
    for x in edges32() {
        slim.see(log, x);
        wide.see(log, x as f64);
    }
    // fewer rounds, longer strides
    let stride = 97 * (ROUNDS / rounds.max(1)).max(1);
    let mut bits = 0;
    while bits <= u32::MAX as u64 {
        slim.see(log, f32::from_bits(bits as u32));
        bits += stride;
    }
}

/// A row for a function of one number.
macro_rules! row {
    ($table:expr, $name:expr, $inputs:expr, $theirs:expr, $ours:expr) => {
        $table.each(
            $name,
            $inputs.len(),
            || {
                $inputs.iter().for_each(|x| {
                    black_box($theirs(black_box(*x)));
                })
            },
            || {
                $inputs.iter().for_each(|x| {
                    black_box(unsafe { $ours(black_box(*x)) });
                })
            },
        )
    };
}

pub fn bench(table: &mut Table) {
    let mut random = Random::new(2);
    let wide: Vec<f64> = (0..4096).map(|_| random.unit() * 1e6).collect();
    let slim: Vec<f32> = (0..4096).map(|_| (random.unit() * 1e6) as f32).collect();
    row!(table, "sqrt64, f64::sqrt", wide, f64::sqrt, tj_sqrt64);
    row!(table, "sqrt32, f32::sqrt", slim, f32::sqrt, tj_sqrt32);
    row!(
        table,
        "sqrt64_narrowed, f64::sqrt as f32",
        wide,
        |x: f64| x.sqrt() as f32,
        tj_sqrt64_narrowed
    );
    row!(table, "narrow, as f32", wide, |x: f64| x as f32, tj_narrow);
    row!(table, "abs32, libm::fabsf", slim, libm::fabsf, tj_abs32);
    row!(table, "round32, libm::roundf", slim, libm::roundf, tj_round32);
}
