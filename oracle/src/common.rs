//! What every area uses: inputs, the log of a comparison, the table of a measurement.

use std::arch::asm;
use std::time::{Duration, Instant};

// ---------------------------------------------------------------------------- the same number

/// The same number: equal as floats, zeros of either sign alike, any NaN equal to any other.
pub fn same32(a: f32, b: f32) -> bool {
    a == b || (a.is_nan() && b.is_nan())
}

/// As `same32`.
pub fn same64(a: f64, b: f64) -> bool {
    a == b || (a.is_nan() && b.is_nan())
}

/// Two lists of the same length with the same number at each place.
pub fn all_same32(a: &[f32], b: &[f32]) -> bool {
    a.len() == b.len() && a.iter().zip(b).all(|(x, y)| same32(*x, *y))
}

/// The bits of a number, for a difference to be seen again.
pub fn bits32(x: f32) -> String {
    format!("{:08X}", x.to_bits())
}

/// As `bits32`.
pub fn bits64(x: f64) -> String {
    format!("{:016X}", x.to_bits())
}

/// The length and the bits of a list, cut after 32 places.
pub fn list32(xs: &[f32]) -> String {
    let mut shown: Vec<String> = xs.iter().take(32).map(|x| bits32(*x)).collect();
    if xs.len() > 32 {
        shown.push("..".to_string());
    }
    format!("{} [{}]", xs.len(), shown.join(" "))
}

// ---------------------------------------------------------------------------- random inputs

/// Numbers that look random and are the same in every run (splitmix64).
pub struct Random(u64);

impl Random {
    pub fn new(seed: u64) -> Random {
        Random(seed)
    }

    /// 64 bits.
    pub fn bits(&mut self) -> u64 {
        self.0 = self.0.wrapping_add(0x9E37_79B9_7F4A_7C15);
        let mut z = self.0;
        z = (z ^ (z >> 30)).wrapping_mul(0xBF58_476D_1CE4_E5B9);
        z = (z ^ (z >> 27)).wrapping_mul(0x94D0_49BB_1331_11EB);
        z ^ (z >> 31)
    }

    /// A whole number below `n`; `n` is above 0 and small beside 2^64.
    pub fn below(&mut self, n: u64) -> u64 {
        self.bits() % n
    }

    /// One of these.
    pub fn pick<T: Copy>(&mut self, from: &[T]) -> T {
        from[self.below(from.len() as u64) as usize]
    }

    /// A number from 0 up to 1, evenly spread.
    pub fn unit(&mut self) -> f64 {
        (self.bits() >> 11) as f64 / (1u64 << 53) as f64
    }

    /// A sample of this kind.
    pub fn sample(&mut self, kind: Kind) -> f32 {
        match kind {
            Kind::Small => (self.unit() * 2.0 - 1.0) as f32,
            Kind::Codes => self.below(65536) as f32 - 32768.0,
            Kind::Steps => self.below(5) as f32 - 2.0,
            Kind::Wide => {
                let exponent = self.below(254) as u32 + 1;
                f32::from_bits(self.bits() as u32 & 0x807F_FFFF | exponent << 23)
            }
            Kind::Middle => {
                let exponent = self.below(60) as u32 + 97;
                f32::from_bits(self.bits() as u32 & 0x807F_FFFF | exponent << 23)
            }
            Kind::Bits => f32::from_bits(self.bits() as u32),
            Kind::Subnormal => f32::from_bits(self.bits() as u32 & 0x807F_FFFF),
            Kind::Special => self.pick(&SPECIAL),
            Kind::Mostly => match self.below(40) {
                0 => self.pick(&SPECIAL),
                _ => self.sample(Kind::Small),
            },
            Kind::Mixed => {
                let kind = self.pick(&SIMPLE);
                self.sample(kind)
            }
        }
    }

    /// Fills the list with samples of one kind.
    pub fn fill(&mut self, kind: Kind, out: &mut [f32]) {
        for x in out {
            *x = self.sample(kind);
        }
    }

    /// A list of samples of one kind.
    pub fn samples(&mut self, kind: Kind, n: usize) -> Vec<f32> {
        let mut out = vec![0.0; n];
        self.fill(kind, &mut out);
        out
    }
}

/// Kinds of random samples.
#[derive(Debug, Clone, Copy, PartialEq)]
pub enum Kind {
    /// Evenly between -1 and 1.
    Small,
    /// Whole codes from -32768 to 32767.
    Codes,
    /// Whole numbers from -2 to 2: many equal neighbours.
    Steps,
    /// Any sign, exponent and fraction of a normal number.
    Wide,
    /// Sizes from 2^-30 to 2^30.
    Middle,
    /// Any bit pattern.
    Bits,
    /// Subnormal numbers and zeros.
    Subnormal,
    /// NaN, the infinities, both zeros, the ends of the range.
    Special,
    /// Small, and now and then special.
    Mostly,
    /// Each sample of a kind of its own.
    Mixed,
}

/// Every kind.
pub const KINDS: [Kind; 10] = [
    Kind::Small,
    Kind::Codes,
    Kind::Steps,
    Kind::Wide,
    Kind::Middle,
    Kind::Bits,
    Kind::Subnormal,
    Kind::Special,
    Kind::Mostly,
    Kind::Mixed,
];

/// The kinds that `Mixed` chooses from.
const SIMPLE: [Kind; 8] = [
    Kind::Small,
    Kind::Codes,
    Kind::Steps,
    Kind::Wide,
    Kind::Middle,
    Kind::Bits,
    Kind::Subnormal,
    Kind::Special,
];

const SPECIAL: [f32; 10] = [
    f32::NAN,
    f32::INFINITY,
    f32::NEG_INFINITY,
    0.0,
    -0.0,
    f32::MAX,
    f32::MIN,
    f32::MIN_POSITIVE,
    1.0,
    -1.0,
];

// ---------------------------------------------------------------------------- boundary values

/// Patterns at which something changes, and their neighbours on both sides, in both signs.
pub fn edges32() -> Vec<f32> {
    let centres = [
        0x0000_0000u32, // zero
        0x007F_FFFF,    // the largest subnormal
        0x0080_0000,    // the smallest normal
        0x2B8C_BCCC,    // 1e-12
        0x3586_37BD,    // 1e-6
        0x3F00_0000,    // 1/2
        0x3F80_0000,    // 1
        0x3FC0_0000,    // 3/2
        0x4000_0000,    // 2
        0x4020_0000,    // 5/2
        0x4700_0000,    // 32768
        0x4AFF_FFFF,    // the largest with a half
        0x4B00_0000,    // 2^23
        0x4B80_0000,    // 2^24
        0x4F80_0000,    // 2^32
        0x5F80_0000,    // 2^64
        0x7F7F_FFFF,    // the largest number
        0x7F80_0000,    // infinity
        0x7FC0_0000,    // a quiet NaN
    ];
    let mut out = Vec::new();
    for centre in centres {
        for bits in [centre.saturating_sub(1), centre, centre + 1] {
            out.push(f32::from_bits(bits));
            out.push(f32::from_bits(bits | 0x8000_0000));
        }
    }
    out
}

/// As `edges32`; with the places at which narrowing to f32 changes.
pub fn edges64() -> Vec<f64> {
    let centres = [
        0x0000_0000_0000_0000u64, // zero
        0x000F_FFFF_FFFF_FFFF,    // the largest subnormal
        0x0010_0000_0000_0000,    // the smallest normal
        0x3690_0000_0000_0000,    // half the smallest f32 subnormal
        0x36A0_0000_0000_0000,    // the smallest f32 subnormal
        0x36A8_0000_0000_0000,    // a tie between it and the next
        0x380F_FFFF_C000_0000,    // the largest f32 subnormal
        0x380F_FFFF_E000_0000,    // the tie above it
        0x3810_0000_0000_0000,    // the smallest f32 normal
        0x3FE0_0000_0000_0000,    // 1/2
        0x3FF0_0000_0000_0000,    // 1
        0x3FF0_0000_1000_0000,    // a tie above 1: to the even below
        0x3FF0_0000_3000_0000,    // the next tie: to the even above
        0x4000_0000_0000_0000,    // 2
        0x4010_0000_0000_0000,    // 4
        0x4330_0000_0000_0000,    // 2^52
        0x4340_0000_0000_0000,    // 2^53
        0x47EF_FFFF_E000_0000,    // the largest f32
        0x47EF_FFFF_F000_0000,    // the tie at which narrowing turns to infinity
        0x47F0_0000_0000_0000,    // 2^128
        0x7FEF_FFFF_FFFF_FFFF,    // the largest number
        0x7FF0_0000_0000_0000,    // infinity
        0x7FF8_0000_0000_0000,    // a quiet NaN
    ];
    let mut out = Vec::new();
    for centre in centres {
        for bits in [centre.saturating_sub(1), centre, centre + 1] {
            out.push(f64::from_bits(bits));
            out.push(f64::from_bits(bits | 0x8000_0000_0000_0000));
        }
    }
    out
}

// ---------------------------------------------------------------------------- the log

/// How many differences of one check are printed.
const SHOWN: u64 = 5;

struct Counts {
    name: &'static str,
    calls: u64,
    differences: u64,
}

/// One named check of a log.
#[derive(Debug, Clone, Copy)]
pub struct Check(usize);

/// Counts calls and differences, check by check, and prints the first few differences.
pub struct Log {
    checks: Vec<Counts>,
    /// The checks before this one are printed and closed.
    closed: usize,
}

impl Log {
    pub fn new() -> Log {
        Log {
            checks: Vec::new(),
            closed: 0,
        }
    }

    /// Opens a check. Several may be open at once.
    pub fn check(&mut self, name: &'static str) -> Check {
        self.checks.push(Counts {
            name,
            calls: 0,
            differences: 0,
        });
        Check(self.checks.len() - 1)
    }

    /// Counts one call; `words` gives the inputs and both answers, and is asked only where they differ.
    pub fn see(&mut self, check: Check, same: bool, words: impl FnOnce() -> String) {
        let counts = &mut self.checks[check.0];
        counts.calls += 1;
        if !same {
            counts.differences += 1;
            if counts.differences <= SHOWN {
                println!("DIFFERENCE {}: {}", counts.name, words());
            }
        }
    }

    /// One call that answers an f32; `input` gives the inputs as bits.
    pub fn see32(&mut self, check: Check, ours: f32, theirs: f32, input: impl FnOnce() -> String) {
        self.see(check, same32(ours, theirs), || {
            format!("{}: {}, Rust {}", input(), bits32(ours), bits32(theirs))
        });
    }

    /// One call that answers an f64.
    pub fn see64(&mut self, check: Check, ours: f64, theirs: f64, input: impl FnOnce() -> String) {
        self.see(check, same64(ours, theirs), || {
            format!("{}: {}, Rust {}", input(), bits64(ours), bits64(theirs))
        });
    }

    /// One call that answers or leaves several f32.
    pub fn see_all32(&mut self, check: Check, ours: &[f32], theirs: &[f32], input: impl FnOnce() -> String) {
        self.see(check, all_same32(ours, theirs), || {
            format!("{}: {}, Rust {}", input(), list32(ours), list32(theirs))
        });
    }

    /// Prints the checks of an area that has ended.
    pub fn close(&mut self, area: &str) {
        for counts in &self.checks[self.closed..] {
            println!(
                "{}: {}: {} calls, {} differences",
                area, counts.name, counts.calls, counts.differences
            );
        }
        self.closed = self.checks.len();
    }

    pub fn calls(&self) -> u64 {
        self.checks.iter().map(|counts| counts.calls).sum()
    }

    pub fn differences(&self) -> u64 {
        self.checks.iter().map(|counts| counts.differences).sum()
    }
}

// ---------------------------------------------------------------------------- the table

/// Keeps the compiler from knowing anything of a value. (The library's function of this name is younger than Debian's rustc.)
pub fn black_box<T>(value: T) -> T {
    // Nothing is done; but the compiler must take it that the memory was read and written.
    unsafe { asm!("/* {0} */", in(reg) &value, options(nostack, preserves_flags)) };
    value
}

/// How often the two sides are measured, one after the other; the best of each counts.
const TURNS: u32 = 25;
/// How long one side runs in one turn, at least.
const TURN: Duration = Duration::from_millis(2);

/// Measures both sides on the same inputs and prints a row of Markdown for each call. The ratio is Tilljingle's time over the Rust's:
/// below 1 is faster than the Rust.
pub struct Table {
    headed: bool,
}

impl Table {
    pub fn new() -> Table {
        Table { headed: false }
    }

    /// A call on `n` samples: each closure makes it once.
    pub fn row(&mut self, call: &str, n: usize, theirs: impl FnMut(), ours: impl FnMut()) {
        self.measure(call, n, 1, theirs, ours);
    }

    /// A call on a single number: each closure makes it `calls` times, on one number after another.
    pub fn each(&mut self, call: &str, calls: usize, theirs: impl FnMut(), ours: impl FnMut()) {
        self.measure(call, 1, calls, theirs, ours);
    }

    fn measure(&mut self, call: &str, n: usize, calls: usize, mut theirs: impl FnMut(), mut ours: impl FnMut()) {
        if !self.headed {
            println!("| call | n | Rust ns | Tilljingle ns | ratio |");
            println!("|---|---:|---:|---:|---:|");
            self.headed = true;
        }
        let their_repeats = repeats(&mut theirs);
        let our_repeats = repeats(&mut ours);
        let (mut their_best, mut our_best) = (f64::INFINITY, f64::INFINITY);
        for _ in 0..TURNS {
            their_best = their_best.min(time(&mut theirs, their_repeats));
            our_best = our_best.min(time(&mut ours, our_repeats));
        }
        let (their_ns, our_ns) = (their_best / calls as f64, our_best / calls as f64);
        let ratio = our_ns / their_ns;
        let shown = if ratio < 0.1 { format!("1/{:.0}", ratio.recip()) } else { format!("{:.2}", ratio) };
        println!("| {} | {} | {:.1} | {:.1} | {} |", call, n, their_ns, our_ns, shown);
    }
}

/// How often the work must be repeated to fill a turn.
fn repeats(work: &mut impl FnMut()) -> u32 {
    let mut count = 1;
    while time(work, count) * (count as f64) < TURN.as_nanos() as f64 {
        count *= 2;
    }
    count
}

/// Nanoseconds of one run of the work, the mean of `count`.
fn time(work: &mut impl FnMut(), count: u32) -> f64 {
    let start = Instant::now();
    for _ in 0..count {
        work();
    }
    start.elapsed().as_nanos() as f64 / count as f64
}
