//! Writes what the programs crates/replay_* replay: a sample of inputs, the same in every run, and what the published Rust answers to each; and such lines
//! with one field of the answer wrong, of editions one or more. How a line is read stands in crates/replaying/src/lib.rt.

mod captures;
mod editions;
mod limits;
mod long;
mod ports;
mod run;
mod signals;
mod slices;
mod wrong;

use crate::common::{Kind, Random, KINDS};
use crate::figures::Counts;
use crate::lines::LONGEST;
use std::process::ExitCode;
use wrong::{Case, Field};

/// Where the programs stand.
const CRATES: &str = concat!(env!("CARGO_MANIFEST_DIR"), "/../crates");

/// The most places of a list whose numbers stand in the line one by one.
const ROOM: usize = 32;

/// One file of cases: its name, the seed, the number by which the program finds what is called, and what makes the lines. That number is 01's item; 12, for
/// sequences on a signal that keeps its samples, and 13, for the power of the fundamental, are our own, and 0 stands where each case says its item itself.
type File = (&'static str, u64, u32, fn(&mut Lines));

/// The number of the power of the fundamental.
const FUNDAMENTAL: u32 = 13;

/// The programs, and the files of each.
const PROGRAMS: [(&str, &[File]); 4] = [
    (
        "replay_slices",
        &[
            ("number", 101, 1, slices::number),
            ("samples", 102, 2, slices::samples),
            ("timing", 103, 3, slices::timing),
            ("power", 104, 4, slices::power),
            ("spectrum", 106, 6, slices::spectrum),
            ("quality", 107, 7, slices::quality),
            ("generator", 108, 8, slices::generator),
            ("fundamental", 119, FUNDAMENTAL, slices::fundamental),
            ("limits", 114, 0, limits::slices),
        ],
    ),
    (
        "replay_ports",
        &[
            ("figures", 105, 5, ports::figures),
            ("port", 109, 9, ports::port),
            ("figure_limits", 115, 5, limits::figures),
        ],
    ),
    (
        "replay_lines",
        &[
            ("capture", 111, 11, captures::capture),
            ("codes", 112, 4, captures::codes),
            ("report", 113, 11, captures::report),
            ("capture_limits", 116, 0, limits::captures),
        ],
    ),
    (
        "replay_signals",
        &[
            ("signal", 110, 10, signals::signals),
            ("held", 117, 12, signals::held),
            ("signal_limits", 118, 10, limits::signals),
        ],
    ),
];

/// The lines of one file, and the inputs' source.
pub struct Lines {
    random: Random,
    item: u32,
    cases: Vec<Case>,
    /// Lines with a wrong answer, beside those that `wrong` makes of the others.
    wrong: Vec<Case>,
}

/// What one call is given: numbers, two slices, and a slice that it may write to. Some of the numbers may be what stands somewhere afterwards.
#[derive(Default, Clone)]
pub struct Given {
    words: Vec<u32>,
    answers: Vec<(usize, Field)>,
    a: Vec<f32>,
    b: Vec<f32>,
    out: Vec<f32>,
}

impl Given {
    /// Numbers alone.
    fn numbers(words: Vec<u32>) -> Given {
        Given {
            words,
            ..Given::default()
        }
    }

    /// Numbers, and a slice.
    fn on(words: Vec<u32>, a: Vec<f32>) -> Given {
        Given {
            a,
            ..Given::numbers(words)
        }
    }

    /// Two slices.
    fn on_two(a: Vec<f32>, b: Vec<f32>) -> Given {
        Given {
            a,
            b,
            ..Given::default()
        }
    }

    /// With the counts that are to be answered, behind the other numbers: no f32 holds every count.
    fn counted(&self, counts: Option<Counts>) -> Given {
        let mut given = self.clone();
        for count in counts.iter().flat_map(|counts| [counts.not_numbers, counts.infinite]) {
            given.answers.push((given.words.len(), wrong::COUNT));
            given.words.push(count);
        }
        given
    }

    /// Numbers, and a slice that may be written to.
    fn into(words: Vec<u32>, out: Vec<f32>) -> Given {
        Given {
            out,
            ..Given::numbers(words)
        }
    }
}

/// What it answers: a number of 01's table, an f64, f32; the counts of a time record; and the slice afterwards.
#[derive(Default, Clone)]
pub struct Said {
    code: u32,
    wide: f64,
    floats: Vec<f32>,
    counts: Option<Counts>,
    out: Vec<f32>,
}

impl Said {
    /// Floats alone.
    fn floats(floats: Vec<f32>) -> Said {
        Said {
            floats,
            ..Said::default()
        }
    }

    /// An f64, and floats.
    fn wide(wide: f64, floats: Vec<f32>) -> Said {
        Said {
            wide,
            ..Said::floats(floats)
        }
    }

    /// Floats, and the slice afterwards.
    fn left(floats: Vec<f32>, out: Vec<f32>) -> Said {
        Said {
            out,
            ..Said::floats(floats)
        }
    }
}

/// The words of a float; one pattern for every NaN.
fn word(x: &f32) -> u32 {
    if x.is_nan() {
        0x7FC0_0000
    } else {
        x.to_bits()
    }
}

/// As `word`: two words, the higher one first.
fn words(x: f64) -> [u32; 2] {
    let bits = if x.is_nan() { 0x7FF8_0000_0000_0000 } else { x.to_bits() };
    [(bits >> 32) as u32, bits as u32]
}

/// The words of a list. One that is too long for a line has one word: that which it is made from, or the same number in all its places.
fn listed(list: &[f32]) -> Vec<u32> {
    if long::is_made(list.len()) {
        return vec![long::first_of(list)];
    }
    let mut words: Vec<u32> = list.iter().map(word).collect();
    if list.len() > ROOM {
        words.dedup();
        assert_eq!(words.len(), 1);
    }
    words
}

/// The words of a list afterwards, and what they are: of one that is made by a rule the sum.
fn left(list: &[f32]) -> (Vec<u32>, Field) {
    match long::is_made(list.len()) {
        true => (vec![long::sum(list)], wrong::WHOLE),
        false => (listed(list), Field::Float),
    }
}

fn lengths(given: &Given) -> [usize; 3] {
    [&given.a, &given.b, &given.out].map(|list| list.len())
}

impl Lines {
    fn line(&mut self, which: u32, given: &Given, said: &Said) {
        let case = self.case(which, given, said);
        self.cases.push(case);
    }

    /// A line that says what is wrong of a call that says what is right.
    fn wrong_line(&mut self, which: u32, given: &Given, right: &Said, wrong: &Said) {
        let case = self.case(which, given, wrong);
        assert_ne!(case.words, self.case(which, given, right).words);
        self.wrong.push(case);
    }

    fn case(&self, which: u32, given: &Given, said: &Said) -> Case {
        let given = &given.counted(said.counts);
        let mut words = vec![0, self.item, which, given.words.len() as u32];
        words.extend(&given.words);
        for list in [&given.a, &given.b, &given.out] {
            words.push(list.len() as u32);
            words.extend(listed(list));
        }
        let packed = self.item == 11 && which < 4;
        let mut fields = vec![(words.len(), if packed { wrong::PACKED } else { wrong::WHOLE })];
        words.push(said.code);
        fields.push((words.len(), Field::Double));
        words.extend(self::words(said.wide));
        words.push(said.floats.len() as u32);
        fields.extend((words.len()..).zip(said.floats.iter().map(|_| Field::Float)));
        words.extend(said.floats.iter().map(word));
        let (out, field) = left(&said.out);
        fields.extend((words.len()..).zip(out.iter().map(|_| field)));
        words.extend(&out);
        fields.extend(given.answers.iter().map(|(k, field)| (4 + k, *field)));
        words[0] = words.len() as u32;
        Case {
            words,
            fields,
            lent: out.len() + given.answers.len(),
            long: lengths(given).iter().any(|n| *n > ROOM),
            code: said.code % 16,
            key: self.key(which, given, said),
        }
    }

    /// What tells one kind of case from another: the item, the call, which quotient it answers, and how its lists stand in the line.
    fn key(&self, which: u32, given: &Given, said: &Said) -> [u32; 4] {
        let quotient = match (self.item, which) {
            (7, 3..=5) => said.floats[0] as u32,
            _ => 0,
        };
        let forms = lengths(given).map(|n| (n > ROOM) as u32 + (n >= LONGEST) as u32);
        [self.item, which, quotient, forms[0] + 3 * forms[1] + 9 * forms[2]]
    }

    /// A call on one f32 that answers one.
    fn float(&mut self, which: u32, x: f32, answer: f32) {
        self.line(which, &Given::numbers(vec![word(&x)]), &Said::floats(vec![answer]));
    }

    /// A list of a few samples of one kind, now and then as many as a line has room for.
    fn list(&mut self) -> Vec<f32> {
        let n = match self.random.below(12) {
            0 => 32,
            _ => self.random.below(13),
        };
        let kind = self.random.pick(&KINDS);
        self.random.samples(kind, n as usize)
    }

    /// A setting or a rate: a plain number, or one of any kind.
    fn setting(&mut self) -> f32 {
        match self.random.below(3) {
            0 => self.random.sample(Kind::Mixed),
            1 => self.random.below(48000) as f32 + 1.0,
            _ => self.random.sample(Kind::Steps),
        }
    }

    /// The waves, and numbers past the last.
    fn wave(&mut self) -> u8 {
        self.random.pick(&[0, 1, 2, 3, 0, 1, 2, 3, 4, 255])
    }
}

/// The bits of the f32 nearest to 1e-12.
const TINY: u32 = 0x2B8CBCCC;

/// The most bytes of a file.
const LARGEST: usize = 262_144;

fn write_file(program: &str, name: &str, cases: &[Case]) {
    let text: String = cases.iter().map(Case::text).collect();
    assert!(text.len() <= LARGEST, "{name} is too long");
    std::fs::write(format!("{CRATES}/{program}/data/{name}"), text).expect("its data can be written");
}

/// The files of a program and what it must print; how many lines there are, and how many wrong ones.
fn write_program(program: &str, files: &[File]) -> [usize; 2] {
    let (mut right, mut spoiled) = (0, Vec::new());
    for (name, seed, item, make) in files {
        let mut lines = Lines {
            random: Random::new(*seed),
            item: *item,
            cases: Vec::new(),
            wrong: Vec::new(),
        };
        make(&mut lines);
        let mut cases = lines.cases;
        spoiled.extend(wrong::wrong(&cases));
        spoiled.extend(lines.wrong);
        cases.extend(wrong::alike(&cases));
        right += cases.len();
        write_file(program, name, &cases);
    }
    write_file(program, "wrong", &spoiled);
    let counts = [right, spoiled.len()];
    std::fs::write(format!("{CRATES}/{program}/stdout"), printed(counts)).expect("its output can be written");
    counts
}

/// What a program prints of so many lines and so many wrong ones.
fn printed([right, wrong]: [usize; 2]) -> String {
    format!("{right} cases, 0 differences\n{wrong} wrong cases, {wrong} differences\n")
}

/// Writes every file of every program, and says how many lines there are in all, and how many wrong ones.
pub fn write() -> ExitCode {
    let counts = PROGRAMS.map(|(program, files)| write_program(program, files));
    print!("{}", printed([0, 1].map(|k| counts.iter().map(|n| n[k]).sum())));
    ExitCode::SUCCESS
}
