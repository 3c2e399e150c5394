//! Lines with something else in what was answered: one field wrong, which must be counted; zeros of the other sign and other NaN, which must not.

use std::collections::BTreeMap;

/// What a word of an answer is.
#[derive(Clone, Copy)]
pub enum Field {
    /// Every bit counts; each of these makes it wrong.
    Bits(&'static [u32]),
    Float,
    /// This word and the next one.
    Double,
}

/// A whole number; a count of the time record; a voltage and a current code; a code of 01's table with a line or bytes and with pairs; four bytes of a text.
pub const WHOLE: Field = Field::Bits(&[1]);
pub const COUNT: Field = Field::Bits(&[1, 0x1_0000, 0x8000_0000]);
pub const PAIR: Field = Field::Bits(&[0x1_0000, 1]);
pub const PACKED: Field = Field::Bits(&[1, 0x10, 0x1_0000]);
const BYTES: [u32; 4] = [0x100_0000, 0x1_0000, 0x100, 1];

/// A text of n bytes from the word `at` on.
pub fn text_fields(at: usize, n: usize) -> Vec<(usize, Field)> {
    let fields = (0..n).step_by(4).map(|k| Field::Bits(&BYTES[..(n - k).min(4)]));
    (at..).zip(fields).collect()
}

/// One line, and where its answer stands.
#[derive(Clone)]
pub struct Case {
    pub words: Vec<u32>,
    pub fields: Vec<(usize, Field)>,
    /// How many of the fields, the last of them, are of what was lent.
    pub lent: usize,
    /// Whether it has a list that is too long for a line.
    pub long: bool,
    /// Its number of 01's table.
    pub code: u32,
    /// What it is about.
    pub key: [u32; 4],
}

impl Case {
    pub fn text(&self) -> String {
        let digits: Vec<String> = self.words.iter().map(|word| format!("{word:08X}")).collect();
        digits.join(" ") + "\n"
    }

    fn float(&self, at: usize) -> f32 {
        f32::from_bits(self.words[at])
    }

    fn double(&self, at: usize) -> f64 {
        f64::from_bits((self.words[at] as u64) << 32 | self.words[at + 1] as u64)
    }

    /// The line with these words from `at` on.
    fn with(&self, at: usize, words: &[u32]) -> Case {
        let mut other = self.clone();
        other.words[at..at + words.len()].copy_from_slice(words);
        other
    }

    /// The line with this field wrong, in each way.
    fn spoiled(&self, at: usize, field: Field) -> Vec<Case> {
        let word = self.words[at];
        match field {
            Field::Bits(masks) => masks.iter().map(|mask| self.with(at, &[word ^ mask])).collect(),
            Field::Float if self.float(at).is_nan() => vec![self.with(at, &[0])],
            Field::Float => vec![self.with(at, &[word ^ 1])],
            Field::Double if self.double(at).is_nan() => vec![self.with(at, &[0, 0])],
            Field::Double => vec![self.with(at, &[word ^ 1]), self.with(at + 1, &[self.words[at + 1] ^ 1])],
        }
    }

    /// The line with the other sign, and with a NaN, in its first float and in its first f64 that is a number but 0.
    fn far_off(&self) -> Vec<Case> {
        let usual = |x: f64| !x.is_nan() && x != 0.0;
        let is_float = |at: usize, field: Field| matches!(field, Field::Float) && usual(self.float(at) as f64);
        let is_double = |at: usize, field: Field| matches!(field, Field::Double) && usual(self.double(at));
        let first = |is: &dyn Fn(usize, Field) -> bool| self.fields.iter().find(|(at, field)| is(*at, *field));
        let places = [(first(&is_float), 0x7FC0_0000), (first(&is_double), 0x7FF8_0000)];
        let found = places.into_iter().filter_map(|(place, nan)| Some((place?.0, nan)));
        found
            .flat_map(|(at, nan)| [self.words[at] ^ 0x8000_0000, nan].map(|word| self.with(at, &[word])))
            .collect()
    }

    /// The line with every zero of the answer of the other sign, and every NaN another.
    fn alike(&self) -> Option<Case> {
        let mut other = self.clone();
        for (at, field) in &self.fields {
            match field {
                Field::Float if self.float(*at) == 0.0 => other.words[*at] ^= 0x8000_0000,
                Field::Float if self.float(*at).is_nan() => other.words[*at] = 0xFF80_0001,
                Field::Double if self.double(*at) == 0.0 => other.words[*at] ^= 0x8000_0000,
                Field::Double if self.double(*at).is_nan() => {
                    other.words[*at..=*at + 1].copy_from_slice(&[0xFFF0_0000, 1])
                }
                _ => (),
            }
        }
        Some(other).filter(|other| other.words != self.words)
    }
}

/// The cases by what they are about.
fn by_key(cases: &[Case]) -> BTreeMap<[u32; 4], Vec<&Case>> {
    let mut keys: BTreeMap<_, Vec<&Case>> = BTreeMap::new();
    cases
        .iter()
        .for_each(|case| keys.entry(case.key).or_default().push(case));
    keys
}

/// Of each kind the first lines with a zero or a NaN in the answer, until each such word that the kind has was changed.
pub fn alike(cases: &[Case]) -> Vec<Case> {
    let mut out = Vec::new();
    for of in by_key(cases).into_values() {
        let mut seen = Vec::new();
        for (case, other) in of.iter().filter_map(|case| Some((case, case.alike()?))) {
            let changed = case.words.iter().zip(&other.words).filter(|(a, b)| a != b);
            let words: Vec<u32> = changed.map(|(word, _)| *word).collect();
            if words.iter().any(|word| !seen.contains(word)) {
                seen.extend(words);
                out.push(other);
            }
        }
    }
    out
}

/// Of each kind one line, a short one that is done and has some places of what was lent, with each field of its answer wrong in turn. Where its lists
/// are too long for a line, only its number and what was lent.
pub fn wrong(cases: &[Case]) -> Vec<Case> {
    let spoiled = |of: Vec<&Case>| -> Vec<Case> {
        let most = of.iter().map(|case| case.lent).max().unwrap_or(0).min(4);
        let enough = of.into_iter().filter(|case| case.lent >= most);
        let case = enough.min_by_key(|case| (case.code, case.far_off().is_empty(), case.words.len()));
        case.map_or(vec![], |case| {
            let is_of = |k: usize| !case.long || k == 0 || k >= case.fields.len() - case.lent;
            let fields = case.fields.iter().enumerate().filter(|(k, _)| is_of(*k));
            let wrong = fields.flat_map(|(_, (at, field))| case.spoiled(*at, *field));
            wrong.chain(if case.long { vec![] } else { case.far_off() }).collect()
        })
    };
    by_key(cases).into_values().flat_map(spoiled).collect()
}
