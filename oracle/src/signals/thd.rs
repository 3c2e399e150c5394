//! The THD that a signal keeps: 01's rules, over a table made here, and for the highest order that is asked for.

use std::f64::consts::PI;

/// 01's quarter wave: the whole numbers nearest to 2^30 times the sine of j/4096 of a turn.
pub struct Quarter(Vec<f64>);

/// The fundamental of a usable bin, and the THD that follows.
pub struct Heard {
    pub fundamental: f32,
    pub thd: f32,
}

impl Quarter {
    pub fn new() -> Quarter {
        let entry = |j: u32| (2f64.powi(30) * (2.0 * PI * j as f64 / 4096.0).sin()).round();
        Quarter((0..=1024).map(entry).collect())
    }

    /// The sine of so many steps, by quadrant.
    fn sine(&self, steps: usize) -> f64 {
        let (quadrant, j) = (steps / 1024 % 4, steps % 1024);
        let entry = [self.0[j], self.0[1024 - j], -self.0[j], -self.0[1024 - j]][quadrant];
        entry / 2f64.powi(30)
    }

    /// The Rust's sums of one bin, the angle in steps.
    pub fn sums(&self, samples: &[f32], bin: usize) -> (f64, f64) {
        let n = samples.len();
        let (mut real, mut imag) = (0f64, 0f64);
        for (i, &sample) in samples.iter().enumerate() {
            let steps = bin * i % n * 4096 / n;
            real += sample as f64 * self.sine(steps + 1024);
            imag -= sample as f64 * self.sine(steps);
        }
        (real, imag)
    }

    /// Its magnitude.
    pub fn magnitude(&self, samples: &[f32], bin: usize) -> f32 {
        let (real, imag) = self.sums(samples, bin);
        ((real * real + imag * imag).sqrt() * 2.0 / samples.len() as f64) as f32
    }

    /// Step 10 at a usable bin: orders up to the highest, bins below half.
    pub fn heard(&self, samples: &[f32], bin: usize, highest: usize) -> Heard {
        let fundamental = self.magnitude(samples, bin);
        let mut power = 0f64;
        for order in 2..=highest {
            if bin * order < samples.len() / 2 {
                let magnitude = self.magnitude(samples, bin * order) as f64;
                power += magnitude * magnitude;
            }
        }
        Heard {
            fundamental,
            thd: power.sqrt() as f32 / fundamental * 100.0,
        }
    }

    /// The THD after a call that generates, where it was `earlier`: kept where the bin is unusable or the fundamental isn't above 1e-12.
    pub fn thd(&self, samples: &[f32], frequency: f32, highest: usize, earlier: f32) -> f32 {
        match usable_bin(frequency, samples.len()).map(|bin| self.heard(samples, bin, highest)) {
            Some(heard) if heard.fundamental > 1e-12 => heard.thd,
            _ => earlier,
        }
    }
}

/// The fundamental's bin, where it is usable.
pub fn usable_bin(frequency: f32, n: usize) -> Option<usize> {
    let bin = (frequency * n as f32 / n as f32).round() as usize;
    (n / 2 > 1 && frequency > 0.0 && bin > 0 && bin < n / 2).then(|| bin)
}

/// Whether 01 claims that THD is within 0.05 points: finite samples, the largest size from 1 to 2^30, and the fundamental at least a tenth of it.
pub fn claimed(samples: &[f32], fundamental: f32) -> bool {
    let largest = samples.iter().fold(0f64, |most, x| most.max(x.abs() as f64));
    samples.iter().all(|x| x.is_finite())
        && (1.0..=2f64.powi(30)).contains(&largest)
        && fundamental as f64 >= largest / 10.0
}
