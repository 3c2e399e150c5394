
// ============================================================================
// What follows is not the published text. It stands in the same module so that
// the comparisons can reach what is private.
// ============================================================================

impl<'a> Signal<'a> {
    /// A signal over these samples as they are, with these earlier figures: nothing is generated, nothing calculated.
    /// Everything else is as `new` leaves it on no samples.
    pub fn tail_over(
        wave_type: SignalType,
        amplitude: f32,
        frequency: f32,
        earlier: &SignalMetrics,
        samples: &'a mut [f32],
    ) -> Signal<'a> {
        let mut signal = Signal::new(wave_type, amplitude, frequency, &mut []);
        signal.num_samples = samples.len() as u32;
        signal.samples = samples;
        signal.tail_set_metrics(earlier);
        signal
    }

    /// 01's zero state beside these samples, which stay: no reading, no flag, no duty cycle.
    pub fn tail_zero(samples: &'a mut [f32]) -> Signal<'a> {
        let mut signal = Signal::tail_over(SignalType::DC, 0.0, 0.0, &SignalMetrics::tail_from(&[0.0; 24]), samples);
        signal.reset_power_params();
        signal.set_state(false, false);
        signal.duty_cycle = 0.0;
        signal
    }

    /// The same signal beside other samples, which stay.
    pub fn tail_beside(self, samples: &'a mut [f32]) -> Signal<'a> {
        Signal {
            num_samples: samples.len() as u32,
            samples,
            ..self
        }
    }

    /// Puts these figures in place of those that the signal keeps.
    pub fn tail_set_metrics(&mut self, figures: &SignalMetrics) {
        self.peak_to_peak = figures.peak_to_peak;
        self.max = figures.max;
        self.min = figures.min;
        self.positive_peak = figures.positive_peak;
        self.negative_peak = figures.negative_peak;
        self.average = figures.average;
        self.dc_rms = figures.dc_rms;
        self.ac_rms = figures.ac_rms;
        self.duty_cycle_pos = figures.duty_cycle_pos;
        self.duty_cycle_neg = figures.duty_cycle_neg;
        self.rise_time = figures.rise_time;
        self.fall_time = figures.fall_time;
        self.crest_factor = figures.crest_factor;
        self.thd = figures.thd;
        self.measured_frequency = figures.frequency;
        self.measured_period = figures.period;
        self.form_factor = figures.form_factor;
        self.overshoot = figures.overshoot;
        self.undershoot = figures.undershoot;
        self.slew_rate_val = figures.slew_rate;
        self.snr = figures.snr;
        self.sinad = figures.sinad;
        self.enob = figures.enob;
        self.sfdr = figures.sfdr;
    }

    /// Runs `calculate_metrics`. `get_metrics` reads all that it writes.
    pub fn tail_calculate(&mut self) {
        self.calculate_metrics()
    }

    /// Fills the samples by `generate_samples`, with any phase and any duty cycle.
    pub fn tail_generate(
        wave_type: SignalType,
        amplitude: f32,
        phase: f32,
        frequency: f32,
        duty_cycle: f32,
        samples: &'a mut [f32],
    ) {
        let mut signal = Signal::new(wave_type, amplitude, frequency, &mut []);
        signal.num_samples = samples.len() as u32;
        signal.samples = samples;
        signal.phase = phase;
        signal.duty_cycle = duty_cycle;
        signal.generate_samples();
    }

    /// The magnitude of one bin, as `calculate_metrics` takes it.
    pub fn tail_bin(&self, bin: usize) -> f32 {
        self.compute_dft_bin_magnitude(bin)
    }

    /// The wave and the settings that have no getter of their own.
    pub fn tail_settings(&self) -> TailSettings {
        TailSettings {
            wave_type: self.wave_type.clone(),
            amplitude: self.amplitude,
            phase: self.phase,
            frequency: self.frequency,
            duty_cycle: self.duty_cycle,
        }
    }

    /// Puts the wave and these settings in place without generating anything.
    pub fn tail_set(&mut self, settings: TailSettings) {
        self.wave_type = settings.wave_type;
        self.amplitude = settings.amplitude;
        self.phase = settings.phase;
        self.frequency = settings.frequency;
        self.duty_cycle = settings.duty_cycle;
    }
}

/// The wave and settings of a signal.
#[derive(Debug, Clone, PartialEq)]
pub struct TailSettings {
    pub wave_type: SignalType,
    pub amplitude: f32,
    pub phase: f32,
    pub frequency: f32,
    pub duty_cycle: f32,
}

impl SignalMetrics {
    /// A record of 24 figures, in the order of the fields.
    pub fn tail_from(f: &[f32; 24]) -> SignalMetrics {
        SignalMetrics {
            peak_to_peak: f[0],
            max: f[1],
            min: f[2],
            positive_peak: f[3],
            negative_peak: f[4],
            average: f[5],
            dc_rms: f[6],
            ac_rms: f[7],
            duty_cycle_pos: f[8],
            duty_cycle_neg: f[9],
            rise_time: f[10],
            fall_time: f[11],
            crest_factor: f[12],
            thd: f[13],
            frequency: f[14],
            period: f[15],
            form_factor: f[16],
            overshoot: f[17],
            undershoot: f[18],
            slew_rate: f[19],
            snr: f[20],
            sinad: f[21],
            enob: f[22],
            sfdr: f[23],
        }
    }

    /// The 19 figures of the time record, in the order of include/tilljingle.h: the fields without thd and the last four.
    pub fn tail_time(&self) -> [f32; 19] {
        [
            self.peak_to_peak,
            self.max,
            self.min,
            self.positive_peak,
            self.negative_peak,
            self.average,
            self.dc_rms,
            self.ac_rms,
            self.duty_cycle_pos,
            self.duty_cycle_neg,
            self.rise_time,
            self.fall_time,
            self.crest_factor,
            self.frequency,
            self.period,
            self.form_factor,
            self.overshoot,
            self.undershoot,
            self.slew_rate,
        ]
    }
}
