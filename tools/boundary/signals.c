/* Calls on a signal. What tells the fields of one type apart, in the port of a signal:
 * - voltage, current, active_power: tj_signal_new_power_port makes them three numbers; it and tj_signal_reset_waveform leave the four limits.
 * - frequency, phase_angle, apparent_power, power_factor, voltage_thd, voltage_crest_factor: tj_signal_new_power_port again, and tj_signal_set_duty_cycle.
 * - is_enabled and is_faulted: tj_signal_new, and tj_reset_power_params; the two arrays of harmonics: the calls that set one place.
 * No call tells apart power_factor and displacement_pf (both always 1 or absent); reactive_power, current_thd, current_crest_factor, efficiency, losses and
 * temperature; the four limits; the two energies. Each call only passes them on, or gives all of a group the same value: exchanged, nothing would differ. */
#include "check.h"

enum { N = 16 };
static float samples[N];

/* what new makes of a port before its readings: nothing but is_enabled */
static tj_signal made(uint8_t wave, float amplitude, float frequency, uint8_t edition) {
  tj_signal signal = zero_signal;
  signal.wave = wave;
  signal.edition = edition;
  signal.amplitude = amplitude;
  signal.frequency = frequency;
  signal.duty_cycle = 0.5f;
  signal.port.is_enabled = true;
  return signal;
}

static void answer_is(tj_signal_answer got, unsigned code, tj_signal wanted) {
  IS(got.code, code);
  signal_is(got.signal, wanted);
}

static void counts_are(tj_signal_answer got, uint32_t not_numbers, uint32_t infinite) {
  IS(got.code, 0);
  IS(got.signal.figures.not_numbers, not_numbers);
  IS(got.signal.figures.infinite, infinite);
}

/* PWM, 4 periods of 8, 8, 0, 0. Its mean square is 32, and its crest factor is 8 over the root, rounded again; a rise counts the sample that starts the fall */
static void check_new(void) {
  static const float pulses[] = {8, 8, 0, 0, 8, 8, 0, 0, 8, 8, 0, 0, 8, 8, 0, 0};
  const float root = 5.656854249492381f;
  tj_signal wanted = made(1, 8, 4, 1);
  wanted.figures.peak_to_peak = wanted.figures.max = 8;
  wanted.figures.positive_peak = wanted.figures.negative_peak = wanted.figures.average = wanted.figures.ac_rms = 4;
  wanted.figures.dc_rms = root;
  wanted.figures.duty_cycle_pos = wanted.figures.duty_cycle_neg = 0.5f;
  wanted.figures.rise_time = 0.015625f;
  wanted.figures.crest_factor = 8 / root;
  wanted.figures.frequency = 4;
  wanted.figures.period = 0.25f;
  wanted.figures.form_factor = root / 4;
  wanted.figures.slew_rate = 128;
  wanted.port.voltage = root;
  wanted.port.frequency = reading(true, 4);
  wanted.port.voltage_crest_factor = reading(true, 8 / root);
  wanted.port.voltage_thd = reading(true, 0);
  called("tj_signal_new");
  answer_is(tj_signal_new(1, 8, 4, 1, samples, N), 0, wanted);
  ARE(samples, pulses);
}

/* the frequency reading: absent for DC, whatever was given, and there for every other wave */
static void check_new_frequency(void) {
  tj_signal wanted = made(0, 3, 7, 2);
  wanted.figures.max = wanted.figures.min = wanted.figures.average = wanted.figures.dc_rms = 3;
  wanted.figures.duty_cycle_pos = wanted.figures.crest_factor = wanted.figures.form_factor = 1;
  wanted.port.voltage = 3;
  wanted.port.voltage_crest_factor = reading(true, 1);
  wanted.port.voltage_thd = reading(true, 0);
  called("tj_signal_new");
  answer_is(tj_signal_new(0, 3, 7, 2, samples, 4), 0, wanted);
  for (uint8_t wave = 1; wave < 4; wave++) {
    tj_signal_answer got = tj_signal_new(wave, 8, 4, 1, samples, N);
    IS(got.code, 0);
    IS(got.signal.wave, wave);
    reading_is(got.signal.port.frequency, reading(true, 4));
  }
}

/* constant 3: figures of a wave that never moves */
static void check_new_power_port(void) {
  static const float constant[] = {3, 3, 3, 3};
  tj_signal wanted = made(0, 3, 0, 2);
  wanted.figures.max = wanted.figures.min = wanted.figures.average = wanted.figures.dc_rms = 3;
  wanted.figures.duty_cycle_pos = wanted.figures.crest_factor = wanted.figures.form_factor = 1;
  wanted.port.voltage = 3;
  wanted.port.current = -5;
  wanted.port.frequency = reading(true, 7);
  wanted.port.phase_angle = reading(true, 0);
  wanted.port.active_power = -15;
  wanted.port.apparent_power = reading(true, 15);
  wanted.port.power_factor = reading(true, 1);
  wanted.port.displacement_pf = reading(true, 1);
  wanted.port.voltage_crest_factor = reading(true, 1);
  wanted.port.voltage_thd = reading(true, 0);
  called("tj_signal_new_power_port");
  answer_is(tj_signal_new_power_port(3, -5, reading(true, 7), 2, samples, 4), 0, wanted);
  ARE(samples, constant);
  wanted.port.frequency = reading(false, 0);
  answer_is(tj_signal_new_power_port(3, -5, reading(false, 7), 2, samples, 4), 0, wanted);
}

/* a quarter of the period of 1 s ahead; the port keeps what it has, but for voltage (the root of 24), crest factor and THD */
static void check_set_phase(void) {
  static const float ramp[] = {-4, 0, 4, -8};
  called("tj_signal_set_phase");
  tj_signal signal = own_signal();
  signal.wave = 3;
  signal.amplitude = 8;
  signal.frequency = 1;
  tj_signal_answer answer = tj_signal_set_phase(signal, 90, samples, 4);
  ARE(samples, ramp);
  signal.phase = 90;
  signal.figures = answer.signal.figures; /* these were checked in figures.c */
  IS(signal.figures.dc_rms, 4.898979485566356f);
  counts_are(answer, 0, 0);
  signal.port.voltage = 4.898979485566356f;
  signal.port.voltage_crest_factor = reading(true, signal.figures.crest_factor);
  signal.port.voltage_thd = reading(true, 0); /* bin 2 is not below half */
  signal.thd = 0;
  answer_is(answer, 0, signal);

  /* DC: voltage is the average; at frequency 403 the earlier THD stays */
  signal = own_signal();
  signal.wave = 0;
  signal.amplitude = -2;
  answer = tj_signal_set_phase(signal, 90, samples, 8);
  signal.phase = 90;
  signal.figures = zero_figures;
  signal.figures.max = signal.figures.min = signal.figures.average = -2;
  signal.figures.dc_rms = 2;
  signal.figures.duty_cycle_neg = signal.figures.crest_factor = signal.figures.form_factor = 1;
  signal.port.voltage = -2;
  signal.port.voltage_crest_factor = reading(true, 1);
  signal.port.voltage_thd = reading(true, 405);
  answer_is(answer, 0, signal);
}

/* one sample of 8 and 15 of 0: every bin of the spectrum is 1, and of bin 3 one harmonic lies below half: a THD of 100 */
static void check_set_duty_cycle(void) {
  static const float pulse[] = {8, 0, 0, 0, 0, 0, 0, 0, 0, 0, 0, 0, 0, 0, 0, 0};
  called("tj_signal_set_duty_cycle");
  tj_signal signal = own_signal();
  signal.wave = 1;
  signal.amplitude = 8;
  signal.frequency = 3;
  tj_signal_answer answer = tj_signal_set_duty_cycle(signal, 0.03125f, samples, N);
  ARE(samples, pulse);
  signal.duty_cycle = 0.03125f;
  signal.figures = zero_figures;
  signal.figures.peak_to_peak = signal.figures.max = 8;
  signal.figures.positive_peak = 7.5f;
  signal.figures.negative_peak = signal.figures.average = 0.5f;
  signal.figures.dc_rms = 2;
  signal.figures.ac_rms = 1.9364916731037085f; /* the root of 15/4 */
  signal.figures.duty_cycle_pos = 0.0625f;
  signal.figures.duty_cycle_neg = 0.9375f;
  signal.figures.crest_factor = signal.figures.form_factor = 4;
  signal.figures.slew_rate = 128;
  signal.thd = 100;
  signal.port.voltage = 2;
  signal.port.voltage_crest_factor = reading(true, 4);
  signal.port.voltage_thd = reading(true, 100);
  answer_is(answer, 0, signal);
}

static void check_reset_waveform(void) {
  static const float silence[] = {0, 0, 0, 0, 9};
  called("tj_signal_reset_waveform");
  for (int i = 0; i < N; i++)
    samples[i] = 9;
  tj_signal wanted = own_signal();
  wanted.figures = zero_figures;
  wanted.thd = 0;
  wanted.port.voltage = 0;
  wanted.port.voltage_crest_factor = reading(true, 0);
  wanted.port.voltage_thd = reading(true, 0);
  answer_is(tj_signal_reset_waveform(own_signal(), samples, 4), 0, wanted);
  ARE(samples, silence);
}

/* the counts from call to call: pulses of minus infinity, as many samples as the duty cycle says; a triangular wave at frequency 0, which is NaN throughout */
static void check_counts(void) {
  static const union {
    uint32_t bits;
    float value;
  } minus_infinity = {0xFF800000};
  called("the counts of a signal");
  tj_signal_answer answer = tj_signal_new(1, minus_infinity.value, 4, 1, samples, N);
  counts_are(answer, 0, 8);
  answer = tj_signal_set_duty_cycle(answer.signal, 0.25f, samples, N);
  counts_are(answer, 0, 4);
  answer = tj_signal_set_phase(answer.signal, 90, samples, 4);
  counts_are(answer, 0, 1);
  counts_are(tj_signal_set_phase(answer.signal, 90, samples, 0), 0, 1);
  answer = tj_signal_reset_waveform(answer.signal, samples, N);
  counts_are(answer, 0, 0);

  answer = tj_signal_new(2, 8, 0, 2, samples, N);
  counts_are(answer, N, 0);
  counts_are(tj_signal_reset_waveform(answer.signal, samples, 0), 0, 0);
  counts_are(tj_signal_set_phase(own_signal(), 90, samples, 0), 0xFFFFFFFF, 7);
  counts_are(tj_signal_set_duty_cycle(own_signal(), 0.25f, samples, 0), 0xFFFFFFFF, 7);
  counts_are(tj_signal_new(2, 8, 0, 2, samples, 0), 0, 0);
  counts_are(tj_signal_new_power_port(minus_infinity.value, 1, reading(false, 0), 1, samples, 4), 0, 4);
}

/* no length but 0, 1 and powers of two up to 4,096, and none above 65,536: a new signal is the zero state, another comes back as it was */
static void check_refusals(void) {
  static const struct {
    uint8_t code;
    size_t n;
  } refused[] = {{3, MANY}, {4, 3}};
  for (int i = 0; i < 2; i++) {
    uint8_t code = refused[i].code;
    size_t n = refused[i].n;
    called("a refused tj_signal_new");
    answer_is(tj_signal_new(1, 8, 4, 1, many, n), code, zero_signal);
    called("a refused tj_signal_new_power_port");
    answer_is(tj_signal_new_power_port(3, -5, reading(true, 7), 2, many, n), code, zero_signal);
    called("a refused tj_signal_set_phase");
    answer_is(tj_signal_set_phase(own_signal(), 90, many, n), code, own_signal());
    called("a refused tj_signal_set_duty_cycle");
    answer_is(tj_signal_set_duty_cycle(own_signal(), 0.25f, many, n), code, own_signal());
    called("a refused tj_signal_reset_waveform");
    answer_is(tj_signal_reset_waveform(own_signal(), many, n), code, own_signal());
  }
  many_stayed();
}

void check_signal(void) {
  check_new();
  check_new_frequency();
  check_new_power_port();
  check_set_phase();
  check_set_duty_cycle();
  check_reset_waveform();
  check_counts();
  check_refusals();
}
