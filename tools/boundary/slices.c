/* Calls on numbers and slices: number kit, samples, timing, power, spectrum, quality, generator. */
#include "check.h"

void check_numbers(void) {
  called("tj_narrow");
  IS(tj_narrow(1.5), 1.5);
  IS(tj_narrow(1 + 1.0 / (1 << 24)), 1); /* a tie: to the even one */
  called("tj_sqrt32");
  IS(tj_sqrt32(2.25f), 1.5);
  called("tj_sqrt64");
  IS(tj_sqrt64(2), 1.4142135623730951);
  called("tj_sqrt64_narrowed");
  IS(tj_sqrt64_narrowed(2), 1.4142135623730951f);
  called("tj_abs32");
  IS(tj_abs32(-2.5f), 2.5);
  called("tj_round32");
  IS(tj_round32(-2.5f), -3);
}

static void check_one_signal(void) {
  static const float moved[] = {9, 10, 4}, scaled[] = {72, 80, 4};
  float samples[] = {1, 2, 4};
  called("tj_add_dc_offset");
  IS(tj_add_dc_offset(samples, 2, 8), 0);
  ARE(samples, moved);
  IS(tj_add_dc_offset(many, MANY, 8), 3);
  called("tj_scale");
  IS(tj_scale(samples, 2, 8), 0);
  ARE(samples, scaled);
  IS(tj_scale(many, MANY, 8), 3);
  many_stayed();
}

static void check_two_signals(void) {
  static const float a[] = {1, 2, 4}, b[] = {8, 16, 32, 64}, sums[] = {9, 18, 36, 128, 256};
  float output[] = {3, 5, 7, 128, 256};
  called("tj_add_signals");
  IS(tj_add_signals(a, 3, b, 4, output, 5), 0);
  ARE(output, sums);
  IS(tj_add_signals(many, MANY, b, 4, output, 5), 3);
  IS(tj_add_signals(a, 3, many, MANY, output, 5), 3);
  ARE(output, sums);
}

static void figure_is(tj_figure got, unsigned code, float value) {
  IS(got.code, code);
  IS(got.value, value);
}

static void check_timing(void) {
  static const float swing[] = {-1, 1, -1, 1, -1, 1}, steps[] = {0, 3, 1};
  called("tj_measure_frequency");
  figure_is(tj_measure_frequency(swing, 6, 12), 0, 6);
  figure_is(tj_measure_frequency(many, MANY, 12), 3, 0);
  called("tj_slew_rate");
  figure_is(tj_slew_rate(steps, 3, 2), 0, 6);
  figure_is(tj_slew_rate(many, MANY, 2), 3, 0);
}

void check_samples(void) {
  check_one_signal();
  check_two_signals();
  check_timing();
}

static void power_is(tj_power_answer got, unsigned code, float p, float nonactive, float s, float pf) {
  IS(got.code, code);
  IS(got.power.p, p);
  IS(got.power.nonactive, nonactive);
  IS(got.power.s, s);
  IS(got.power.pf, pf);
}

/* roots of mean squares 5 and 10. Voltage and current may be exchanged: every figure and refusal is the same then */
void check_power(void) {
  static const float voltage[] = {1, 7}, current[] = {10, 10};
  static const int16_t volts[] = {1, 7}, amps[] = {10, 10};
  called("tj_compute_power");
  power_is(tj_compute_power(voltage, 2, current, 2, 6), 0, 40, 30, 50, 0.8f);
  power_is(tj_compute_power(voltage, 2, current, 1, 6), 1, 0, 0, 0, 0);
  power_is(tj_compute_power(voltage, 1, many, MANY, 6), 3, 0, 0, 0, 0);
  called("tj_power_of_codes");
  power_is(tj_power_of_codes(volts, 2, amps, 2), 0, 40, 30, 50, 0.8f);
  power_is(tj_power_of_codes(volts, 1, amps, 2), 1, 0, 0, 0, 0);
  power_is(tj_power_of_codes(many_codes, MANY, amps, 1), 3, 0, 0, 0, 0);
}

static void fundamental_is(tj_fundamental got, unsigned code, float active, float reactive) {
  IS(got.code, code);
  IS(got.active, active);
  IS(got.reactive, reactive);
}

/* 3 before 1, 1 before 4, 4 before 8: each call would be refused by those after it too */
static void check_fundamental_refused(const float *voltage, const float *current) {
  fundamental_is(tj_fundamental_power(many, MANY, current, 4, 0), 3, 0, 0);
  fundamental_is(tj_fundamental_power(voltage, 4, many, MANY, 0), 3, 0, 0);
  fundamental_is(tj_fundamental_power(many, MANY, many, MANY, 0), 3, 0, 0);
  fundamental_is(tj_fundamental_power(voltage, 3, current, 4, 0), 1, 0, 0);
  fundamental_is(tj_fundamental_power(voltage, 4, current, 3, 0), 1, 0, 0);
  fundamental_is(tj_fundamental_power(voltage, 3, current, 3, 0), 4, 0, 0);
  fundamental_is(tj_fundamental_power(many, 8192, many, 8192, 1), 4, 0, 0);
  fundamental_is(tj_fundamental_power(voltage, 4, current, 4, 0), 8, 0, 0);
  fundamental_is(tj_fundamental_power(voltage, 4, current, 4, 2), 8, 0, 0);
  fundamental_is(tj_fundamental_power(voltage, 4, current, 4, (size_t)-1), 8, 0, 0);
  fundamental_is(tj_fundamental_power(voltage, 2, current, 2, 1), 8, 0, 0);
  fundamental_is(tj_fundamental_power(voltage, 1, current, 1, 1), 8, 0, 0);
  fundamental_is(tj_fundamental_power(voltage, 0, current, 0, 1), 8, 0, 0);
}

/* document 02's example, a turn and the same a quarter behind; then sums 2, 0 and 4, -6; and of eight samples at bin 2 sums 0, -15 and 4, -15 */
void check_fundamental(void) {
  static const float one[] = {1, 0, -1, 0}, other[] = {0, 1, 0, -1};
  static const float eight[] = {3, 1, -4, 1, -5, 9, 2, -6}, others[] = {2, 7, 1, -8, 2, 8, -1, 8};
  float voltage[] = {5, 4, 3, 4, 7}, current[] = {3, 1, -1, -5, 8};
  static const float voltage_left[] = {5, 4, 3, 4, 7}, current_left[] = {3, 1, -1, -5, 8};
  called("tj_fundamental_power");
  fundamental_is(tj_fundamental_power(one, 4, other, 4, 1), 0, 0, 0.5f);
  fundamental_is(tj_fundamental_power(other, 4, one, 4, 1), 0, 0, -0.5f);
  fundamental_is(tj_fundamental_power(one, 4, one, 4, 1), 0, 0.5f, 0);
  fundamental_is(tj_fundamental_power(voltage, 4, current, 4, 1), 0, 1, 1.5f);
  fundamental_is(tj_fundamental_power(eight, 8, others, 8, 2), 0, 7.03125f, -1.875f);
  check_fundamental_refused(voltage, current);
  ARE(voltage, voltage_left);
  ARE(current, current_left);
  many_stayed();
}

/* 4 and one turn of height 1: bin 0 is 4, bin 1 is 1 */
static const float turn[] = {5, 4, 3, 4};

static void check_spectrum_alone(void) {
  static const float bins[] = {4, 1, 16};
  float output[] = {32, 64, 16};
  called("tj_dft_magnitude_spectrum");
  IS(tj_dft_magnitude_spectrum(turn, 4, output, 3), 0);
  ARE(output, bins);
  IS(tj_dft_magnitude_spectrum(turn, 4, output, 1), 2);
  IS(tj_dft_magnitude_spectrum(many, MANY, output, 3), 3);
  IS(tj_dft_magnitude_spectrum(turn, 3, output, 3), 4);
  ARE(output, bins);
}

static void check_spectrum_in(void) {
  static const float bins[] = {4, 1, 16};
  static const double sines[] = {0, 1, 0, -1, 128};
  float output[] = {32, 64, 16};
  double scratch[] = {8, 8, 8, 8, 128};
  called("tj_dft_magnitude_spectrum_in");
  IS(tj_dft_magnitude_spectrum_in(turn, 4, scratch, 5, output, 3), 0);
  ARE(output, bins);
  ARE(scratch, sines);
  IS(tj_dft_magnitude_spectrum_in(turn, 4, scratch, 5, output, 1), 2);
  IS(tj_dft_magnitude_spectrum_in(turn, 4, scratch, 3, output, 3), 2);
  IS(tj_dft_magnitude_spectrum_in(many, MANY, scratch, 5, output, 3), 3);
  IS(tj_dft_magnitude_spectrum_in(turn, 3, scratch, 5, output, 3), 4);
  ARE(output, bins);
  ARE(scratch, sines);
}

void check_spectrum(void) {
  check_spectrum_alone();
  check_spectrum_in();
}

static void quotient_is(tj_quotient got, unsigned code, unsigned kind, double ratio) {
  IS(got.code, code);
  IS(got.kind, kind);
  IS(got.ratio, ratio);
}

/* of bin 2: power 64, harmonics 16, all but bin 0 together 85 */
static const float spectrum[] = {9, 2, 8, 1, 4};

static void check_quotients(void) {
  static const float silent[] = {9, 0, 8};
  called("tj_snr_quotient");
  quotient_is(tj_snr_quotient(spectrum, 5, 2), 0, 0, 64.0 / 5);
  quotient_is(tj_snr_quotient(spectrum, 2, 5), 0, 2, 0);
  quotient_is(tj_snr_quotient(many, MANY, 2), 3, 0, 0);
  called("tj_sinad_quotient");
  quotient_is(tj_sinad_quotient(spectrum, 5, 2), 0, 0, 64.0 / 21);
  quotient_is(tj_sinad_quotient(spectrum, 2, 5), 0, 2, 0);
  quotient_is(tj_sinad_quotient(many, MANY, 2), 3, 0, 0);
  called("tj_sfdr_quotient");
  quotient_is(tj_sfdr_quotient(spectrum, 5, 2), 0, 0, 2);
  quotient_is(tj_sfdr_quotient(silent, 3, 2), 0, 1, 0);
  quotient_is(tj_sfdr_quotient(spectrum, 2, 5), 0, 2, 0);
  quotient_is(tj_sfdr_quotient(many, MANY, 2), 3, 0, 0);
}

void check_quality(void) {
  called("tj_compute_thd_from_spectrum");
  figure_is(tj_compute_thd_from_spectrum(spectrum, 5, 2), 0, 50);
  figure_is(tj_compute_thd_from_spectrum(spectrum, 2, 5), 0, 0);
  figure_is(tj_compute_thd_from_spectrum(many, MANY, 2), 3, 0);
  check_quotients();
  called("tj_compute_enob");
  IS(tj_compute_enob(1.76f), 0);
  IS(tj_compute_enob(0), -1.76f / 6.02f);
}

/* phase has no effect on PWM, and duty_cycle none on the ramps: each is told from the others by the wave that it does act on */
void check_generator(void) {
  static const float constant[] = {3, 3, 3, 3, 3, 3, 3, 3}, pulses[] = {3, 0, 0, 0, 3, 0, 0, 0};
  static const float triangle[] = {0, 8, 0, -8, 3}, ramps[] = {-6, -2, 2, 6, -6, -2, 2, 6};
  float samples[8];
  called("tj_generate_samples");
  IS(tj_generate_samples(0, 3, 90, 2, 0.25f, samples, 8), 0);
  ARE(samples, constant);
  IS(tj_generate_samples(1, 3, 90, 2, 0.25f, samples, 8), 0);
  ARE(samples, pulses);
  /* a quarter of the period of 1 s ahead; the fifth place stays */
  IS(tj_generate_samples(2, 8, 90, 1, 0.25f, samples, 4), 0);
  ARE(samples, triangle);
  /* an eighth of the period of 1/2 s ahead */
  IS(tj_generate_samples(3, 8, 45, 2, 0.25f, samples, 8), 0);
  ARE(samples, ramps);
  IS(tj_generate_samples(4, 3, 90, 2, 0.25f, samples, 8), 0);
  ARE(samples, constant);
  IS(tj_generate_samples(0, 3, 90, 2, 0.25f, many, MANY), 3);
  many_stayed();
}
