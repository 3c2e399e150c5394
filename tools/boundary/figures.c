/* The time figures. */
#include "check.h"

/* sum 64, squares 800, sizes 72; crossings of the mean at places 1 and 5; the last edges rise in 2 samples and fall in 1. Every figure has a value of its own */
static const float samples[] = {-1, 13, 9, 13, -3, 9, 13, 11};

/* of amplitude 1 and frequency 4: a sample of an edge is 1/32 s */
static tj_time_figures expected(void) {
  tj_time_figures figures;
  figures.peak_to_peak = 16;
  figures.max = 13;
  figures.min = -3;
  figures.positive_peak = 5;
  figures.negative_peak = 11;
  figures.average = 8;
  figures.dc_rms = 10;
  figures.ac_rms = 6;
  figures.duty_cycle_pos = 0.75f;
  figures.duty_cycle_neg = 0.25f;
  figures.rise_time = 0.0625f;
  figures.fall_time = 0.03125f;
  figures.crest_factor = 1.3f;
  figures.frequency = 2;
  figures.period = 0.5f;
  figures.form_factor = 10.0f / 9;
  figures.overshoot = 75;
  figures.undershoot = 12.5f;
  figures.slew_rate = 128;
  figures.not_numbers = figures.infinite = 0;
  return figures;
}

/* samples by their bits: NaN, quiet and signalling, of either sign; the infinities; the largest numbers, which are neither */
static const union {
  uint32_t bits[8];
  float samples[8];
} damaged = {{0x7FC00000, 0x7F800001, 0xFFFFFFFF, 0xFF800001, 0xFF800000, 0x7F800000, 0x7F7FFFFF, 0xFF7FFFFF}};

static void counts_are(tj_time_answer got, uint32_t not_numbers, uint32_t infinite) {
  IS(got.code, 0);
  IS(got.figures.not_numbers, not_numbers);
  IS(got.figures.infinite, infinite);
}

/* the first n of those, for every wave; the earlier counts are gone */
static void check_counts(void) {
  static const uint32_t not_numbers[] = {1, 2, 3, 4, 4, 4, 4, 4}, infinite[] = {0, 0, 0, 0, 1, 2, 2, 2};
  for (size_t n = 1; n <= 8; n++)
    for (uint8_t wave = 0; wave < 4; wave++)
      counts_are(tj_calculate_time_figures(wave, 1, 4, own_figures(), damaged.samples, n), not_numbers[n - 1], infinite[n - 1]);
}

/* one sample in all places, and one place more than is taken */
static void check_many_damaged(uint32_t bits, uint32_t not_numbers, uint32_t infinite) {
  static union {
    uint32_t bits[MANY];
    float samples[MANY];
  } same;
  for (int i = 0; i < MANY; i++)
    same.bits[i] = bits;
  counts_are(tj_calculate_time_figures(0, 1, 0, own_figures(), same.samples, MANY - 1), not_numbers, infinite);
  tj_time_answer answer = tj_calculate_time_figures(0, 1, 0, own_figures(), same.samples, MANY);
  IS(answer.code, 3);
  figures_are(answer.figures, own_figures());
}

void check_figures(void) {
  called("tj_calculate_time_figures");
  tj_time_answer answer = tj_calculate_time_figures(3, 1, 4, own_figures(), samples, 8);
  IS(answer.code, 0);
  figures_are(answer.figures, expected());

  /* PWM of amplitude 13: 3 of 8 samples are there, and nothing lies beyond it */
  tj_time_figures pulses = expected();
  pulses.duty_cycle_pos = 0.375f;
  pulses.duty_cycle_neg = 0.625f;
  pulses.overshoot = 0;
  pulses.undershoot = 0;
  answer = tj_calculate_time_figures(1, 13, 4, own_figures(), samples, 8);
  IS(answer.code, 0);
  figures_are(answer.figures, pulses);

  /* no samples, and too many: the earlier record */
  answer = tj_calculate_time_figures(3, 1, 4, own_figures(), samples, 0);
  IS(answer.code, 0);
  figures_are(answer.figures, own_figures());
  answer = tj_calculate_time_figures(3, 1, 4, own_figures(), many, MANY);
  IS(answer.code, 3);
  figures_are(answer.figures, own_figures());

  called("tj_calculate_time_figures, its counts");
  check_counts();
  check_many_damaged(0xFF800001, 65536, 0);
  check_many_damaged(0xFF800000, 0, 65536);
}
