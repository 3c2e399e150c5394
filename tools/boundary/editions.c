/* The edition of a signal: how far its THD goes, that every call keeps it, and what is answered where it is neither 1 nor 2. */
#include "check.h"

enum { N = 1024 };
static float samples[N + 1];

/* how many of the samples from the first on, up to the last, are not this */
static size_t unlike(float value, size_t first, size_t last) {
  size_t count = 0;
  for (size_t i = first; i <= last; i++)
    count += samples[i] != value;
  return count;
}

/* one sample of n / 2 at the first place and else 0: every bin of the spectrum is 1, and THD is 100 times the root of how many orders above 1 count */
static tj_signal pulse(float frequency, uint8_t edition, size_t n) {
  tj_signal_answer answer = tj_signal_new(1, (float)n / 2, frequency, edition, samples, n);
  IS(answer.code, 0);
  answer = tj_signal_set_duty_cycle(answer.signal, 0.5f / (float)n, samples, n);
  IS(answer.code, 0);
  IS(samples[0], (float)n / 2);
  IS(unlike(0, 1, n - 1), 0);
  return answer.signal;
}

/* the roots of 15, 30, 38 and 39 */
static const float root15 = 3.872983346207417f, root30 = 5.477225575051661f, root38 = 6.164414002968976f, root39 = 6.244997998398398f;

/* every order counts up to that of the edition, whose bin is below half: of bin 1 of 64 they end at 31, of bin 13 of 1,024 at 39, of bin 29 at 17, and of
 * bin 31 at 16: there, and with fewer, the editions agree in all but their number */
static void check_orders(void) {
  const struct {
    size_t n;
    float frequency, first, second;
  } orders[] = {
      {64, 1, root15, root30}, {64, 3, 3, 3}, {256, 3, root15, root39}, {N, 13, root15, root38}, {N, 29, root15, 4}, {N, 31, root15, root15},
  };
  called("the THD of both editions");
  for (size_t i = 0; i < sizeof(orders) / sizeof(orders[0]); i++) {
    tj_signal first = pulse(orders[i].frequency, 1, orders[i].n), second = pulse(orders[i].frequency, 2, orders[i].n);
    IS(first.edition, 1);
    IS(first.thd, orders[i].first * 100);
    IS(first.port.voltage_thd.value, orders[i].first * 100);
    IS(second.edition, 2);
    IS(second.thd, orders[i].second * 100);
    IS(second.port.voltage_thd.value, orders[i].second * 100);
    second.edition = 1;
    second.thd = first.thd;
    second.port.voltage_thd = first.port.voltage_thd;
    signal_is(second, first);
  }
}

/* the edition after each call; one that the caller writes into the state is the next call's */
static void check_kept(uint8_t edition) {
  const float own = edition == 1 ? root15 : root30, other = edition == 1 ? root30 : root15;
  called("the edition from call to call");
  tj_signal_answer answer = tj_signal_new_power_port(3, -5, reading(true, 7), edition, samples, 64);
  IS(answer.signal.edition, edition);
  answer.signal = pulse(1, edition, 64);
  IS(answer.signal.edition, edition);
  answer = tj_signal_set_phase(answer.signal, 90, samples, 64);
  IS(answer.code, 0);
  IS(answer.signal.edition, edition);
  answer = tj_signal_reset_waveform(answer.signal, samples, 64);
  IS(answer.code, 0);
  IS(answer.signal.edition, edition);
  IS(answer.signal.thd, 0);
  answer = tj_signal_set_phase(answer.signal, 90, samples, 64);
  IS(answer.signal.edition, edition);
  IS(answer.signal.thd, own * 100);
  answer.signal.edition = (uint8_t)(3 - edition);
  answer = tj_signal_set_phase(answer.signal, 90, samples, 64);
  IS(answer.signal.edition, 3 - edition);
  IS(answer.signal.thd, other * 100);
}

/* named or held, an edition that is neither: 9 on a good length, before 4, and before 3; only a reset goes by the length alone */
static void check_unknown(uint8_t edition) {
  static const struct {
    size_t n;
    uint8_t reset;
  } lengths[] = {{0, 0}, {4, 0}, {3, 4}, {MANY, 3}};
  for (int i = 0; i < 4; i++) {
    size_t n = lengths[i].n;
    called("an unknown edition at tj_signal_new");
    tj_signal_answer answer = tj_signal_new(1, 8, 1, edition, many, n);
    IS(answer.code, 9);
    signal_is(answer.signal, zero_signal);
    called("an unknown edition at tj_signal_new_power_port");
    answer = tj_signal_new_power_port(3, -5, reading(true, 7), edition, many, n);
    IS(answer.code, 9);
    signal_is(answer.signal, zero_signal);
    tj_signal own = own_signal();
    own.edition = edition;
    called("an unknown edition at tj_signal_set_phase");
    answer = tj_signal_set_phase(own, 90, many, n);
    IS(answer.code, 9);
    signal_is(answer.signal, own);
    called("an unknown edition at tj_signal_set_duty_cycle");
    answer = tj_signal_set_duty_cycle(own, 0.25f, many, n);
    IS(answer.code, 9);
    signal_is(answer.signal, own);
    many_stayed();
    called("an unknown edition at tj_signal_reset_waveform");
    answer = tj_signal_reset_waveform(own, many, n);
    IS(answer.code, lengths[i].reset);
    IS(answer.signal.edition, edition);
    IS(answer.signal.thd, lengths[i].reset == 0 ? 0 : own.thd);
  }
}

/* nothing is written with 9: samples that are not 0, and one behind them */
static void check_nothing_written(uint8_t edition) {
  tj_signal own = own_signal();
  own.edition = edition;
  for (size_t i = 0; i <= N; i++)
    samples[i] = 9;
  called("nothing written with 9");
  tj_signal_new(1, 8, 1, edition, samples, N);
  tj_signal_new_power_port(3, -5, reading(true, 7), edition, samples, N);
  tj_signal_set_phase(own, 90, samples, N);
  tj_signal_set_duty_cycle(own, 0.25f, samples, N);
  IS(unlike(9, 0, N), 0);
}

/* the zero state that a refused call answers is of edition 0: setting its phase or duty cycle is refused with 9, and a reset is done */
static void check_zero_state(void) {
  called("the zero state");
  tj_signal_answer answer = tj_signal_new(1, 8, 1, 2, many, 3);
  IS(answer.code, 4);
  answer = tj_signal_set_phase(answer.signal, 90, many, 3);
  IS(answer.code, 9);
  answer = tj_signal_set_duty_cycle(answer.signal, 0.25f, many, 4);
  IS(answer.code, 9);
  signal_is(answer.signal, zero_signal);
  answer = tj_signal_reset_waveform(answer.signal, many, 4);
  IS(answer.code, 0);
  IS(answer.signal.edition, 0);
}

void check_editions(void) {
  static const uint8_t unknown[] = {0, 3, 255};
  check_orders();
  check_kept(1);
  check_kept(2);
  for (int i = 0; i < 3; i++) {
    check_unknown(unknown[i]);
    check_nothing_written(unknown[i]);
  }
  check_zero_state();
}
