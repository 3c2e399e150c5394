/* A probe's main loop in small: a capture is read, its power worked out, its voltage timed, a bad line named and a bad sample told; then a signal is made,
 * and its distortion by both editions.
 * bash examples/run.sh builds the library, compiles this with -Wall -Wextra -Werror and runs it. */
#include "tilljingle.h"

#include <math.h>
#include <stdio.h>
#include <string.h>

#define ROOM 64

/* volts and amps of a capture, and how many there are: none where it was refused, and then the refusal is printed */
static size_t pairs_of(const char *text, int16_t *volts, int16_t *amps) {
  tj_read read = tj_read_capture((const uint8_t *)text, strlen(text), volts, ROOM, amps, ROOM);
  if (read.code != 0)
    printf("refused %u at line %zu\n", (unsigned)read.code, read.line);
  return read.pairs;
}

/* the largest sample, which doesn't show a NaN, and the counts, which do */
static uint8_t print_figures(const float *samples, size_t n) {
  tj_time_figures none = {0};
  tj_time_answer answer = tj_calculate_time_figures(0, 1.0f, 0.0f, none, samples, n);
  if (answer.code != 0)
    return answer.code;
  printf("largest of %zu samples %g; %u are no number, %u infinite\n", n, (double)answer.figures.max,
         (unsigned)answer.figures.not_numbers, (unsigned)answer.figures.infinite);
  return 0;
}

/* pulses in a port's samples, and a harmonic of the port */
static uint8_t print_signal(void) {
  float samples[16];
  tj_signal_answer signal = tj_signal_new(1, 5.0f, 2.0f, 1, samples, 16);
  if (signal.code != 0)
    return signal.code;
  signal = tj_signal_set_duty_cycle(signal.signal, 0.25f, samples, 16);
  printf("duty cycle %g of amplitude %g\n", (double)signal.signal.figures.duty_cycle_pos, (double)signal.signal.amplitude);

  tj_set_harmonic(signal.signal.port.voltage_harmonics, 3, (tj_reading){true, 1.5f});
  printf("third voltage harmonic %g%%\n", (double)tj_harmonic(signal.signal.port.voltage_harmonics, 3).value);
  return signal.code;
}

/* the distortion of a sawtooth by one edition */
static uint8_t print_thd(uint8_t edition) {
  float samples[256];
  tj_signal_answer answer = tj_signal_new(3, 1.0f, 3.0f, edition, samples, 256);
  if (answer.code != 0)
    return answer.code;
  printf("edition %u: THD %g%%\n", (unsigned)answer.signal.edition, (double)answer.signal.thd);
  return 0;
}

int main(void) {
  int16_t volts[ROOM], amps[ROOM];
  float voltage[ROOM], current[ROOM];
  size_t n = pairs_of("00010200640032FF9CFFCEFF\n", volts, amps);
  for (size_t i = 0; i < n; i++) {
    voltage[i] = volts[i];
    current[i] = amps[i];
  }
  tj_power_answer power = tj_compute_power(voltage, n, current, n, 1000.0f);
  tj_figure slew = tj_slew_rate(voltage, n, 1000.0f);
  if (power.code != 0 || slew.code != 0)
    return 1;
  printf("%zu pairs, p %g nonactive %g s %g pf %g, slew rate %g\n", n, (double)power.power.p, (double)power.power.nonactive,
         (double)power.power.s, (double)power.power.pf, (double)slew.value);

  pairs_of("00010200640032FF9CFFCEFE\n", volts, amps); /* its sum is wrong */

  static const float turn[] = {1, 0, -1, 0}, lagging[] = {0, 1, 0, -1};
  tj_fundamental fundamental = tj_fundamental_power(turn, 4, lagging, 4, 1);
  if (fundamental.code != 0)
    return 1;
  printf("fundamental: active %g, reactive %g\n", (double)fundamental.active, (double)fundamental.reactive);

  static const float broken[] = {3, NAN, -1, -INFINITY, NAN};
  if (print_figures(broken, 5) != 0)
    return 1;

  /* orders up to 16, as the Rust and older records, and up to 40; another edition is refused with 9 */
  return print_signal() != 0 || print_thd(1) != 0 || print_thd(2) != 0;
}
