/* Where every field of every record of the header lies, and how long the records are: what the calls of the other files pass and read.
 * A field that is moved in the header alone doesn't compile; one that is moved in the library alone is seen by the calls. */
#include "tilljingle.h"

#ifndef __cplusplus
#define static_assert _Static_assert
#endif
#define LONG(type, bytes) static_assert(sizeof(type) == (bytes), "the size of " #type)
#define AT(type, field, offset) static_assert(offsetof(type, field) == (offset), "the place of " #field " in " #type)

LONG(bool, 1);
LONG(float, 4);
LONG(uint32_t, 4);
LONG(double, 8);
LONG(size_t, 8);

LONG(tj_figure, 8);
AT(tj_figure, code, 0);
AT(tj_figure, value, 4);

LONG(tj_power, 16);
AT(tj_power, p, 0);
AT(tj_power, nonactive, 4);
AT(tj_power, s, 8);
AT(tj_power, pf, 12);

LONG(tj_power_answer, 20);
AT(tj_power_answer, code, 0);
AT(tj_power_answer, power, 4);

LONG(tj_fundamental, 12);
AT(tj_fundamental, code, 0);
AT(tj_fundamental, active, 4);
AT(tj_fundamental, reactive, 8);

LONG(tj_time_figures, 84);
AT(tj_time_figures, peak_to_peak, 0);
AT(tj_time_figures, max, 4);
AT(tj_time_figures, min, 8);
AT(tj_time_figures, positive_peak, 12);
AT(tj_time_figures, negative_peak, 16);
AT(tj_time_figures, average, 20);
AT(tj_time_figures, dc_rms, 24);
AT(tj_time_figures, ac_rms, 28);
AT(tj_time_figures, duty_cycle_pos, 32);
AT(tj_time_figures, duty_cycle_neg, 36);
AT(tj_time_figures, rise_time, 40);
AT(tj_time_figures, fall_time, 44);
AT(tj_time_figures, crest_factor, 48);
AT(tj_time_figures, frequency, 52);
AT(tj_time_figures, period, 56);
AT(tj_time_figures, form_factor, 60);
AT(tj_time_figures, overshoot, 64);
AT(tj_time_figures, undershoot, 68);
AT(tj_time_figures, slew_rate, 72);
AT(tj_time_figures, not_numbers, 76);
AT(tj_time_figures, infinite, 80);

LONG(tj_time_answer, 88);
AT(tj_time_answer, code, 0);
AT(tj_time_answer, figures, 4);

LONG(tj_quotient, 16);
AT(tj_quotient, code, 0);
AT(tj_quotient, kind, 1);
AT(tj_quotient, ratio, 8);

LONG(tj_reading, 8);
AT(tj_reading, present, 0);
AT(tj_reading, value, 4);

LONG(tj_port, 416);
AT(tj_port, voltage, 0);
AT(tj_port, current, 4);
AT(tj_port, frequency, 8);
AT(tj_port, phase_angle, 16);
AT(tj_port, active_power, 24);
AT(tj_port, reactive_power, 28);
AT(tj_port, apparent_power, 36);
AT(tj_port, power_factor, 44);
AT(tj_port, displacement_pf, 52);
AT(tj_port, energy_imported, 64);
AT(tj_port, energy_exported, 72);
AT(tj_port, voltage_thd, 80);
AT(tj_port, current_thd, 88);
AT(tj_port, voltage_crest_factor, 96);
AT(tj_port, current_crest_factor, 104);
AT(tj_port, voltage_harmonics, 112);
AT(tj_port, current_harmonics, 240);
AT(tj_port, efficiency, 368);
AT(tj_port, losses, 376);
AT(tj_port, voltage_min, 384);
AT(tj_port, voltage_max, 388);
AT(tj_port, current_max, 392);
AT(tj_port, power_max, 396);
AT(tj_port, is_enabled, 400);
AT(tj_port, is_faulted, 401);
AT(tj_port, temperature, 404);

LONG(tj_signal, 528);
AT(tj_signal, wave, 0);
AT(tj_signal, edition, 1);
AT(tj_signal, amplitude, 4);
AT(tj_signal, phase, 8);
AT(tj_signal, frequency, 12);
AT(tj_signal, duty_cycle, 16);
AT(tj_signal, port, 24);
AT(tj_signal, figures, 440);
AT(tj_signal, thd, 524);

LONG(tj_signal_answer, 536);
AT(tj_signal_answer, code, 0);
AT(tj_signal_answer, signal, 8);

LONG(tj_read, 24);
AT(tj_read, code, 0);
AT(tj_read, line, 8);
AT(tj_read, pairs, 16);

LONG(tj_written, 16);
AT(tj_written, code, 0);
AT(tj_written, bytes, 8);
