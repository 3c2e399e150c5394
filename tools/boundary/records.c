/* Records with a number of its own in every field, and how two are compared. */
#include "check.h"

float many[MANY];
int16_t many_codes[MANY];
tj_time_figures zero_figures;
tj_signal zero_signal;

void many_stayed(void) {
  IS(many[0], 0);
  IS(many[MANY - 1], 0);
  IS(many_codes[0], 0);
  IS(many_codes[MANY - 1], 0);
}

tj_reading reading(bool present, float value) {
  tj_reading made;
  made.present = present;
  made.value = value;
  return made;
}

tj_time_figures own_figures(void) {
  tj_time_figures own;
  own.peak_to_peak = 501;
  own.max = 502;
  own.min = 503;
  own.positive_peak = 504;
  own.negative_peak = 505;
  own.average = 506;
  own.dc_rms = 507;
  own.ac_rms = 508;
  own.duty_cycle_pos = 509;
  own.duty_cycle_neg = 510;
  own.rise_time = 511;
  own.fall_time = 512;
  own.crest_factor = 513;
  own.frequency = 514;
  own.period = 515;
  own.form_factor = 516;
  own.overshoot = 517;
  own.undershoot = 518;
  own.slew_rate = 519;
  own.not_numbers = 0xFFFFFFFF; /* no f32 holds it */
  own.infinite = 7;
  return own;
}

/* the flags are not those that a reset sets; the product of two f32 fields is none of the others' */
tj_port own_port(void) {
  tj_port own;
  own.voltage = 3;
  own.current = 5;
  own.frequency = reading(true, 101);
  own.phase_angle = reading(true, 102);
  own.active_power = 7;
  own.reactive_power = reading(true, 103);
  own.apparent_power = reading(true, 104);
  own.power_factor = reading(true, 105);
  own.displacement_pf = reading(true, 106);
  own.energy_imported = 1001;
  own.energy_exported = 1002;
  own.voltage_thd = reading(true, 107);
  own.current_thd = reading(true, 108);
  own.voltage_crest_factor = reading(true, 109);
  own.current_crest_factor = reading(true, 110);
  for (int n = 0; n < 16; n++) {
    own.voltage_harmonics[n] = reading(true, (float)(200 + n));
    own.current_harmonics[n] = reading(true, (float)(300 + n));
  }
  own.efficiency = reading(true, 111);
  own.losses = reading(true, 112);
  own.voltage_min = 11;
  own.voltage_max = 13;
  own.current_max = 17;
  own.power_max = 19;
  own.is_enabled = false;
  own.is_faulted = true;
  own.temperature = reading(true, 113);
  return own;
}

tj_signal own_signal(void) {
  tj_signal own;
  own.wave = 2;
  own.edition = 1;
  own.amplitude = 401;
  own.phase = 402;
  own.frequency = 403;
  own.duty_cycle = 404;
  own.port = own_port();
  own.figures = own_figures();
  own.thd = 405;
  return own;
}

void reading_is(tj_reading got, tj_reading wanted) {
  IS(got.present, wanted.present);
  IS(got.value, wanted.value);
}

void figures_are(tj_time_figures got, tj_time_figures wanted) {
  IS(got.peak_to_peak, wanted.peak_to_peak);
  IS(got.max, wanted.max);
  IS(got.min, wanted.min);
  IS(got.positive_peak, wanted.positive_peak);
  IS(got.negative_peak, wanted.negative_peak);
  IS(got.average, wanted.average);
  IS(got.dc_rms, wanted.dc_rms);
  IS(got.ac_rms, wanted.ac_rms);
  IS(got.duty_cycle_pos, wanted.duty_cycle_pos);
  IS(got.duty_cycle_neg, wanted.duty_cycle_neg);
  IS(got.rise_time, wanted.rise_time);
  IS(got.fall_time, wanted.fall_time);
  IS(got.crest_factor, wanted.crest_factor);
  IS(got.frequency, wanted.frequency);
  IS(got.period, wanted.period);
  IS(got.form_factor, wanted.form_factor);
  IS(got.overshoot, wanted.overshoot);
  IS(got.undershoot, wanted.undershoot);
  IS(got.slew_rate, wanted.slew_rate);
  IS(got.not_numbers, wanted.not_numbers);
  IS(got.infinite, wanted.infinite);
}

#define READING(field) (IS(got.field.present, wanted.field.present), IS(got.field.value, wanted.field.value))

void port_is(tj_port got, tj_port wanted) {
  IS(got.voltage, wanted.voltage);
  IS(got.current, wanted.current);
  READING(frequency);
  READING(phase_angle);
  IS(got.active_power, wanted.active_power);
  READING(reactive_power);
  READING(apparent_power);
  READING(power_factor);
  READING(displacement_pf);
  IS(got.energy_imported, wanted.energy_imported);
  IS(got.energy_exported, wanted.energy_exported);
  READING(voltage_thd);
  READING(current_thd);
  READING(voltage_crest_factor);
  READING(current_crest_factor);
  for (int n = 0; n < 16; n++) {
    READING(voltage_harmonics[n]);
    READING(current_harmonics[n]);
  }
  READING(efficiency);
  READING(losses);
  IS(got.voltage_min, wanted.voltage_min);
  IS(got.voltage_max, wanted.voltage_max);
  IS(got.current_max, wanted.current_max);
  IS(got.power_max, wanted.power_max);
  IS(got.is_enabled, wanted.is_enabled);
  IS(got.is_faulted, wanted.is_faulted);
  READING(temperature);
}

void signal_is(tj_signal got, tj_signal wanted) {
  IS(got.wave, wanted.wave);
  IS(got.edition, wanted.edition);
  IS(got.amplitude, wanted.amplitude);
  IS(got.phase, wanted.phase);
  IS(got.frequency, wanted.frequency);
  IS(got.duty_cycle, wanted.duty_cycle);
  port_is(got.port, wanted.port);
  figures_are(got.figures, wanted.figures);
  IS(got.thd, wanted.thd);
}
