/* Calls on a port, and on harmonics in place. */
#include "check.h"

/* what a reset leaves: of the zero record only is_enabled differs */
static tj_port cleared(void) {
  tj_port port = zero_signal.port;
  port.is_enabled = true;
  return port;
}

void check_port(void) {
  called("tj_instantaneous_power");
  IS(tj_instantaneous_power(own_port()), 15);
  called("tj_reset_power_params");
  port_is(tj_reset_power_params(own_port()), cleared());

  called("tj_set_voltage_harmonic");
  tj_port set = own_port();
  set.voltage_harmonics[6] = reading(true, 77);
  port_is(tj_set_voltage_harmonic(own_port(), 6, reading(true, 77)), set);
  set.voltage_harmonics[6] = reading(false, 0);
  port_is(tj_set_voltage_harmonic(own_port(), 6, reading(false, 77)), set);
  port_is(tj_set_voltage_harmonic(own_port(), 16, reading(true, 77)), own_port());

  called("tj_set_current_harmonic");
  set = own_port();
  set.current_harmonics[9] = reading(true, 77);
  port_is(tj_set_current_harmonic(own_port(), 9, reading(true, 77)), set);
  set.current_harmonics[9] = reading(false, 0);
  port_is(tj_set_current_harmonic(own_port(), 9, reading(false, 77)), set);
  port_is(tj_set_current_harmonic(own_port(), 16, reading(true, 77)), own_port());
}

void check_harmonics(void) {
  tj_port port = own_port();
  for (int n = 0; n < 16; n++) {
    called("tj_voltage_harmonic");
    reading_is(tj_voltage_harmonic(port, (uint8_t)n), reading(true, (float)(200 + n)));
    called("tj_current_harmonic");
    reading_is(tj_current_harmonic(port, (uint8_t)n), reading(true, (float)(300 + n)));
    called("tj_harmonic");
    reading_is(tj_harmonic(port.current_harmonics, (uint8_t)n), reading(true, (float)(300 + n)));
  }
  called("harmonics of order 16");
  reading_is(tj_voltage_harmonic(port, 16), reading(false, 0));
  reading_is(tj_current_harmonic(port, 16), reading(false, 0));
  reading_is(tj_harmonic(port.current_harmonics, 16), reading(false, 0));

  called("tj_set_harmonic");
  tj_port set = own_port();
  set.voltage_harmonics[15] = reading(true, 77);
  tj_set_harmonic(port.voltage_harmonics, 15, reading(true, 77));
  tj_set_harmonic(port.voltage_harmonics, 16, reading(true, 78));
  port_is(port, set);
}
