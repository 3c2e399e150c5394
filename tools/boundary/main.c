/* Runs the checks; ends with status 1 where one is wrong. */
#include "check.h"

int printf(const char *format, ...);

static const char *calling = "";
static unsigned checks, wrong;

void called(const char *call) { calling = call; }

void check(const char *file, int line, const char *what, double got, double wanted) {
  checks++;
  if (got == wanted)
    return;
  wrong++;
  printf("%s:%d: %s: %s is %.9g, not %.9g\n", file, line, calling, what, got, wanted);
}

int main(void) {
  check_numbers();
  check_samples();
  check_power();
  check_fundamental();
  check_spectrum();
  check_quality();
  check_generator();
  check_figures();
  check_port();
  check_harmonics();
  check_signal();
  check_editions();
  check_capture();
  printf("boundary: %u checks, %u wrong\n", checks, wrong);
  return wrong != 0;
}
