/* Capture lines and the report. */
#include "check.h"

enum { LINE = 25, LINES = 42, MOST = 65536, LONGEST = 4096 * 137 + 17 };

/* the line of document 01, and a line of one pair after it: 7 and -9 */
static const char good[] = "00010200640032FF9CFFCEFF\n0002010007FFF700\n";
static const char bad_form[] = "00010200640032FF9CFFCEFF\n00020100X7FFF700\n";
static const char bad_sum[] = "00010200640032FF9CFFCEFF\n0002010007FFF701\n";
static const char bad_sequence[] = "00010200640032FF9CFFCEFF\n0003010007FFF7FF\n";
static const int16_t volts[] = {100, -100, 7}, amps[] = {50, -50, -9};

static void read_is(tj_read got, unsigned code, size_t line, size_t pairs) {
  IS(got.code, code);
  IS(got.line, line);
  IS(got.pairs, pairs);
}

static void written_is(tj_written got, unsigned code, size_t bytes) {
  IS(got.code, code);
  IS(got.bytes, bytes);
}

/* the text is wanted, and the place after it still 1 */
static void text_is(const uint8_t *got, const char *wanted, size_t bytes) {
  for (size_t at = 0; at < bytes; at++)
    IS(got[at], wanted[at]);
  IS(got[bytes], 1);
}

static void check_read(void) {
  static const int16_t volts_left[] = {100, -100, 7, 21}, amps_left[] = {50, -50, -9, 22};
  int16_t v[] = {11, 12, 13, 21}, a[] = {14, 15, 16, 22};
  called("tj_read_capture");
  read_is(tj_read_capture((const uint8_t *)good, LINES, v, 4, a, 4), 0, 0, 3);
  ARE(v, volts_left);
  ARE(a, amps_left);
  read_is(tj_read_capture((const uint8_t *)good, LINES, v, 2, a, 4), 2, 0, 0);
  read_is(tj_read_capture((const uint8_t *)good, LINES, v, 4, a, 2), 2, 0, 0);
  read_is(tj_read_capture((const uint8_t *)bad_form, LINES, v, 4, a, 4), 5, 2, 0);
  read_is(tj_read_capture((const uint8_t *)bad_sum, LINES, v, 4, a, 4), 6, 2, 0);
  read_is(tj_read_capture((const uint8_t *)bad_sequence, LINES, v, 4, a, 4), 7, 2, 0);
  ARE(v, volts_left);
  ARE(a, amps_left);
}

static void check_write(void) {
  uint8_t text[34];
  for (int i = 0; i < 34; i++)
    text[i] = 1;
  called("tj_write_capture");
  written_is(tj_write_capture(volts, 3, amps, 3, 1, text, 34), 0, 33);
  text_is(text, "00010300640032FF9CFFCE0007FFF701\n", 33);
  written_is(tj_write_capture(volts, 3, amps, 2, 1, text, 34), 1, 0);
  written_is(tj_write_capture(volts, 2, amps, 2, 1, text, 24), 2, 0);
  written_is(tj_write_capture(many_codes, MANY, amps, 3, 1, text, 34), 3, 0);
  text_is(text, "00010300640032FF9CFFCE0007FFF701\n", 33);
}

/* 65,536 pairs in 4,096 lines from number F000 on, and then one line more, whose number is 0 */
static void check_longest(void) {
  static uint8_t text[LONGEST];
  static int16_t v[MOST], a[MOST];
  called("the longest capture");
  written_is(tj_write_capture(many_codes, MOST, many_codes, MOST, 0xF000, text, LONGEST), 0, LONGEST - 17);
  written_is(tj_write_capture(volts, 1, amps, 1, 0, text + LONGEST - 17, 17), 0, 17);
  read_is(tj_read_capture(text, LONGEST - 17, v, MOST, a, MOST), 0, 0, MOST);
  read_is(tj_read_capture(text, LONGEST, v, MOST, a, MOST), 3, 0, 0);
  written_is(tj_report_text(text, LONGEST, (uint8_t *)v, sizeof v), 0, 15);
}

static void check_report(void) {
  static const char report[] = "PAIRS 2\nP 459C4000\nQ 00000000\nS 459C4000\nPF 3F800000\n";
  uint8_t text[80];
  for (int i = 0; i < 80; i++)
    text[i] = 1;
  called("tj_report_text");
  written_is(tj_report_text((const uint8_t *)good, LINE, text, 52), 2, 0);
  IS(text[0], 1);
  written_is(tj_report_text((const uint8_t *)good, LINE, text, 80), 0, 53);
  text_is(text, report, 53);
}

void check_capture(void) {
  check_read();
  check_write();
  check_longest();
  check_report();
}
