/* What the files of this folder share. Every number that is expected is written down, worked out from documents 01 and 02 and the Rust by hand: whole numbers,
 * halves of halves, and quotients and roots that are rounded once. Every number of the header is exact as a double. */
#ifndef BOUNDARY_CHECK_H
#define BOUNDARY_CHECK_H
#include "tilljingle.h"

/* names the call that the checks after it are of */
void called(const char *call);
/* counts a check, and says what is wrong where got is not wanted; zeros of either sign are alike */
void check(const char *file, int line, const char *what, double got, double wanted);
#define IS(got, wanted) check(__FILE__, __LINE__, #got, (double)(got), (double)(wanted))
/* the first places of got, as many as the array wanted has */
#define ARE(got, wanted)                                                                                                                             \
  for (size_t at = 0; at < sizeof(wanted) / sizeof((wanted)[0]); at++)                                                                               \
  IS((got)[at], (wanted)[at])

/* one place more than a slice may have; all zero, and it stays so: a call that it is handed to is refused */
enum { MANY = 65537 };
extern float many[MANY];
extern int16_t many_codes[MANY];
void many_stayed(void);

/* records with a number of its own in every field, and the zero records */
tj_reading reading(bool present, float value);
tj_time_figures own_figures(void);
tj_port own_port(void);
tj_signal own_signal(void);
extern tj_time_figures zero_figures;
extern tj_signal zero_signal;

/* field by field */
void reading_is(tj_reading got, tj_reading wanted);
void figures_are(tj_time_figures got, tj_time_figures wanted);
void port_is(tj_port got, tj_port wanted);
void signal_is(tj_signal got, tj_signal wanted);

/* the checks */
void check_numbers(void);
void check_samples(void);
void check_power(void);
void check_fundamental(void);
void check_spectrum(void);
void check_quality(void);
void check_generator(void);
void check_figures(void);
void check_port(void);
void check_harmonics(void);
void check_signal(void);
void check_editions(void);
void check_capture(void);
#endif
