/*
 * A small harness: named tests that count, and expectations in them.
 *
 * A test passes where it expected something and all that it expected was so. Each failed test
 * prints one line, with the first expectation that failed.
 */
#ifndef HARNESS_H
#define HARNESS_H

#include <stdint.h>

/* Everything expected from here to end_test belongs to the test `name`. */
void begin_test(const char *name);
void end_test(void);

/* A test that is one function. */
void test(const char *name, void (*body)(void));

/* Expects a number. `what` and the two values are printed if it is another. */
#define EXPECT_EQUAL(got, wanted) expect_equal(#got, (got), (wanted), __FILE__, __LINE__)
#define EXPECT(condition) expect_equal(#condition, (condition) ? 1 : 0, 1, __FILE__, __LINE__)

void expect_equal(const char *what, uint64_t got, uint64_t wanted, const char *file, int line);

/* Prints `N passed, M failed`; the exit status of the program. */
int all_counted(void);

#endif
