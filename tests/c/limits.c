/*
 * Every limit: the count at its limit is accepted and run, one past it is refused 3 at its field.
 *
 * The jobs are laid out for the count that they have, so that nothing else is wrong with one that
 * is past its limit: a library that forgot the limit would accept it or tell another number.
 */
#include "groups.h"
#include "harness.h"
#include "lent.h"

enum { WITHIN = 99 }; /* no field stands there: the job is accepted */

typedef struct limit {
    const char *name;
    counts counts; /* depth, capacity, pages, in use, operations, turns */
    unsigned place;
} limit;

static const limit LIMITS[] = {
    {"limit: depth 0", {0, 2, 2, 1, 1, 3}, WITHIN},
    {"limit: depth 8", {8, 2, 2, 1, 1, 3}, WITHIN},
    {"limit: depth 9", {9, 2, 2, 1, 1, 3}, CHARGEFILE_AT_DEPTH},
    {"limit: capacity 1", {1, 1, 2, 1, 1, 3}, WITHIN},
    {"limit: capacity 0", {1, 0, 2, 1, 1, 3}, CHARGEFILE_AT_CAPACITY},
    {"limit: capacity 8", {1, 8, 2, 1, 1, 3}, WITHIN},
    {"limit: capacity 9", {1, 9, 2, 1, 1, 3}, CHARGEFILE_AT_CAPACITY},
    {"limit: pages 1", {1, 2, 1, 1, 1, 3}, WITHIN},
    {"limit: pages 0", {1, 2, 0, 1, 1, 3}, CHARGEFILE_AT_PAGES},
    {"limit: pages 256", {1, 2, 256, 1, 1, 3}, WITHIN},
    {"limit: pages 257", {1, 2, 257, 1, 1, 3}, CHARGEFILE_AT_PAGES},
    {"limit: 1 page in use of 2", {1, 2, 2, 1, 1, 3}, WITHIN},
    {"limit: 0 pages in use of 2", {1, 2, 2, 0, 1, 3}, CHARGEFILE_AT_IN_USE},
    {"limit: 2 pages in use of 2", {1, 2, 2, 2, 1, 3}, WITHIN},
    {"limit: 3 pages in use of 2", {1, 2, 2, 3, 1, 3}, CHARGEFILE_AT_IN_USE},
    {"limit: 256 pages in use of 256", {8, 2, 256, 256, 1, 3}, WITHIN},
    {"limit: 257 pages in use of 256", {8, 2, 256, 257, 1, 3}, CHARGEFILE_AT_IN_USE},
    {"limit: operations 0", {1, 2, 2, 1, 0, 0}, WITHIN},
    {"limit: operations 256", {1, 2, 2, 1, 256, 3}, WITHIN},
    {"limit: operations 257", {1, 2, 2, 1, 257, 3}, CHARGEFILE_AT_OPERATIONS},
    {"limit: turns 0", {1, 2, 2, 1, 1, 0}, WITHIN},
    {"limit: turns 16384", {1, 2, 2, 1, 1, 16384}, WITHIN},
    {"limit: turns 16385", {1, 2, 2, 1, 1, 16385}, CHARGEFILE_AT_TURNS},
    {"limit: all at once", {8, 8, 256, 256, 256, 16384}, WITHIN},
    {"limit: the least of all", {0, 1, 1, 1, 0, 0}, WITHIN},
};

void limit_tests(void)
{
    static job j;
    for (unsigned i = 0; i < sizeof LIMITS / sizeof LIMITS[0]; i++) {
        begin_test(LIMITS[i].name);
        make_job(&j, LIMITS[i].counts);
        if (LIMITS[i].place == WITHIN) {
            expect_run(&j, 0);
        } else {
            expect_refused(&j, CHARGEFILE_REFUSED_LIMIT, LIMITS[i].place);
        }
        end_test();
    }
}
