#include "turns.h"

#include <assert.h>
#include <stdio.h>

#include "harness.h"
#include "told.h"

enum { TURNS_ROOM = 16384 };

static unsigned list[TURNS_ROOM];
static unsigned count;

void begin_list(void)
{
    count = 0;
}

void give(unsigned operation, unsigned turns)
{
    assert(turns <= TURNS_ROOM - count);
    for (; turns > 0; turns--) {
        list[count++] = operation;
    }
}

unsigned listed(void)
{
    return count;
}

void run_list(job *j)
{
    assert(counts_of(j).turns == count);
    for (unsigned t = 0; t < count; t++) {
        put_turn(j, t, list[t]);
    }
    expect_run(j, 0);
    expect_within(j);
}

/* "turns used without waiting (2)" stand behind code and page of an answer, the answers behind the
 * 24 bytes of the header. */
void expect_within(const job *j)
{
    counts c = counts_of(j);
    const uint8_t *operations = j->bytes + layout_of(c).operations;
    for (unsigned i = 0; i < c.operations; i++) {
        unsigned used = chargefile_two(set.result + 24 + 8 * i + 2);
        int search = operations[10 * i] == CHARGEFILE_SEARCH;
        EXPECT(used <= (search ? 2 * c.depth + 3 : (1u << c.depth) + 4 * c.depth + 6));
        EXPECT(used <= CHARGEFILE_USED_MAX);
    }
}

void expect_finished(const job *j)
{
    counts c = counts_of(j);
    expect_header(c.operations, c.operations, 0, layout_of(c).operations);
}

void expect_log(const unsigned *moments, unsigned operations)
{
    for (unsigned i = 0; i < operations; i++) {
        unsigned line = 0;
        for (unsigned k = 0; k < operations; k++) {
            line += moments[k] < moments[i] || (moments[k] == moments[i] && k < i);
        }
        expect_line(line, moments[i], i);
    }
}

void test_depths(const char *name, void (*body)(unsigned depth))
{
    char with_depth[80];
    for (unsigned depth = 0; depth <= 8; depth++) {
        snprintf(with_depth, sizeof with_depth, "%s, depth %u", name, depth);
        begin_test(with_depth);
        body(depth);
        end_test();
    }
}
