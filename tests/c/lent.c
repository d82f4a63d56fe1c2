#include "lent.h"

#include <string.h>

#include "harness.h"

enum { RESULT_BYTE = 0xA5, ROWS_BYTE = 0x5A, MEMORY_BYTE = 0xC3 };

lent set;

void lend_so_much(size_t result, size_t rows, size_t memory)
{
    memset(set.result, RESULT_BYTE, sizeof set.result);
    memset(set.rows, ROWS_BYTE, sizeof set.rows);
    memset(set.memory, MEMORY_BYTE, sizeof set.memory);
    set.result_length = result;
    set.rows_length = rows;
    set.memory_length = memory;
}

void lend(const job *j)
{
    lend_so_much(result_room(counts_of(j)), counts_of(j).operations, 24576);
}

/* The job as it was handed over: no call may write to it. */
static job given;

static void expect_job_kept(const job *j)
{
    EXPECT(memcmp(given.bytes, j->bytes, sizeof given.bytes) == 0);
}

chargefile_outcome run(const job *j)
{
    given = *j;
    chargefile_outcome o = chargefile_run(j->bytes, j->length, set.result, set.result_length,
                                          set.rows, set.rows_length, set.memory, set.memory_length);
    expect_job_kept(j);
    return o;
}

chargefile_outcome check(const job *j)
{
    given = *j;
    chargefile_outcome o = chargefile_check(j->bytes, j->length);
    expect_job_kept(j);
    return o;
}

void expect_done(chargefile_outcome o, uint64_t length)
{
    EXPECT_EQUAL(o.refusal, CHARGEFILE_ACCEPTED);
    EXPECT_EQUAL(o.place, 0);
    EXPECT_EQUAL(o.length, length);
}

void expect_refusal(chargefile_outcome o, uint64_t number, uint64_t place)
{
    EXPECT_EQUAL(o.refusal, number);
    EXPECT_EQUAL(o.place, place);
    EXPECT_EQUAL(o.length, 0);
}

/* 1 where the bytes from `first` up to `end` all have one value. */
static int all(const void *bytes, size_t first, size_t end, unsigned value)
{
    const uint8_t *b = bytes;
    for (size_t i = first; i < end; i++) {
        if (b[i] != value) {
            return 0;
        }
    }
    return 1;
}

int nothing_written(void)
{
    return all(set.result, 0, sizeof set.result, RESULT_BYTE) &&
           all(set.rows, 0, sizeof set.rows, ROWS_BYTE) &&
           all(set.memory, 0, sizeof set.memory, MEMORY_BYTE);
}

int left_as_after_a_run(size_t total)
{
    size_t rows = set.rows_length * sizeof set.rows[0];
    return all(set.result, total, sizeof set.result, RESULT_BYTE) && all(set.rows, 0, rows, 0) &&
           all(set.rows, rows, sizeof set.rows, ROWS_BYTE) &&
           all(set.memory, 0, set.memory_length, 0) &&
           all(set.memory, set.memory_length, sizeof set.memory, MEMORY_BYTE);
}

void expect_refused(const job *j, uint64_t number, uint64_t place)
{
    lend(j);
    expect_refusal(check(j), number, place);
    expect_refusal(run(j), number, place);
    EXPECT(nothing_written());
}

void expect_run(const job *j, size_t total)
{
    lend(j);
    expect_done(check(j), 0);
    EXPECT(nothing_written());
    chargefile_outcome o = run(j);
    expect_done(o, total > 0 ? total : o.length);
    EXPECT(o.length <= set.result_length);
    EXPECT_EQUAL(chargefile_four(set.result + CHARGEFILE_RESULT_AT_TOTAL), o.length);
    EXPECT(left_as_after_a_run(o.length));
}

void expect_too_small(const job *j, uint64_t place)
{
    expect_refusal(run(j), CHARGEFILE_REFUSED_OUTPUT, place);
    EXPECT(nothing_written());
}
