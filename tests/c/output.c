/* Row 11 of the refusal table, and what is lent: too little, just enough, more, and nothing. */
#include <string.h>

#include "groups.h"
#include "harness.h"
#include "lent.h"

static job j;

static void lend_job_e(void)
{
    make_job_e(&j, 20);
    lend(&j);
}

static void result_one_byte_short(void)
{
    lend_job_e();
    set.result_length -= 1;
    expect_too_small(&j, CHARGEFILE_SMALL_RESULT);
}

static void rows_one_short(void)
{
    lend_job_e();
    set.rows_length -= 1;
    expect_too_small(&j, CHARGEFILE_SMALL_ROWS);
}

static void memory_one_byte_short(void)
{
    lend_job_e();
    set.memory_length -= 1;
    expect_too_small(&j, CHARGEFILE_SMALL_MEMORY);
}

/* "by lowest place" */
static void all_short(void)
{
    lend_job_e();
    set.rows_length -= 1;
    set.memory_length -= 1;
    expect_too_small(&j, CHARGEFILE_SMALL_ROWS);
    set.result_length -= 1;
    expect_too_small(&j, CHARGEFILE_SMALL_RESULT);
}

static void just_enough(void)
{
    make_job_e(&j, 20);
    expect_run(&j, result_room(counts_of(&j)));
}

static void largest_just_enough(void)
{
    counts c = {8, 8, 256, 1, 256, 16384};
    make_job(&j, c);
    lend(&j);
    EXPECT_EQUAL(j.length, CHARGEFILE_JOB_MAX);
    EXPECT_EQUAL(set.result_length, CHARGEFILE_RESULT_MAX);
    set.result_length -= 1;
    expect_too_small(&j, CHARGEFILE_SMALL_RESULT);
    expect_run(&j, 0);
}

/* "After a run, lent working memory is zero and every row of the lent table has one fixed value" */
static void more_than_enough(void)
{
    lend_job_e();
    set.result_length += 50;
    set.rows_length += 40;
    set.memory_length += 100;
    expect_done(run(&j), result_room(counts_of(&j)));
    EXPECT(left_as_after_a_run(result_room(counts_of(&j))));
}

/* "except that 11 comes last" */
static void job_before_output(void)
{
    lend_job_e();
    put_turn(&j, 19, 4);
    set.result_length = set.rows_length = set.memory_length = 0;
    expect_refusal(run(&j), CHARGEFILE_REFUSED_TURN, j.length - 2);
    EXPECT(nothing_written());
}

/* "Where a length is 0 the pointer is not followed and may be NULL." A charge file needs no row. */
static void null_where_nothing_is_lent(void)
{
    counts c = {1, 2, 2, 1, 0, 0};
    expect_refusal(chargefile_check(NULL, 0), CHARGEFILE_REFUSED_SHORT, 0);
    expect_refusal(chargefile_run(NULL, 0, NULL, 0, NULL, 0, NULL, 0), CHARGEFILE_REFUSED_SHORT, 0);
    make_job(&j, c);
    lend(&j);
    expect_refusal(chargefile_run(j.bytes, j.length, NULL, 0, NULL, 0, NULL, 0),
                   CHARGEFILE_REFUSED_OUTPUT, CHARGEFILE_SMALL_RESULT);
    expect_done(chargefile_run(j.bytes, j.length, set.result, set.result_length, NULL, 0,
                               set.memory, set.memory_length),
                24 + j.length);
}

/* "Job, result and working memory are bytes and need no alignment." */
static void odd_addresses(void)
{
    static uint8_t shifted[1 + 156];
    static uint8_t wanted[148];
    lend_job_e();
    expect_done(run(&j), sizeof wanted);
    memcpy(wanted, set.result, sizeof wanted);
    memcpy(shifted + 1, j.bytes, j.length);
    expect_done(chargefile_run(shifted + 1, j.length, set.result + 1, 148, set.rows, 4,
                               set.memory + 1, 24576),
                sizeof wanted);
    EXPECT(memcmp(set.result + 1, wanted, sizeof wanted) == 0);
}

void output_tests(void)
{
    test("lent: result one byte short", result_one_byte_short);
    test("lent: rows one short", rows_one_short);
    test("lent: memory one byte short", memory_one_byte_short);
    test("lent: all short, the lowest place", all_short);
    test("lent: just enough", just_enough);
    test("lent: just enough for the largest job", largest_just_enough);
    test("lent: more than enough", more_than_enough);
    test("lent: a fault of the job comes first", job_before_output);
    test("lent: NULL where the length is 0", null_where_nothing_is_lent);
    test("lent: odd addresses", odd_addresses);
}
