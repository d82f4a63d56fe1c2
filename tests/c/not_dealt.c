/*
 * For which jobs no turns are dealt: "Checks: 21 (turns present, at their count) after the job's
 * own refusals, then 11, where the buffer is under the job's length and 20,476 bytes more (place
 * 0), or the table or working memory is under what a run needs (places 1 and 2)." Nothing is
 * written.
 */
#include "dealing.h"
#include "groups.h"
#include "harness.h"

static job j, dealt;

/* Job E without its turns: 116 bytes. */
static void lend_job_e(void)
{
    make_job_e(&j, 0);
    lend_for_dealing(&j);
}

static void output_one_byte_short(void)
{
    lend_job_e();
    EXPECT_EQUAL(set.result_length, 20592);
    set.result_length -= 1;
    expect_no_turns(&j, CHARGEFILE_REFUSED_OUTPUT, CHARGEFILE_SMALL_OUTPUT);
}

/* Room for the list that there would be is not enough: it is 160 bytes with its turns. */
static void room_for_the_list_alone(void)
{
    lend_job_e();
    set.result_length = 160;
    expect_no_turns(&j, CHARGEFILE_REFUSED_OUTPUT, CHARGEFILE_SMALL_OUTPUT);
}

static void rows_one_short(void)
{
    lend_job_e();
    set.rows_length -= 1;
    expect_no_turns(&j, CHARGEFILE_REFUSED_OUTPUT, CHARGEFILE_SMALL_ROWS);
}

static void memory_one_byte_short(void)
{
    lend_job_e();
    set.memory_length -= 1;
    expect_no_turns(&j, CHARGEFILE_REFUSED_OUTPUT, CHARGEFILE_SMALL_MEMORY);
}

/* The lowest place; and just enough of all three. */
static void all_short(void)
{
    lend_job_e();
    set.rows_length -= 1;
    set.memory_length -= 1;
    expect_no_turns(&j, CHARGEFILE_REFUSED_OUTPUT, CHARGEFILE_SMALL_ROWS);
    set.result_length -= 1;
    expect_no_turns(&j, CHARGEFILE_REFUSED_OUTPUT, CHARGEFILE_SMALL_OUTPUT);
    lend_job_e();
    expect_turns(&j, &dealt);
}

/* A charge file needs no row, and of the rest as much as a job with operations. */
static void no_operations(void)
{
    counts c = {1, 2, 2, 1, 0, 0};
    make_job(&j, c);
    lend_for_dealing(&j);
    set.result_length -= 1;
    expect_no_turns(&j, CHARGEFILE_REFUSED_OUTPUT, CHARGEFILE_SMALL_OUTPUT);
    lend_for_dealing(&j);
    set.memory_length -= 1;
    expect_no_turns(&j, CHARGEFILE_REFUSED_OUTPUT, CHARGEFILE_SMALL_MEMORY);
    lend_for_dealing(&j);
    EXPECT_EQUAL(set.rows_length, 0);
    expect_turns(&j, &dealt);
    EXPECT_EQUAL(dealt.length, j.length);
}

/* One turn, or as many as there can be: before all that is lent too short. */
static void turns_present(void)
{
    static const unsigned turns[] = {1, 2, 255, 256, 257, 16383, 16384};
    for (unsigned i = 0; i < sizeof turns / sizeof turns[0]; i++) {
        counts c = {1, 2, 2, 1, 3, turns[i]};
        make_job(&j, c);
        expect_done(check(&j), 0);
        expect_not_dealt(&j, CHARGEFILE_REFUSED_DEALT, CHARGEFILE_AT_TURNS);
    }
}

/* What was dealt once is a job with turns. */
static void dealt_twice(void)
{
    lend_job_e();
    expect_turns(&j, &dealt);
    expect_not_dealt(&dealt, CHARGEFILE_REFUSED_DEALT, CHARGEFILE_AT_TURNS);
}

/* "after the job's own refusals": a turn that names no operation, and a count past its limit */
static void own_refusals_first(void)
{
    make_job_e(&j, 20);
    put_turn(&j, 19, 4);
    expect_not_dealt(&j, CHARGEFILE_REFUSED_TURN, j.length - 2);
    make_job(&j, (counts){1, 2, 2, 1, 1, 16385});
    expect_not_dealt(&j, CHARGEFILE_REFUSED_LIMIT, CHARGEFILE_AT_TURNS);
    make_job_e(&j, 20);
    put_two(j.bytes, 1);
    expect_not_dealt(&j, CHARGEFILE_REFUSED_VERSION, 0);
}

/* Whatever the check refuses is refused alike, however much is lent: every byte of a job without
 * turns and of one with some, with each of its bits turned over. */
static void refused_as_by_the_check(void)
{
    unsigned refused = 0;
    for (unsigned turns = 0; turns < 2; turns++) {
        make_job_e(&j, turns);
        for (unsigned i = 0; i < 8 * j.length; i++) {
            uint8_t bit = (uint8_t)(1u << i % 8);
            j.bytes[i / 8] ^= bit;
            chargefile_outcome told = check(&j);
            if (told.refusal != CHARGEFILE_ACCEPTED) {
                refused++;
                expect_not_dealt(&j, told.refusal, told.place);
            }
            j.bytes[i / 8] ^= bit;
        }
    }
    EXPECT(refused > 600);
}

static void every_wrong_length(void)
{
    make_job_e(&j, 0);
    for (size_t whole = j.length, length = 0; length < whole + 9; length++) {
        j.length = length;
        if (length < 32) {
            expect_not_dealt(&j, CHARGEFILE_REFUSED_SHORT, length);
        } else if (length != whole) {
            expect_not_dealt(&j, CHARGEFILE_REFUSED_OFFSET, 28);
        }
    }
}

/* "Where a length is 0 the pointer is not followed and may be NULL." A charge file needs no row. */
static void null_where_nothing_is_lent(void)
{
    counts c = {1, 2, 2, 1, 0, 0};
    expect_refusal(chargefile_deal(NULL, 0, NULL, 0, NULL, 0, NULL, 0), CHARGEFILE_REFUSED_SHORT,
                   0);
    make_job(&j, c);
    lend_for_dealing(&j);
    expect_refusal(chargefile_deal(j.bytes, j.length, NULL, 0, NULL, 0, NULL, 0),
                   CHARGEFILE_REFUSED_OUTPUT, CHARGEFILE_SMALL_OUTPUT);
    expect_refusal(chargefile_deal(j.bytes, j.length, set.result, set.result_length, NULL, 0, NULL,
                                   0),
                   CHARGEFILE_REFUSED_OUTPUT, CHARGEFILE_SMALL_MEMORY);
    expect_done(chargefile_deal(j.bytes, j.length, set.result, set.result_length, NULL, 0,
                                set.memory, set.memory_length),
                j.length);
    make_job_e(&j, 1);
    expect_refusal(chargefile_deal(j.bytes, j.length, NULL, 0, NULL, 0, NULL, 0),
                   CHARGEFILE_REFUSED_DEALT, CHARGEFILE_AT_TURNS);
}

void not_dealt_tests(void)
{
    test("not dealt: output one byte short", output_one_byte_short);
    test("not dealt: room for the list alone", room_for_the_list_alone);
    test("not dealt: rows one short", rows_one_short);
    test("not dealt: memory one byte short", memory_one_byte_short);
    test("not dealt: all short, the lowest place", all_short);
    test("not dealt: no operations, too little lent", no_operations);
    test("not dealt: turns present", turns_present);
    test("not dealt: dealt already", dealt_twice);
    test("not dealt: the job's own refusals first", own_refusals_first);
    test("not dealt: refused as by the check", refused_as_by_the_check);
    test("not dealt: every wrong length", every_wrong_length);
    test("not dealt: NULL where the length is 0", null_where_nothing_is_lent);
}
