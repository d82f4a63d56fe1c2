#include "dealing.h"

#include <string.h>

#include "from_cpp.h"
#include "harness.h"
#include "turns.h"

void lend_for_dealing(const job *j)
{
    lend_so_much(j->length + 20476, counts_of(j).operations, 24576);
}

static chargefile_outcome deal(const job *j, int cpp)
{
    static job given;
    given = *j;
    chargefile_outcome o =
        (cpp ? cpp_deal : chargefile_deal)(j->bytes, j->length, set.result, set.result_length,
                                           set.rows, set.rows_length, set.memory,
                                           set.memory_length);
    EXPECT(memcmp(given.bytes, j->bytes, sizeof given.bytes) == 0);
    return o;
}

void expect_no_turns(const job *j, uint64_t number, uint64_t place)
{
    for (int cpp = 0; cpp < 2; cpp++) {
        expect_refusal(deal(j, cpp), number, place);
        EXPECT(nothing_written());
    }
}

void expect_not_dealt(const job *j, uint64_t number, uint64_t place)
{
    lend_so_much(CHARGEFILE_DEAL_MAX, CHARGEFILE_ROWS_MAX, 24576);
    expect_no_turns(j, number, place);
    set.result_length = set.rows_length = set.memory_length = 0;
    expect_no_turns(j, number, place);
}

/* The job as it must come out, but for the turns, which are as they have come out. */
static void put_the_same_job(const job *j, job *wanted, size_t length)
{
    memset(wanted, 0, sizeof *wanted);
    wanted->length = length;
    memcpy(wanted->bytes, j->bytes, j->length);
    put_two(wanted->bytes + 10, (uint32_t)(length - j->length) / 2);
    put_four(wanted->bytes + 28, (uint32_t)length);
    memcpy(wanted->bytes + j->length, set.result + j->length, length - j->length);
}

void expect_turns(const job *j, job *dealt)
{
    for (int cpp = 0; cpp < 2; cpp++) {
        lend_so_much(set.result_length, set.rows_length, set.memory_length);
        chargefile_outcome o = deal(j, cpp);
        int fits = o.length >= j->length && o.length <= j->length + 20476;
        EXPECT(fits);
        expect_done(o, fits ? o.length : j->length);
        put_the_same_job(j, dealt, fits ? o.length : j->length);
        EXPECT(memcmp(dealt->bytes, set.result, dealt->length) == 0);
        EXPECT(left_as_after_a_run(dealt->length));
    }
}

void expect_list(const job *j, const unsigned *list, unsigned count)
{
    static job dealt;
    lend_for_dealing(j);
    expect_turns(j, &dealt);
    EXPECT_EQUAL(counts_of(&dealt).turns, count);
    EXPECT_EQUAL(dealt.length, j->length + 2 * count);
    for (unsigned t = 0; t < count; t++) {
        EXPECT_EQUAL(chargefile_two(dealt.bytes + j->length + 2 * t), list[t]);
    }
    expect_all_finished(&dealt);
}

void expect_all_finished(const job *dealt)
{
    counts c = counts_of(dealt);
    unsigned used = 0;
    expect_run(dealt, 0);
    expect_finished(dealt);
    expect_within(dealt);
    for (unsigned i = 0; i < c.operations; i++) {
        const uint8_t *answer = set.result + 24 + 8 * i;
        EXPECT(answer[0] != CHARGEFILE_NOT_YET);
        used += chargefile_two(answer + 2);
    }
    EXPECT_EQUAL(used, c.turns);
}
