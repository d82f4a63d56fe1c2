#include "told.h"

#include <string.h>

#include "harness.h"

static unsigned two_at(unsigned place)
{
    return chargefile_two(set.result + place);
}

static uint32_t four_at(unsigned place)
{
    return chargefile_four(set.result + place);
}

/* Where `length` bytes of a section begin, by its offset in the header. Where nothing was written
 * an offset leads anywhere: that has failed, and the buffer's start is looked at instead. */
static unsigned section(unsigned place, size_t length)
{
    uint32_t at = four_at(place);
    int within = at <= RESULT_ROOM && length <= RESULT_ROOM - at;
    EXPECT(within);
    return within ? at : 0;
}

void expect_answer(unsigned operation, answer wanted)
{
    unsigned before = 8 * operation;
    unsigned at = section(CHARGEFILE_RESULT_AT_ANSWERS_OFFSET, before + 8) + before;
    EXPECT_EQUAL(set.result[at], wanted.code);
    EXPECT_EQUAL(set.result[at + 1], wanted.page > 0 ? wanted.page - 1 : 0);
    EXPECT_EQUAL(two_at(at + 2), wanted.turns);
    EXPECT_EQUAL(four_at(at + 4), wanted.charge);
    EXPECT_EQUAL(chargefile_answer_page(set.result + at), wanted.page);
}

void expect_line(unsigned line, unsigned moment, unsigned operation)
{
    unsigned before = 4 * line;
    unsigned at = section(CHARGEFILE_RESULT_AT_LOG_OFFSET, before + 4) + before;
    EXPECT_EQUAL(two_at(at), moment);
    EXPECT_EQUAL(two_at(at + 2), operation);
}

void expect_header(unsigned operations, unsigned lines, unsigned under_way, size_t file)
{
    unsigned log = 24 + 8 * operations;
    unsigned end = log + 4 * lines;
    EXPECT_EQUAL(two_at(CHARGEFILE_RESULT_AT_VERSION), CHARGEFILE_RESULT_VERSION);
    EXPECT_EQUAL(two_at(CHARGEFILE_RESULT_AT_OPERATIONS), operations);
    EXPECT_EQUAL(two_at(CHARGEFILE_RESULT_AT_LINES), lines);
    EXPECT_EQUAL(two_at(CHARGEFILE_RESULT_AT_UNDER_WAY), under_way);
    EXPECT_EQUAL(four_at(CHARGEFILE_RESULT_AT_ANSWERS_OFFSET), 24);
    EXPECT_EQUAL(four_at(CHARGEFILE_RESULT_AT_LOG_OFFSET), log);
    EXPECT_EQUAL(four_at(CHARGEFILE_RESULT_AT_FILE_OFFSET), under_way > 0 ? 0 : end);
    EXPECT_EQUAL(four_at(CHARGEFILE_RESULT_AT_TOTAL), end + file);
}

void expect_file(const job *wanted)
{
    unsigned at = section(CHARGEFILE_RESULT_AT_FILE_OFFSET, wanted->length);
    const uint8_t *file = set.result + at;
    EXPECT_EQUAL(four_at(CHARGEFILE_RESULT_AT_TOTAL) - at, wanted->length);
    EXPECT(memcmp(file, wanted->bytes, wanted->length) == 0);
    expect_done(chargefile_check(file, wanted->length), 0);
}
