/* The numbers of the header are the document's; a row and an outcome are laid out as the library has
 * them. */
#include <stdalign.h>
#include <stddef.h>

#include "chargefile.h"
#include "from_cpp.h"
#include "groups.h"
#include "harness.h"
#include "lent.h"

/* Where a field of a row stands, and how many bytes it has. */
#define EXPECT_FIELD(field, at, size)                                                              \
    do {                                                                                           \
        EXPECT_EQUAL(offsetof(chargefile_row, field), at);                                         \
        EXPECT_EQUAL(sizeof((chargefile_row *)0)->field, size);                                    \
    } while (0)

static void row_layout(void)
{
    EXPECT_EQUAL(sizeof(chargefile_row), 16);
    EXPECT_EQUAL(alignof(chargefile_row), 4);
    EXPECT_FIELD(charge, 0, 4);
    EXPECT_FIELD(used, 4, 2);
    EXPECT_FIELD(moment, 6, 2);
    EXPECT_FIELD(base, 8, 2);
    EXPECT_FIELD(stage, 10, 1);
    EXPECT_FIELD(code, 11, 1);
    EXPECT_FIELD(page, 12, 1);
    EXPECT_FIELD(told, 13, 1);
    EXPECT_FIELD(count, 14, 1);
    EXPECT_FIELD(next, 15, 1);
}

static void outcome_layout(void)
{
    EXPECT_EQUAL(sizeof(chargefile_outcome), 24);
    EXPECT_EQUAL(alignof(chargefile_outcome), 8);
    EXPECT_EQUAL(offsetof(chargefile_outcome, refusal), 0);
    EXPECT_EQUAL(offsetof(chargefile_outcome, place), 8);
    EXPECT_EQUAL(offsetof(chargefile_outcome, length), 16);
}

/* "Job version is 2", and "The result's version is 2." */
static void versions(void)
{
    EXPECT_EQUAL(CHARGEFILE_JOB_VERSION, 2);
    EXPECT_EQUAL(CHARGEFILE_RESULT_VERSION, 2);
}

/* "depth 0 to 8, capacity 1 to 8, pages 1 to 256, operations 0 to 256, turns 0 to 16,384" */
static void limits(void)
{
    EXPECT_EQUAL(CHARGEFILE_DEPTH_MAX, 8);
    EXPECT_EQUAL(CHARGEFILE_CAPACITY_MIN, 1);
    EXPECT_EQUAL(CHARGEFILE_CAPACITY_MAX, 8);
    EXPECT_EQUAL(CHARGEFILE_PAGES_MIN, 1);
    EXPECT_EQUAL(CHARGEFILE_PAGES_MAX, 256);
    EXPECT_EQUAL(CHARGEFILE_OPERATIONS_MAX, 256);
    EXPECT_EQUAL(CHARGEFILE_TURNS_MAX, 16384);
    EXPECT_EQUAL(CHARGEFILE_MEMORY_SIZE, 24576);
}

static const counts LARGEST = {8, 8, 256, 1, 256, 16384};

static void largest_sizes(void)
{
    EXPECT_EQUAL(CHARGEFILE_JOB_MAX, layout_of(LARGEST).total);
    EXPECT_EQUAL(CHARGEFILE_JOB_SIZE(8, 8, 256, 256, 16384), layout_of(LARGEST).total);
    EXPECT_EQUAL(CHARGEFILE_FILE_MAX, layout_of(LARGEST).operations);
    EXPECT_EQUAL(CHARGEFILE_FILE_SIZE(8, 8, 256), layout_of(LARGEST).operations);
    EXPECT_EQUAL(CHARGEFILE_RESULT_MAX, result_room(LARGEST));
    EXPECT_EQUAL(CHARGEFILE_RESULT_SIZE(8, 8, 256, 256), result_room(LARGEST));
    EXPECT_EQUAL(CHARGEFILE_ROWS_MAX, 256);
}

/* The macros for every depth and capacity, and some counts between the limits. */
static void sizes(void)
{
    for (unsigned depth = 0; depth <= 8; depth++) {
        for (unsigned capacity = 1; capacity <= 8; capacity++) {
            counts c = {depth, capacity, 1 + 31 * depth, 1, 7 * capacity, 3 * depth};
            layout l = layout_of(c);
            EXPECT_EQUAL(CHARGEFILE_FILE_SIZE(depth, capacity, c.pages), l.operations);
            EXPECT_EQUAL(CHARGEFILE_JOB_SIZE(depth, capacity, c.pages, c.operations, c.turns),
                         l.total);
            EXPECT_EQUAL(CHARGEFILE_RESULT_SIZE(depth, capacity, c.pages, c.operations),
                         result_room(c));
        }
    }
}

/* "the job's length and 20,476 bytes more": a job of the largest kind, which has no turns yet */
static void sizes_for_dealing(void)
{
    counts c = {8, 8, 256, 1, 256, 0};
    EXPECT_EQUAL(CHARGEFILE_DEALT_TURNS_MAX, 10238);
    EXPECT_EQUAL(CHARGEFILE_DEALT_MORE, 20476);
    EXPECT_EQUAL(CHARGEFILE_DEAL_MAX, layout_of(c).total + 20476);
    EXPECT_EQUAL(CHARGEFILE_DEAL_MAX, 40988);
}

static void result_size_of_a_job(void)
{
    static job j;
    make_job_e(&j, 20);
    EXPECT_EQUAL(chargefile_result_size(j.bytes, j.length), result_room(counts_of(&j)));
    make_job(&j, LARGEST);
    EXPECT_EQUAL(chargefile_result_size(j.bytes, j.length), result_room(LARGEST));
    EXPECT_EQUAL(chargefile_result_size(j.bytes, 31), 0);
    EXPECT_EQUAL(chargefile_result_size(NULL, 0), 0);
    j.bytes[CHARGEFILE_AT_DEPTH] = 255;
    EXPECT_EQUAL(chargefile_result_size(j.bytes, j.length), 0);
}

/* "Codes: 0 not yet, 1 found, 2 none, 3 stored, 4 already there, 5 deleted, 6 absent, 7 no depth,
 * 8 no page", and "the answer is 9, "differs"". "kind (1 search, 2 insert, 3 delete)" */
static void codes_and_kinds(void)
{
    static const unsigned codes[] = {
        CHARGEFILE_NOT_YET, CHARGEFILE_FOUND,         CHARGEFILE_NONE,
        CHARGEFILE_STORED,  CHARGEFILE_ALREADY_THERE, CHARGEFILE_DELETED,
        CHARGEFILE_ABSENT,  CHARGEFILE_NO_DEPTH,      CHARGEFILE_NO_PAGE,
        CHARGEFILE_DIFFERS,
    };
    for (unsigned i = 0; i < sizeof codes / sizeof codes[0]; i++) {
        EXPECT_EQUAL(codes[i], i);
    }
    EXPECT_EQUAL(CHARGEFILE_SEARCH, 1);
    EXPECT_EQUAL(CHARGEFILE_INSERT, 2);
    EXPECT_EQUAL(CHARGEFILE_DELETE, 3);
}

static void refusal_numbers(void)
{
    static const unsigned numbers[] = {
        CHARGEFILE_ACCEPTED,          CHARGEFILE_REFUSED_SHORT,  CHARGEFILE_REFUSED_VERSION,
        CHARGEFILE_REFUSED_LIMIT,     CHARGEFILE_REFUSED_OFFSET, CHARGEFILE_REFUSED_ENTRY,
        CHARGEFILE_REFUSED_PAGE,      CHARGEFILE_REFUSED_OWNER,  CHARGEFILE_REFUSED_RECORD,
        CHARGEFILE_REFUSED_OPERATION, CHARGEFILE_REFUSED_TURN,   CHARGEFILE_REFUSED_OUTPUT,
        CHARGEFILE_REFUSED_PATTERN,   CHARGEFILE_REFUSED_ZERO,   CHARGEFILE_REFUSED_BAND,
        CHARGEFILE_REFUSED_CHARGE,    CHARGEFILE_REFUSED_TARIFF,
    };
    for (unsigned i = 0; i < sizeof numbers / sizeof numbers[0]; i++) {
        EXPECT_EQUAL(numbers[i], i);
    }
    EXPECT_EQUAL(CHARGEFILE_REFUSED_PRESENT, 18);
    EXPECT_EQUAL(CHARGEFILE_REFUSED_DEPTH, 19);
    EXPECT_EQUAL(CHARGEFILE_REFUSED_DEALT, 21);
}

/* "place 0", "place 1", "place 2" of a run; "at place 0 as for every later output" */
static void places_of_11(void)
{
    EXPECT_EQUAL(CHARGEFILE_SMALL_OUTPUT, 0);
    EXPECT_EQUAL(CHARGEFILE_SMALL_RESULT, 0);
    EXPECT_EQUAL(CHARGEFILE_SMALL_ROWS, 1);
    EXPECT_EQUAL(CHARGEFILE_SMALL_MEMORY, 2);
}

/* "Page, 4 + 8c bytes: l (1), record count (1), pattern (2), then records" */
static void page_fields(void)
{
    static job j;
    static const record held = {2, 50};
    counts c = {8, 1, 1, 1, 0, 0};
    make_job(&j, c);
    put_page(&j, 1, 7, 300, &held, 1);
    const uint8_t *page = j.bytes + layout_of(c).table;
    EXPECT_EQUAL(page[CHARGEFILE_PAGE_AT_DEPTH], 7);
    EXPECT_EQUAL(page[CHARGEFILE_PAGE_AT_COUNT], 1);
    EXPECT_EQUAL(chargefile_two(page + CHARGEFILE_PAGE_AT_PATTERN), 300);
    EXPECT_EQUAL(chargefile_four(page + CHARGEFILE_PAGE_HEAD_SIZE), 2);
}

/* "Answer, 8 bytes: code, zero byte, turns used without waiting (2), charge (4)", and in place of
 * the zero byte "the page number less one" */
static void answer_fields(void)
{
    EXPECT_EQUAL(CHARGEFILE_ANSWER_SIZE, 8);
    EXPECT_EQUAL(CHARGEFILE_ANSWER_AT_CODE, 0);
    EXPECT_EQUAL(CHARGEFILE_ANSWER_AT_PAGE, 1);
    EXPECT_EQUAL(CHARGEFILE_ANSWER_AT_USED, 2);
    EXPECT_EQUAL(CHARGEFILE_ANSWER_AT_CHARGE, 4);
}

/* Every code with every byte, from C and from C++. */
static void page_of_an_answer(void)
{
    for (unsigned code = 0; code <= 9; code++) {
        for (unsigned byte = 0; byte <= 255; byte++) {
            const uint8_t answer[8] = {(uint8_t)code, (uint8_t)byte, 255, 255, 255, 255, 255, 255};
            EXPECT_EQUAL(chargefile_answer_page(answer), code == 0 ? 0 : byte + 1);
            EXPECT_EQUAL(cpp_answer_page(answer), code == 0 ? 0 : byte + 1);
        }
    }
}

static void numbers_are_little_endian(void)
{
    static const uint8_t bytes[4] = {0x78, 0x56, 0x34, 0xF2};
    EXPECT_EQUAL(chargefile_two(bytes), 0x5678);
    EXPECT_EQUAL(chargefile_four(bytes), 0xF2345678);
}

static void called_from_cpp(void)
{
    static job j;
    make_job_e(&j, 20);
    lend(&j);
    expect_done(cpp_check(j.bytes, j.length), 0);
    expect_refusal(cpp_check(j.bytes, 31), CHARGEFILE_REFUSED_SHORT, 31);
    expect_done(cpp_run(j.bytes, j.length, set.result, set.result_length, set.rows, set.rows_length,
                        set.memory, set.memory_length),
                148);
    EXPECT(left_as_after_a_run(148));
    EXPECT_EQUAL(cpp_row_size(), 16);
    EXPECT_EQUAL(cpp_outcome_size(), 24);
    EXPECT_EQUAL(cpp_result_size(j.bytes, j.length), result_room(counts_of(&j)));
}

void header_tests(void)
{
    test("header: a row has 16 bytes, its fields as the library has them", row_layout);
    test("header: an outcome has 24 bytes, its fields as the library has them", outcome_layout);
    test("header: the versions", versions);
    test("header: the limits", limits);
    test("header: the largest job, file, result and table", largest_sizes);
    test("header: sizes of files, jobs and results", sizes);
    test("header: the output of dealing", sizes_for_dealing);
    test("header: the result buffer of a job", result_size_of_a_job);
    test("header: codes and kinds", codes_and_kinds);
    test("header: refusal numbers", refusal_numbers);
    test("header: the places of refusal 11", places_of_11);
    test("header: where the fields of a page stand", page_fields);
    test("header: where the fields of an answer stand", answer_fields);
    test("header: the page of an answer", page_of_an_answer);
    test("header: numbers of 2 and 4 bytes", numbers_are_little_endian);
    test("header: the library called from C++", called_from_cpp);
}
