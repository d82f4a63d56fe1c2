/*
 * Rows 12, 6 and 13 of the refusal table: every byte that must be zero, and the order in which they
 * are told. All three are tried on a page before the next page is looked at; all of them behind row
 * 5 and before row 7.
 *
 * The jobs have depth 1, capacity 2 and two pages, so their directory stands at 32 (2 entries of 2
 * bytes), their pages of 20 bytes at 36 and 56. A page has its depth at 0, its record count at 1,
 * its pattern at 2, its records at 4 and 12.
 */
#include "groups.h"
#include "harness.h"
#include "lent.h"

enum { DIRECTORY = 32, PAGE_1 = 36, PAGE_2 = 56, PAGE_LENGTH = 20 };

/* A job with both pages in use and empty, two bytes of it changed. */
typedef struct pair {
    const char *name;
    unsigned at, byte, other_at, other_byte;
    unsigned number, place;
} pair;

static const pair PAIRS[] = {
    {"order: an entry before a depth", PAGE_1, 2, DIRECTORY + 2, 0, CHARGEFILE_REFUSED_ENTRY,
     DIRECTORY + 2},
    {"order: an entry before a count", PAGE_1 + 1, 3, DIRECTORY + 2, 3, CHARGEFILE_REFUSED_ENTRY,
     DIRECTORY + 2},
    {"order: an entry before a byte", PAGE_1 + 4, 1, DIRECTORY + 2, 0, CHARGEFILE_REFUSED_ENTRY,
     DIRECTORY + 2},
    {"order: a depth before its pattern", PAGE_1 + 2, 4, PAGE_1, 2, CHARGEFILE_REFUSED_PATTERN,
     PAGE_1},
    {"order: a depth before a count", PAGE_1 + 1, 3, PAGE_1, 2, CHARGEFILE_REFUSED_PATTERN, PAGE_1},
    {"order: a pattern before a count", PAGE_1 + 1, 3, PAGE_1 + 2, 2, CHARGEFILE_REFUSED_PATTERN,
     PAGE_1 + 2},
    {"order: a depth before a byte", PAGE_1 + 4, 1, PAGE_1, 2, CHARGEFILE_REFUSED_PATTERN, PAGE_1},
    {"order: a pattern before a byte", PAGE_1 + 4, 1, PAGE_1 + 2, 2, CHARGEFILE_REFUSED_PATTERN,
     PAGE_1 + 2},
    {"a count above c: no byte has to be zero", PAGE_1 + 19, 1, PAGE_1 + 1, 3, CHARGEFILE_REFUSED_PAGE,
     PAGE_1},
    {"order: a count before the next page's depth", PAGE_2, 2, PAGE_1 + 1, 3,
     CHARGEFILE_REFUSED_PAGE, PAGE_1},
    {"order: a byte before the next page's depth", PAGE_2, 2, PAGE_1 + 19, 1,
     CHARGEFILE_REFUSED_ZERO, PAGE_1 + 19},
    {"order: a byte before the next page's pattern", PAGE_2 + 2, 2, PAGE_1 + 4, 1,
     CHARGEFILE_REFUSED_ZERO, PAGE_1 + 4},
    {"order: a byte before the next page's count", PAGE_2 + 1, 3, PAGE_1 + 12, 1,
     CHARGEFILE_REFUSED_ZERO, PAGE_1 + 12},
    {"order: the first byte of two", PAGE_1 + 9, 1, PAGE_1 + 8, 1, CHARGEFILE_REFUSED_ZERO,
     PAGE_1 + 8},
    {"order: a depth before an owner", DIRECTORY, 2, PAGE_2, 2, CHARGEFILE_REFUSED_PATTERN, PAGE_2},
    {"order: a pattern before an owner", DIRECTORY, 2, PAGE_2 + 2, 2, CHARGEFILE_REFUSED_PATTERN,
     PAGE_2 + 2},
    {"order: a count before an owner", DIRECTORY, 2, PAGE_2 + 1, 3, CHARGEFILE_REFUSED_PAGE,
     PAGE_2},
    {"order: a byte before an owner", DIRECTORY, 2, PAGE_2 + 19, 1, CHARGEFILE_REFUSED_ZERO,
     PAGE_2 + 19},
};

static job j;

/* In job E page 2 is not in use. There 13 is told alone, though 255 is no depth, no count and no
 * part of a pattern. */
static void every_byte_of_an_unused_page(void)
{
    for (unsigned at = PAGE_2; at < PAGE_2 + PAGE_LENGTH; at++) {
        make_job_e(&j, 20);
        j.bytes[at] = 255;
        expect_refused(&j, CHARGEFILE_REFUSED_ZERO, at);
    }
}

/* Also where every later byte of the page is wrong too: the first is told. */
static void first_byte_of_an_unused_page(void)
{
    make_job_e(&j, 20);
    for (unsigned at = PAGE_2 + PAGE_LENGTH - 1; at >= PAGE_2; at--) {
        j.bytes[at] = 255;
        expect_refused(&j, CHARGEFILE_REFUSED_ZERO, at);
    }
}

/* Page 1 of job E with one bit more: pattern 0 no longer begins entry 1, which is refused 7. */
static void unused_page_before_owner(void)
{
    make_job_e(&j, 20);
    j.bytes[PAGE_1] = 1;
    expect_refused(&j, CHARGEFILE_REFUSED_OWNER, DIRECTORY + 2);
    j.bytes[PAGE_2 + PAGE_LENGTH - 1] = 1;
    expect_refused(&j, CHARGEFILE_REFUSED_ZERO, PAGE_2 + PAGE_LENGTH - 1);
}

/* A page in use with one record of the two that it has room for. */
static void every_byte_behind_the_last_record(void)
{
    static const record held = {2, 50};
    counts c = {1, 2, 2, 1, 0, 0};
    make_job(&j, c);
    put_page(&j, 1, 0, 0, &held, 1);
    expect_run(&j, 0);
    for (unsigned at = PAGE_1 + 12; at < PAGE_1 + PAGE_LENGTH; at++) {
        j.bytes[at] = 1;
        expect_refused(&j, CHARGEFILE_REFUSED_ZERO, at);
        j.bytes[at] = 0;
    }
}

/* Job E's page 1 is full: every byte of it belongs to a record, and its last may have any value. */
static void last_byte_of_a_full_page(void)
{
    make_job_e(&j, 20);
    j.bytes[PAGE_1 + PAGE_LENGTH - 1] = 255;
    expect_run(&j, 0);
}

void page_fault_tests(void)
{
    counts both_in_use = {1, 2, 2, 2, 0, 0};
    for (unsigned i = 0; i < sizeof PAIRS / sizeof PAIRS[0]; i++) {
        begin_test(PAIRS[i].name);
        make_job(&j, both_in_use);
        j.bytes[PAIRS[i].at] = (uint8_t)PAIRS[i].byte;
        j.bytes[PAIRS[i].other_at] = (uint8_t)PAIRS[i].other_byte;
        expect_refused(&j, PAIRS[i].number, PAIRS[i].place);
        end_test();
    }
    test("refused: every byte of an unused page", every_byte_of_an_unused_page);
    test("refused: the first byte of an unused page", first_byte_of_an_unused_page);
    test("refused: an unused page before an owner", unused_page_before_owner);
    test("refused: every byte behind the last record", every_byte_behind_the_last_record);
    test("accepted: the last byte of a full page", last_byte_of_a_full_page);
}
