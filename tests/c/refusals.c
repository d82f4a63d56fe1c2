/*
 * Every row of the refusal table but 11, each on job E with one byte changed.
 *
 * Job E has depth 1 and capacity 2, so its directory stands at 32 (2 entries of 2 bytes), its two
 * pages of 20 bytes at 36 and 56, its four operations of 10 bytes at 76, its turns at 116.
 */
#include "groups.h"
#include "harness.h"
#include "lent.h"

enum { DIRECTORY = 32, PAGE_1 = 36, PAGE_2 = 56, OPERATIONS = 76, TURNS = 116 };

typedef struct damage {
    const char *name;
    unsigned at, byte; /* the byte that is changed, and its new value */
    unsigned number, place;
} damage;

static const damage DAMAGES[] = {
    {"refused: version 1", 0, 1, CHARGEFILE_REFUSED_VERSION, 0},
    {"refused: version 3", 0, 3, CHARGEFILE_REFUSED_VERSION, 0},
    {"refused: version 258", 1, 1, CHARGEFILE_REFUSED_VERSION, 0},
    {"refused: directory not at 32", 12, 33, CHARGEFILE_REFUSED_OFFSET, 12},
    {"refused: page table one off", 16, PAGE_1 + 1, CHARGEFILE_REFUSED_OFFSET, 16},
    {"refused: operations one off", 20, OPERATIONS + 1, CHARGEFILE_REFUSED_OFFSET, 20},
    {"refused: turns one off", 24, TURNS + 1, CHARGEFILE_REFUSED_OFFSET, 24},
    {"refused: total one off", 28, 157, CHARGEFILE_REFUSED_OFFSET, 28},
    {"refused: entry 0 names page 0", DIRECTORY, 0, CHARGEFILE_REFUSED_ENTRY, DIRECTORY},
    {"refused: entry 1 names page 2", DIRECTORY + 2, 2, CHARGEFILE_REFUSED_ENTRY, DIRECTORY + 2},
    {"refused: local depth above g", PAGE_1, 2, CHARGEFILE_REFUSED_PATTERN, PAGE_1},
    {"refused: local depth 255", PAGE_1, 255, CHARGEFILE_REFUSED_PATTERN, PAGE_1},
    {"refused: pattern of no bits is 1", PAGE_1 + 2, 1, CHARGEFILE_REFUSED_PATTERN, PAGE_1 + 2},
    {"refused: pattern of no bits is 256", PAGE_1 + 3, 1, CHARGEFILE_REFUSED_PATTERN, PAGE_1 + 2},
    {"refused: count above c", PAGE_1 + 1, 3, CHARGEFILE_REFUSED_PAGE, PAGE_1},
    {"refused: count 255", PAGE_1 + 1, 255, CHARGEFILE_REFUSED_PAGE, PAGE_1},
    {"refused: the second record not counted", PAGE_1 + 1, 1, CHARGEFILE_REFUSED_ZERO, PAGE_1 + 12},
    {"refused: no record counted", PAGE_1 + 1, 0, CHARGEFILE_REFUSED_ZERO, PAGE_1 + 4},
    {"refused: an unused page not zero", PAGE_2 + 19, 1, CHARGEFILE_REFUSED_ZERO, PAGE_2 + 19},
    {"refused: entry 1 in a page of pattern 0", PAGE_1, 1, CHARGEFILE_REFUSED_OWNER, DIRECTORY + 2},
    {"refused: a call twice in a page", PAGE_1 + 12, 2, CHARGEFILE_REFUSED_RECORD, PAGE_1 + 12},
    {"refused: the second call below the first", PAGE_1 + 12, 1, CHARGEFILE_REFUSED_RECORD,
     PAGE_1 + 12},
    {"refused: the first call above the second", PAGE_1 + 4, 4, CHARGEFILE_REFUSED_RECORD,
     PAGE_1 + 12},
    {"refused: the same by its last byte", PAGE_1 + 7, 1, CHARGEFILE_REFUSED_RECORD, PAGE_1 + 12},
    {"refused: kind 0", OPERATIONS, 0, CHARGEFILE_REFUSED_OPERATION, OPERATIONS},
    {"refused: kind 4", OPERATIONS + 10, 4, CHARGEFILE_REFUSED_OPERATION, OPERATIONS + 10},
    {"refused: a spare byte", OPERATIONS + 1, 1, CHARGEFILE_REFUSED_OPERATION, OPERATIONS},
    {"refused: a search's charge", OPERATIONS + 16, 1, CHARGEFILE_REFUSED_OPERATION,
     OPERATIONS + 10},
    {"refused: the last byte of a search's charge", OPERATIONS + 39, 1,
     CHARGEFILE_REFUSED_OPERATION, OPERATIONS + 30},
    {"refused: a delete's spare byte", OPERATIONS + 21, 1, CHARGEFILE_REFUSED_OPERATION,
     OPERATIONS + 20},
    {"refused: the first turn names m", TURNS, 4, CHARGEFILE_REFUSED_TURN, TURNS},
    {"refused: the last turn names 256", TURNS + 39, 1, CHARGEFILE_REFUSED_TURN, TURNS + 38},
};

static job j;

/* "version 1 gives refusal 2", and so does every other but 2. */
static void every_other_version(void)
{
    make_job_e(&j, 20);
    for (unsigned version = 0; version < 65536; version++) {
        put_two(j.bytes, version);
        chargefile_outcome told = chargefile_check(j.bytes, j.length);
        if (version == 2) {
            expect_done(told, 0);
        } else {
            expect_refusal(told, CHARGEFILE_REFUSED_VERSION, 0);
        }
    }
}

/* "under 32 bytes; place is the length" */
static void every_length_under_32(void)
{
    for (size_t length = 0; length < 32; length++) {
        make_job_e(&j, 20);
        j.length = length;
        expect_refused(&j, CHARGEFILE_REFUSED_SHORT, length);
    }
}

/* "length not the total (place 28)" */
static void every_other_wrong_length(void)
{
    for (size_t length = 32; length < 200; length++) {
        make_job_e(&j, 20);
        j.length = length;
        if (length != 156) {
            expect_refused(&j, CHARGEFILE_REFUSED_OFFSET, 28);
        }
    }
}

/* A call in the wrong page: page 1 with pattern 0 and page 2 with pattern 1, and call 5 in page 1.
 * The pseudo key of call 4 begins with 0, that of call 5 with 1. */
static void wrong_page(void)
{
    static const record held[2] = {{4, 50}, {5, 70}};
    counts c = {1, 2, 2, 2, 0, 0};
    make_job(&j, c);
    put_page(&j, 1, 1, 0, held, 2);
    expect_refused(&j, CHARGEFILE_REFUSED_RECORD, PAGE_1 + 4 + 8);
}

/* "Checked by rising number", 12 and 13 aside (page_faults.c): the last turn and entry 1 are wrong,
 * and the entry is told. */
static void lowest_number_first(void)
{
    make_job_e(&j, 20);
    put_turn(&j, 19, 4);
    put_entry(&j, 1, 0);
    expect_refused(&j, CHARGEFILE_REFUSED_ENTRY, DIRECTORY + 2);
}

/* "then by lowest place": turns 7 and 12 are wrong, and turn 7 is told. */
static void lowest_place_first(void)
{
    make_job_e(&j, 20);
    put_turn(&j, 12, 4);
    put_turn(&j, 7, 4);
    expect_refused(&j, CHARGEFILE_REFUSED_TURN, TURNS + 14);
}

/* (J) "a turn naming m is refused 10, m - 1 is not" */
static void last_operation_in_a_turn(void)
{
    make_job_e(&j, 20);
    put_turn(&j, 0, 3);
    expect_run(&j, 0);
}

/* A delete may have any charge: each of its four bytes alone. */
static void charge_of_a_delete(void)
{
    for (unsigned byte = 0; byte < 4; byte++) {
        make_job_e(&j, 20);
        j.bytes[OPERATIONS + 26 + byte] = 255;
        expect_run(&j, 0);
    }
}

void refusal_tests(void)
{
    for (unsigned i = 0; i < sizeof DAMAGES / sizeof DAMAGES[0]; i++) {
        begin_test(DAMAGES[i].name);
        make_job_e(&j, 20);
        j.bytes[DAMAGES[i].at] = (uint8_t)DAMAGES[i].byte;
        expect_refused(&j, DAMAGES[i].number, DAMAGES[i].place);
        end_test();
    }
    test("refused: every version but 2", every_other_version);
    test("refused: every length under 32", every_length_under_32);
    test("refused: every other wrong length", every_other_wrong_length);
    test("refused: a call in the wrong page", wrong_page);
    test("refused: the lowest number first", lowest_number_first);
    test("refused: the lowest place first", lowest_place_first);
    test("accepted: a turn naming the last operation", last_operation_in_a_turn);
    test("accepted: the charge of a delete", charge_of_a_delete);
}
