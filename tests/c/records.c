/*
 * Row 8 of the refusal table: a call that does not belong in its page, or is not above the call of
 * the record before it. The lowest record that is wrong in one way or the other is told.
 *
 * The jobs have depth 1, capacity 4 and two pages, both in use. Page 1 takes calls whose pseudo key
 * begins with 0, as 0, 4, 7, 11 and 14; page 2 takes those whose pseudo key begins with 1, as 6, 8
 * and 12. Their directory stands at 32 (2 entries of 2 bytes), their pages of 36 bytes at 36 and
 * 72, their operations at 108. A page has its records at 4, 12, 20 and 28.
 */
#include "groups.h"
#include "harness.h"
#include "key.h"
#include "lent.h"

enum { DIRECTORY = 32, PAGE_1 = 36, PAGE_2 = 72, OPERATIONS = 108 };
enum { SOUND = 99 }; /* no record has this number: the job is accepted */

/* The calls of page 1, and the record that is told. */
typedef struct page {
    const char *name;
    unsigned count;
    uint32_t calls[4];
    unsigned told;
} page;

static const page PAGES[] = {
    {"accepted: calls that rise", 4, {4, 7, 11, 14}, SOUND},
    {"accepted: call 0 and the largest", 4, {0, 4, 0xfffffff9, 0xfffffffc}, SOUND},
    {"refused: the first two exchanged", 4, {7, 4, 11, 14}, 1},
    {"refused: the middle two exchanged", 4, {4, 11, 7, 14}, 2},
    {"refused: the last two exchanged", 4, {4, 7, 14, 11}, 3},
    {"refused: the only two exchanged", 2, {7, 4}, 1},
    {"refused: the last two of three exchanged", 3, {4, 11, 7}, 2},
    {"refused: all calls fall", 4, {14, 11, 7, 4}, 1},
    {"refused: the first call is the highest", 4, {14, 4, 7, 11}, 1},
    {"refused: the last call is the lowest", 4, {7, 11, 14, 4}, 3},
    {"refused: a call twice, side by side", 4, {4, 7, 7, 11}, 2},
    {"refused: a call twice, one between", 4, {4, 7, 4, 11}, 2},
    {"refused: a call twice, first and last", 4, {4, 7, 11, 4}, 3},
    {"refused: all calls equal", 4, {11, 11, 11, 11}, 1},
    {"refused: call 0 twice", 2, {0, 0}, 1},
    {"refused: the largest call twice", 2, {0xfffffffc, 0xfffffffc}, 1},
    {"refused: call 0 second", 2, {4, 0}, 1},
    {"refused: call 0 last", 4, {4, 7, 11, 0}, 3},
    {"refused: call 0 behind the largest", 2, {0xfffffffc, 0}, 1},
    {"refused: a misplaced call in an order that rises", 4, {4, 6, 7, 11}, 1},
    {"refused: a misplaced call first, before the order", 4, {6, 4, 11, 7}, 0},
    {"refused: a misplaced call before the order", 4, {4, 8, 14, 11}, 1},
    {"refused: the order before a misplaced call", 4, {7, 4, 8, 11}, 1},
    {"refused: the order before a misplaced call last", 4, {4, 11, 7, 12}, 2},
    {"refused: a call that is misplaced and out of order", 4, {4, 7, 6, 11}, 2},
    {"refused: a misplaced call twice", 4, {4, 7, 8, 8}, 2},
};

/* Two calls, the lower and the higher. Most would stand the other way round if their bytes were
 * compared from the first on, or not all of them, or with a sign. */
typedef struct couple {
    const char *name;
    uint32_t low, high;
} couple;

static const couple COUPLES[] = {
    {"rising: by the first byte", 0, 4},
    {"rising: by the second byte", 0xfe, 0x100},
    {"rising: by the third byte", 0xfffe, 0x10000},
    {"rising: by the last byte", 0xfffffd, 0x1000000},
    {"rising: by the last byte, all others equal", 0x01fffffd, 0x02fffffd},
    {"rising: by the last byte, one byte against it", 0xfe, 0x1000000},
    {"rising: by the third byte, one byte against it", 0xfe, 0x10000},
    {"rising: without sign", 0x7ffffffe, 0x80000001},
    {"rising: without sign, from 0", 0, 0x80000001},
    {"rising: far apart", 4, 0xfffffffc},
};

static job j;

static void make_pages(const uint32_t *first, unsigned firsts, const uint32_t *second,
                       unsigned seconds)
{
    counts c = {1, 4, 2, 2, 1, 3};
    make_job(&j, c);
    put_calls(&j, 1, 1, 0, first, firsts);
    put_calls(&j, 2, 1, 1, second, seconds);
}

static void expect_told(unsigned page, unsigned told)
{
    if (told == SOUND) {
        expect_run(&j, 0);
    } else {
        expect_refused(&j, CHARGEFILE_REFUSED_RECORD, page + 4 + 8 * told);
    }
}

/* A call of the other page in the place of each call above: the next one, and the largest of page 2
 * in the place of the largest of page 1. So they rise and fall alike. */
static uint32_t of_the_other_page(uint32_t call)
{
    uint32_t other = call == 0xfffffffc ? 0xffffffff : call + 1;
    EXPECT_EQUAL(first_bits(other, 1), 1 - first_bits(call, 1));
    return other;
}

/* The same in page 2, with calls of the other page. */
static void expect_in_both_pages(const page *p)
{
    static const uint32_t first[2] = {4, 7}, second[2] = {3, 5};
    uint32_t others[4];
    for (unsigned r = 0; r < p->count; r++) {
        others[r] = of_the_other_page(p->calls[r]);
    }
    make_pages(p->calls, p->count, second, 2);
    expect_told(PAGE_1, p->told);
    make_pages(first, 2, others, p->count);
    expect_told(PAGE_2, p->told);
}

static void expect_order(const couple *of)
{
    const uint32_t rising[2] = {of->low, of->high}, falling[2] = {of->high, of->low};
    make_pages(rising, 2, NULL, 0);
    expect_told(PAGE_1, SOUND);
    make_pages(falling, 2, NULL, 0);
    expect_told(PAGE_1, 1);
}

/* The order begins anew in every page, and page 1 is looked through before page 2. */
static void one_page_and_the_next(void)
{
    static const uint32_t first[3] = {7, 9, 4}, second[2] = {3, 1};
    make_pages(first, 2, second, 1);
    expect_told(PAGE_1, SOUND);
    make_pages(first, 2, second, 2);
    expect_told(PAGE_2, 1);
    make_pages(first, 3, second, 2);
    expect_told(PAGE_1, 2);
}

/* A page of eight records, the most there can be: depth 0, so that it stands at 34. Of two records
 * that are exchanged, the one behind the first is told: it is below what stands there now. */
static void every_exchange(void)
{
    counts c = {0, 8, 1, 1, 0, 0};
    for (unsigned a = 0; a < 8; a++) {
        for (unsigned b = a + 1; b < 8; b++) {
            uint32_t calls[8] = {10, 20, 30, 40, 50, 60, 70, 80};
            calls[a] = 10 * (b + 1);
            calls[b] = 10 * (a + 1);
            make_job(&j, c);
            put_calls(&j, 1, 0, 0, calls, 8);
            expect_told(34, a + 1);
        }
    }
}

/* A call of the same page written over a later one is told there. */
static void every_repeated_call(void)
{
    counts c = {0, 8, 1, 1, 0, 0};
    for (unsigned a = 0; a < 8; a++) {
        for (unsigned b = a + 1; b < 8; b++) {
            uint32_t calls[8] = {10, 20, 30, 40, 50, 60, 70, 80};
            calls[b] = calls[a];
            make_job(&j, c);
            put_calls(&j, 1, 0, 0, calls, 8);
            expect_told(34, b);
        }
    }
}

/* Rows 12, 6, 13 and 7 come before row 8, rows 9 and 10 behind it. */
static void among_the_other_rows(void)
{
    static const uint32_t falling[2] = {7, 4};
    make_pages(falling, 2, NULL, 0);
    put_turn(&j, 0, 1);
    expect_told(PAGE_1, 1);
    j.bytes[OPERATIONS] = 4;
    expect_told(PAGE_1, 1);
    put_entry(&j, 1, 1);
    expect_refused(&j, CHARGEFILE_REFUSED_OWNER, DIRECTORY + 2);
    j.bytes[PAGE_2 + 35] = 1;
    expect_refused(&j, CHARGEFILE_REFUSED_ZERO, PAGE_2 + 35);
    j.bytes[PAGE_2 + 1] = 5;
    expect_refused(&j, CHARGEFILE_REFUSED_PAGE, PAGE_2);
    j.bytes[PAGE_2 + 2] = 2;
    expect_refused(&j, CHARGEFILE_REFUSED_PATTERN, PAGE_2 + 2);
}

void record_tests(void)
{
    for (unsigned i = 0; i < sizeof PAGES / sizeof PAGES[0]; i++) {
        begin_test(PAGES[i].name);
        expect_in_both_pages(&PAGES[i]);
        end_test();
    }
    for (unsigned i = 0; i < sizeof COUPLES / sizeof COUPLES[0]; i++) {
        begin_test(COUPLES[i].name);
        expect_order(&COUPLES[i]);
        end_test();
    }
    test("rising: one page and the next", one_page_and_the_next);
    test("refused: every two records exchanged", every_exchange);
    test("refused: every call repeated", every_repeated_call);
    test("order: a record among the other rows", among_the_other_rows);
}
