/*
 * What tidying writes: which pages are joined, how the pages left are numbered and written, at
 * which depth, and with how much lent.
 */
#include <string.h>

#include "groups.h"
#include "harness.h"
#include "key.h"
#include "lent.h"
#include "tidying.h"

/* A file of 2^depth entries, and what it comes to at the depth that is wanted. The pages before
 * stand by their number, those left by their first entry. */
typedef struct tidying {
    const char *name;
    unsigned capacity, pages, depth, wanted;
    unsigned before, after; /* how many pages are in use */
    page was[4], left[4];
} tidying;

/* A pattern begins the pseudo keys of the calls under it: 4, 11 and 20 are under 00, 0, 7 and 16
 * under 01, 3, 5, 6 and 12 under 10, 1, 8 and 17 under 11. So the first two lists are under 0, the
 * others under 1. */
static const tidying TIDYINGS[] = {
    {"tidied: one page", 2, 1, 0, 0, 1, 1, {{0, 0, 2, {3, 8}}}, {{0, 0, 2, {3, 8}}}},
    {"tidied: a pair with room", 3, 2, 1, 1, 2, 1, {{1, 0, 1, {4}}, {1, 1, 1, {3}}},
     {{0, 0, 2, {3, 4}}}},
    {"tidied: a pair that just fits", 3, 2, 1, 1, 2, 1, {{1, 0, 2, {4, 7}}, {1, 1, 1, {8}}},
     {{0, 0, 3, {4, 7, 8}}}},
    {"tidied: a record too many", 3, 2, 1, 1, 2, 2, {{1, 0, 2, {4, 7}}, {1, 1, 2, {5, 8}}},
     {{1, 0, 2, {4, 7}}, {1, 1, 2, {5, 8}}}},
    {"tidied: a full page and an empty one", 2, 2, 1, 1, 2, 1, {{1, 0, 0, {0}}, {1, 1, 2, {1, 3}}},
     {{0, 0, 2, {1, 3}}}},
    {"tidied: records from both in turns", 4, 2, 1, 1, 2, 1, {{1, 0, 2, {4, 7}}, {1, 1, 2, {5, 6}}},
     {{0, 0, 4, {4, 5, 6, 7}}}},
    {"tidied: calls compared as numbers", 4, 2, 1, 1, 2, 1,
     {{1, 0, 2, {0xfe, 0x02000000}}, {1, 1, 2, {0xff, 0x01000001}}},
     {{0, 0, 4, {0xfe, 0xff, 0x01000001, 0x02000000}}}},
    {"tidied: the least call and the largest", 2, 2, 1, 1, 2, 1,
     {{1, 0, 1, {0}}, {1, 1, 1, {UINT32_MAX}}}, {{0, 0, 2, {0, UINT32_MAX}}}},
    {"tidied: joined pages are joined again", 4, 4, 2, 2, 4, 1,
     {{2, 0, 1, {11}}, {2, 1, 1, {7}}, {2, 2, 1, {5}}, {2, 3, 1, {8}}}, {{0, 0, 4, {5, 7, 8, 11}}}},
    {"tidied: joined only when its like is joined", 3, 3, 2, 2, 3, 1,
     {{1, 0, 1, {16}}, {2, 2, 1, {12}}, {2, 3, 1, {8}}}, {{0, 0, 3, {8, 12, 16}}}},
    {"tidied: two joins, and no third", 2, 4, 2, 2, 4, 2,
     {{2, 0, 1, {11}}, {2, 1, 1, {7}}, {2, 2, 1, {5}}, {2, 3, 1, {8}}},
     {{1, 0, 2, {7, 11}}, {1, 1, 2, {5, 8}}}},
    {"tidied: neighbours that are no pair", 2, 4, 2, 2, 4, 4,
     {{2, 0, 2, {11, 20}}, {2, 1, 1, {7}}, {2, 2, 1, {5}}, {2, 3, 2, {8, 17}}},
     {{2, 0, 2, {11, 20}}, {2, 1, 1, {7}}, {2, 2, 1, {5}}, {2, 3, 2, {8, 17}}}},
    {"tidied: pages of unequal depth", 2, 3, 2, 2, 3, 3,
     {{1, 0, 1, {7}}, {2, 2, 1, {5}}, {2, 3, 2, {8, 17}}},
     {{1, 0, 1, {7}}, {2, 2, 1, {5}}, {2, 3, 2, {8, 17}}}},
    {"tidied: numbered by the first entry", 2, 5, 2, 2, 4, 3,
     {{2, 3, 1, {8}}, {2, 1, 1, {7}}, {2, 2, 2, {5, 12}}, {2, 0, 1, {11}}},
     {{1, 0, 2, {7, 11}}, {2, 2, 2, {5, 12}}, {2, 3, 1, {8}}}},
    {"tidied: numbered anew, nothing joined", 1, 2, 1, 1, 2, 2, {{1, 1, 1, {5}}, {1, 0, 1, {4}}},
     {{1, 0, 1, {4}}, {1, 1, 1, {5}}}},
    {"tidied: a deeper directory", 1, 3, 1, 3, 2, 2, {{1, 1, 1, {5}}, {1, 0, 1, {4}}},
     {{1, 0, 1, {4}}, {1, 1, 1, {5}}}},
    {"tidied: the deepest directory", 2, 2, 0, 8, 1, 1, {{0, 0, 1, {7}}}, {{0, 0, 1, {7}}}},
    {"tidied: a directory as shallow as can be", 2, 4, 8, 1, 3, 2,
     {{1, 1, 2, {5, 8}}, {2, 0, 0, {0}}, {2, 1, 1, {7}}}, {{1, 0, 1, {7}}, {1, 1, 2, {5, 8}}}},
    {"tidied: from depth 8 to depth 0", 1, 4, 8, 0, 2, 1, {{1, 0, 0, {0}}, {1, 1, 1, {1}}},
     {{0, 0, 1, {1}}}},
};

static job j, wanted;

/* Lent just enough, a byte more, much more, a byte less, nothing; and then tidied again. */
static void expect_all(const tidying *t)
{
    counts was = {t->depth, t->capacity, t->pages, t->before, 0, 0};
    counts left = {t->wanted, t->capacity, t->pages, t->after, 0, 0};
    make_file(&j, was, t->was);
    make_file(&wanted, left, t->left);
    EXPECT_EQUAL(CHARGEFILE_FILE_SIZE(t->wanted, t->capacity, t->pages), wanted.length);
    expect_tidied(&j, t->wanted, wanted.length, &wanted);
    expect_tidied(&j, t->wanted, wanted.length + 1, &wanted);
    expect_tidied(&j, t->wanted, OUT_ROOM, &wanted);
    expect_not_tidied(&j, t->wanted, wanted.length - 1, CHARGEFILE_REFUSED_OUTPUT,
                      CHARGEFILE_SMALL_OUTPUT);
    expect_not_tidied(&j, t->wanted, 0, CHARGEFILE_REFUSED_OUTPUT, CHARGEFILE_SMALL_OUTPUT);
    expect_tidied(&wanted, t->wanted, wanted.length, &wanted);
}

/* A file of the largest kind with 256 pages in use, the last pattern first if they are to be
 * numbered anew, and so many records in each: the lowest calls under its pattern. */
static void make_largest(job *into, unsigned records, int backwards)
{
    static page pages[256];
    counts c = {8, 8, 256, 256, 0, 0};
    for (unsigned x = 0; x < 256; x++) {
        unsigned pattern = backwards ? 255 - x : x;
        uint32_t from = 0;
        pages[x] = (page){8, pattern, records, {0}};
        for (unsigned r = 0; r < records; r++) {
            pages[x].calls[r] = call_under(8, pattern, from);
            from = pages[x].calls[r] + 1;
        }
    }
    make_file(into, c, pages);
}

/* Full pages: none is joined. */
static void largest_full(void)
{
    make_largest(&j, 8, 1);
    make_largest(&wanted, 8, 0);
    EXPECT_EQUAL(wanted.length, CHARGEFILE_FILE_MAX);
    expect_tidied(&j, 8, CHARGEFILE_FILE_MAX, &wanted);
    expect_not_tidied(&j, 8, CHARGEFILE_FILE_MAX - 1, CHARGEFILE_REFUSED_OUTPUT,
                      CHARGEFILE_SMALL_OUTPUT);
    expect_not_tidied(&j, 7, OUT_ROOM, CHARGEFILE_REFUSED_DEPTH, 0);
}

/* Another record for a page, which then still has its calls in rising order. */
static void put_in_order(page *p, uint32_t call)
{
    unsigned r = p->count;
    for (; r > 0 && p->calls[r - 1] > call; r--) {
        p->calls[r] = p->calls[r - 1];
    }
    p->calls[r] = call;
    p->count++;
}

/* One record in each page: every eight of them come to one page, of depth 5, whose records are of
 * eight pages and by rising call. */
static void largest_thin(void)
{
    static page pages[32];
    counts c = {5, 8, 256, 32, 0, 0};
    for (unsigned x = 0; x < 32; x++) {
        pages[x] = (page){5, x, 0, {0}};
        for (unsigned pattern = 8 * x; pattern < 8 * x + 8; pattern++) {
            put_in_order(&pages[x], call_under(8, pattern, 0));
        }
    }
    make_largest(&j, 1, 1);
    make_file(&wanted, c, pages);
    expect_tidied(&j, 5, wanted.length, &wanted);
    expect_not_tidied(&j, 4, OUT_ROOM, CHARGEFILE_REFUSED_DEPTH, 0);
}

/* No record at all: one page is left, and 255 are zero. */
static void largest_empty(void)
{
    counts c = {0, 8, 256, 1, 0, 0};
    make_largest(&j, 0, 0);
    make_job(&wanted, c);
    expect_tidied(&j, 0, wanted.length, &wanted);
}

/* A tidied file is a job with nothing to do: its run leaves it as it is. */
static void tidied_and_run(void)
{
    make_largest(&j, 1, 1);
    expect_done(chargefile_tidy(j.bytes, j.length, 8, out, OUT_ROOM), CHARGEFILE_FILE_MAX);
    memset(&wanted, 0, sizeof wanted);
    wanted.length = CHARGEFILE_FILE_MAX;
    memcpy(wanted.bytes, out, wanted.length);
    expect_run(&wanted, 24 + wanted.length);
    EXPECT(memcmp(set.result + 24, out, wanted.length) == 0);
}

/* File and output are bytes and need no alignment. */
static void odd_addresses(void)
{
    static const page pages[2] = {{1, 1, 1, {5}}, {1, 0, 1, {4}}};
    static const page left = {0, 0, 2, {4, 5}};
    static uint8_t shifted[1 + 200];
    make_file(&j, (counts){1, 2, 2, 2, 0, 0}, pages);
    make_file(&wanted, (counts){2, 2, 2, 1, 0, 0}, &left);
    memcpy(shifted + 1, j.bytes, j.length);
    expect_done(chargefile_tidy(shifted + 1, j.length, 2, out + 1, wanted.length), wanted.length);
    EXPECT(memcmp(out + 1, wanted.bytes, wanted.length) == 0);
}

void tidied_tests(void)
{
    for (unsigned i = 0; i < sizeof TIDYINGS / sizeof TIDYINGS[0]; i++) {
        begin_test(TIDYINGS[i].name);
        expect_all(&TIDYINGS[i]);
        end_test();
    }
    test("tidied: 256 full pages", largest_full);
    test("tidied: 256 pages with a record each", largest_thin);
    test("tidied: 256 empty pages", largest_empty);
    test("tidied: and run", tidied_and_run);
    test("tidied: odd addresses", odd_addresses);
}
