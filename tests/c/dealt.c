/*
 * The turns that are dealt for a job: lists worked out by hand, the largest jobs, and what is lent.
 *
 * A search that finds its call uses 2 turns, and one that does not 3. An insert or a delete uses 6,
 * and 5 where there is nothing to write: it reads its entry, locks the page, verifies, decides,
 * writes, unlocks. In the lists an operation has its turn in each round, or waits.
 */
#include <string.h>

#include "dealing.h"
#include "groups.h"
#include "harness.h"
#include "key.h"
#include "told.h"

enum { TURNS_AT_MOST = 60 };

typedef struct operation {
    unsigned kind;
    uint32_t call, charge;
} operation;

/* A job of capacity 2 with one page of depth 0, or with two of depth 1; each has one call or two,
 * 0 for none. */
typedef struct scene {
    const char *name;
    unsigned depth, pages, in_use;
    uint32_t calls[2][2];
    unsigned operations, turns;
    operation operation[5];
    unsigned list[TURNS_AT_MOST];
} scene;

#define SEARCH(call) {CHARGEFILE_SEARCH, call, 0}
#define INSERT(call) {CHARGEFILE_INSERT, call, 60}
#define DELETE(call) {CHARGEFILE_DELETE, call, 0}

/* The pseudo keys of calls 4, 7 and 11 begin with 0, that of 7 with 01; those of 1, 2, 3, 5 and 8
 * begin with 1, those of 3 and 5 with 10, those of 1, 2 and 8 with 11. */
static const scene SCENES[] = {
    {"dealt: no operations", 1, 2, 1, {{2, 0}}, 0, 0, {{0, 0, 0}}, {0}},
    {"dealt: searches", 1, 2, 1, {{2, 0}}, 3, 7, {SEARCH(2), SEARCH(3), SEARCH(2)},
     {0, 1, 2, 0, 1, 2, 1}},
    {"dealt: one insert", 1, 2, 1, {{2, 0}}, 1, 6, {INSERT(3)}, {0}},
    /* the second waits in rounds 2 to 5; in round 6 the first unlocks and the second locks */
    {"dealt: two deletes of one call", 1, 2, 1, {{2, 0}}, 2, 11, {DELETE(2), DELETE(2)},
     {0, 1, 0, 0, 0, 0, 0, 1, 1, 1, 1}},
    {"dealt: two pages side by side", 1, 2, 2, {{4, 0}, {3, 0}}, 2, 12, {DELETE(4), DELETE(3)},
     {0, 1, 0, 1, 0, 1, 0, 1, 0, 1, 0, 1}},
    /* operation 2 has page 2 to itself; in round 6 all three have a turn */
    {"dealt: freed, and a neighbour", 1, 2, 2, {{4, 0}, {3, 0}}, 3, 18,
     {DELETE(4), INSERT(7), DELETE(3)},
     {0, 1, 2, 0, 2, 0, 2, 0, 2, 0, 2, 0, 1, 2, 1, 1, 1, 1}},
    /* 0 splits page 1, both searches read it meanwhile, and 2 waits and is led to page 2 */
    {"dealt: job E", 1, 2, 1, {{2, 3}}, 4, 22, {INSERT(4), SEARCH(3), DELETE(3), SEARCH(3)},
     {0, 1, 2, 3, 0, 1, 3, 0, 0, 0, 0, 0, 0, 0, 2, 2, 2, 2, 2, 2, 2, 2}},
    /* 0 splits page 1 in rounds 4 to 8; 1 and 3 are led to page 2, and 2 stays */
    {"dealt: a split and three who wait", 1, 2, 1, {{1, 2}}, 4, 33,
     {INSERT(4), DELETE(1), INSERT(11), DELETE(2)},
     {0, 1, 2, 3, 0, 0, 0, 0, 0, 0, 0, 0, 1, 1, 1, 2, 1,
      2, 1, 2, 1, 2, 1, 2, 3, 1, 3, 3, 3, 3, 3, 3, 3}},
    /* 0 splits page 1, 1 splits page 2; 4 is at page 3 before 2, which waits for it and is passed
     * over in the round in which 4 lets go of it, since its moment has been */
    {"dealt: a lower one waits for a higher", 2, 4, 1, {{3, 7}}, 5, 51,
     {INSERT(5), INSERT(8), INSERT(1), DELETE(5), INSERT(1)},
     {0, 1, 2, 3, 4, 0, 0, 0, 0, 0, 0, 0, 0, 0, 1, 1, 1, 2, 1, 2, 1, 2, 3, 1, 3, 1,
      3, 4, 1, 4, 1, 4, 1, 4, 1, 2, 4, 2, 4, 2, 3, 4, 3, 4, 2, 3, 2, 3, 2, 3, 2}},
};

static job j, dealt;

static void make_scene(const scene *s)
{
    counts c = {s->depth, 2, s->pages, s->in_use, s->operations, 0};
    make_job(&j, c);
    for (unsigned p = 1; p <= s->in_use; p++) {
        const uint32_t *calls = s->calls[p - 1];
        unsigned count = (calls[0] > 0) + (calls[1] > 0);
        put_calls(&j, p, s->in_use - 1, s->in_use == 1 ? 0 : p - 1, calls, count);
    }
    for (unsigned i = 0; i < s->operations; i++) {
        const operation *o = &s->operation[i];
        put_operation(&j, i, o->kind, o->call, o->charge);
    }
}

/* Of as many operations as there can be; a search finds nothing in an empty page. */
static void largest_of_searches(void)
{
    static unsigned list[3 * 256];
    counts c = {8, 8, 256, 256, 256, 0};
    make_job(&j, c);
    for (unsigned t = 0; t < 3 * 256; t++) {
        list[t] = t % 256;
    }
    EXPECT_EQUAL(j.length + CHARGEFILE_DEALT_MORE, CHARGEFILE_DEAL_MAX);
    expect_list(&j, list, 3 * 256);
}

/* 256 inserts, one for each entry, that all begin at one page, which is full: pages split while
 * others are under way to them, until there are 256. */
static void largest_of_inserts(void)
{
    counts c = {8, 1, 256, 1, 256, 0};
    uint32_t held = call_under(8, 255, 1);
    make_job(&j, c);
    put_calls(&j, 1, 0, 0, &held, 1);
    for (unsigned i = 0; i < 256; i++) {
        uint32_t call = call_under(8, i, held + 1);
        put_operation(&j, i, CHARGEFILE_INSERT, call, charge_of(call));
    }
    lend_for_dealing(&j);
    expect_turns(&j, &dealt);
    EXPECT_EQUAL(counts_of(&dealt).turns, 4817);
    expect_all_finished(&dealt);
    for (unsigned i = 0; i < 256; i++) {
        /* the last has the entry of the call that is there, and no bit parts the two */
        unsigned code = i < 255 ? CHARGEFILE_STORED : CHARGEFILE_NO_DEPTH;
        EXPECT_EQUAL(set.result[24 + 8 * i], code);
    }
}

/* 256 deletes at one page: all but one wait. The first finds its call, the others do not. */
static void largest_of_deletes(void)
{
    counts c = {0, 1, 1, 1, 256, 0};
    uint32_t held = 7;
    make_job(&j, c);
    put_calls(&j, 1, 0, 0, &held, 1);
    for (unsigned i = 0; i < 256; i++) {
        put_operation(&j, i, CHARGEFILE_DELETE, 7, 0);
    }
    lend_for_dealing(&j);
    expect_turns(&j, &dealt);
    EXPECT_EQUAL(counts_of(&dealt).turns, 6 + 5 * 255);
    expect_all_finished(&dealt);
    expect_answer(0, (answer){CHARGEFILE_DELETED, 1, 6, charge_of(7)});
    expect_answer(255, (answer){CHARGEFILE_ABSENT, 1, 5, 0});
}

/* More than must be: all rows and all memory are left as after a run, and the bytes of the output
 * past the job keep their values. */
static void more_than_enough(void)
{
    make_scene(&SCENES[6]);
    lend_for_dealing(&j);
    set.result_length += 300;
    set.rows_length += 40;
    set.memory_length += 100;
    expect_turns(&j, &dealt);
    EXPECT_EQUAL(dealt.length, j.length + 44);
    expect_all_finished(&dealt);
}

/* A job with its turns is one like any other: cut short by a turn, its last operation is under
 * way. */
static void one_turn_fewer(void)
{
    make_scene(&SCENES[6]);
    lend_for_dealing(&j);
    expect_turns(&j, &dealt);
    counts c = counts_of(&dealt);
    dealt.length -= 2;
    put_two(dealt.bytes + 10, c.turns - 1);
    put_four(dealt.bytes + 28, (uint32_t)dealt.length);
    memset(dealt.bytes + dealt.length, 0, 2);
    expect_run(&dealt, 0);
    expect_header(4, 4, 1, 0);
}

/* Job, output and working memory are bytes and need no alignment. */
static void odd_addresses(void)
{
    static uint8_t shifted[1 + 200];
    make_scene(&SCENES[6]);
    lend_for_dealing(&j);
    expect_turns(&j, &dealt);
    memcpy(shifted + 1, j.bytes, j.length);
    expect_done(chargefile_deal(shifted + 1, j.length, set.result + 1, j.length + 20476, set.rows,
                                4, set.memory + 1, 24576),
                dealt.length);
    EXPECT(memcmp(set.result + 1, dealt.bytes, dealt.length) == 0);
}

void dealt_tests(void)
{
    for (unsigned i = 0; i < sizeof SCENES / sizeof SCENES[0]; i++) {
        begin_test(SCENES[i].name);
        make_scene(&SCENES[i]);
        expect_list(&j, SCENES[i].list, SCENES[i].turns);
        end_test();
    }
    test("dealt: 256 searches", largest_of_searches);
    test("dealt: 256 inserts that split all pages", largest_of_inserts);
    test("dealt: 256 deletes at one page", largest_of_deletes);
    test("dealt: more lent than must be", more_than_enough);
    test("dealt: one turn fewer", one_turn_fewer);
    test("dealt: odd addresses", odd_addresses);
}
