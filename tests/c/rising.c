/*
 * "Records in every page stand by rising call number": where a run puts a record, in a page with
 * room and in a split, and that a call is found and missed at every place of a page.
 */
#include "groups.h"
#include "harness.h"
#include "key.h"
#include "told.h"

/* Calls of a page in the page's order. */
typedef struct calls {
    unsigned count;
    uint32_t list[4];
} calls;

/* One operation on a page with room for four. */
typedef struct change {
    const char *name;
    unsigned kind;
    uint32_t call;
    calls before, after;
} change;

static const change CHANGES[] = {
    {"insert: at the front", CHARGEFILE_INSERT, 5, {3, {10, 20, 30}}, {4, {5, 10, 20, 30}}},
    {"insert: second", CHARGEFILE_INSERT, 15, {3, {10, 20, 30}}, {4, {10, 15, 20, 30}}},
    {"insert: third", CHARGEFILE_INSERT, 25, {3, {10, 20, 30}}, {4, {10, 20, 25, 30}}},
    {"insert: at the end", CHARGEFILE_INSERT, 35, {3, {10, 20, 30}}, {4, {10, 20, 30, 35}}},
    {"insert: before the only one", CHARGEFILE_INSERT, 9, {1, {10}}, {2, {9, 10}}},
    {"insert: behind the only one", CHARGEFILE_INSERT, 11, {1, {10}}, {2, {10, 11}}},
    {"insert: into an empty page", CHARGEFILE_INSERT, 7, {0, {0}}, {1, {7}}},
    {"insert: call 0", CHARGEFILE_INSERT, 0, {2, {1, 2}}, {3, {0, 1, 2}}},
    {"insert: call 0 into an empty page", CHARGEFILE_INSERT, 0, {0, {0}}, {1, {0}}},
    {"insert: behind call 0", CHARGEFILE_INSERT, 1, {2, {0, 2}}, {3, {0, 1, 2}}},
    {"insert: the largest call", CHARGEFILE_INSERT, UINT32_MAX, {2, {0, 1}},
     {3, {0, 1, UINT32_MAX}}},
    {"insert: before the largest call", CHARGEFILE_INSERT, 1, {1, {UINT32_MAX}},
     {2, {1, UINT32_MAX}}},
    {"insert: by the last byte", CHARGEFILE_INSERT, 0x01000000, {2, {0xff, 0x02000000}},
     {3, {0xff, 0x01000000, 0x02000000}}},
    {"insert: not by the first byte", CHARGEFILE_INSERT, 0xff, {2, {0x01000000, 0x02000000}},
     {3, {0xff, 0x01000000, 0x02000000}}},
    {"insert: without sign", CHARGEFILE_INSERT, 0x80000000, {2, {0x7fffffff, 0x80000001}},
     {3, {0x7fffffff, 0x80000000, 0x80000001}}},
    {"delete: the first", CHARGEFILE_DELETE, 10, {4, {10, 20, 30, 40}}, {3, {20, 30, 40}}},
    {"delete: the second", CHARGEFILE_DELETE, 20, {4, {10, 20, 30, 40}}, {3, {10, 30, 40}}},
    {"delete: the third", CHARGEFILE_DELETE, 30, {4, {10, 20, 30, 40}}, {3, {10, 20, 40}}},
    {"delete: the last", CHARGEFILE_DELETE, 40, {4, {10, 20, 30, 40}}, {3, {10, 20, 30}}},
    {"delete: the only one", CHARGEFILE_DELETE, 10, {1, {10}}, {0, {0}}},
    {"delete: call 0", CHARGEFILE_DELETE, 0, {2, {0, 1}}, {1, {1}}},
};

/* An insert into a full page with room for three, and the pages that its split leaves: calls whose
 * pseudo key begins with 0, as 0, 4, 7, 9, 11 and 13, stay in page 1; those whose pseudo key begins
 * with 1, as 1, 3, 5, 6, 8 and 12, go to page 2. */
typedef struct split {
    const char *name;
    uint32_t call;
    calls before, stay, go;
} split;

static const split SPLITS[] = {
    {"split: at the front of the old page", 4, {3, {7, 8, 11}}, {3, {4, 7, 11}}, {1, {8}}},
    {"split: amid the old page", 9, {3, {7, 8, 11}}, {3, {7, 9, 11}}, {1, {8}}},
    {"split: at the end of the old page", 13, {3, {7, 8, 11}}, {3, {7, 11, 13}}, {1, {8}}},
    {"split: alone in the old page", 7, {3, {3, 5, 8}}, {1, {7}}, {3, {3, 5, 8}}},
    {"split: at the front of the new page", 3, {3, {4, 5, 8}}, {1, {4}}, {3, {3, 5, 8}}},
    {"split: amid the new page", 6, {3, {4, 5, 8}}, {1, {4}}, {3, {5, 6, 8}}},
    {"split: at the end of the new page", 12, {3, {4, 5, 8}}, {1, {4}}, {3, {5, 8, 12}}},
    {"split: alone in the new page", 8, {3, {4, 7, 9}}, {3, {4, 7, 9}}, {1, {8}}},
    {"split: call 0", 0, {3, {1, 4, 5}}, {2, {0, 4}}, {2, {1, 5}}},
    {"split: by the last byte", 0x01000000, {3, {0xfe, 0xff, 0x02000000}},
     {3, {0xfe, 0x01000000, 0x02000000}}, {1, {0xff}}},
};

static job j, wanted;

static void put_list(job *into, unsigned number, unsigned local, unsigned pattern, const calls *c)
{
    put_calls(into, number, local, pattern, c->list, c->count);
}

/* A job with one page in use, of depth 0, and one operation that gets 20 turns. */
static void make_one(counts c, const calls *held, unsigned kind, uint32_t call)
{
    make_job(&j, c);
    put_list(&j, 1, 0, 0, held);
    put_operation(&j, 0, kind, call, kind == CHARGEFILE_INSERT ? charge_of(call) : 0);
}

/* Six turns for an insert or a delete without a split; the fifth of them writes the page. */
static void expect_change(const change *of)
{
    counts c = {0, 4, 1, 1, 1, 20}, file = {0, 4, 1, 1, 0, 0};
    unsigned code = of->kind == CHARGEFILE_INSERT ? CHARGEFILE_STORED : CHARGEFILE_DELETED;
    make_one(c, &of->before, of->kind, of->call);
    expect_run(&j, 0);
    expect_answer(0, (answer){code, 1, 6, charge_of(of->call)});
    expect_line(0, 4, 0);
    make_job(&wanted, file);
    put_list(&wanted, 1, 0, 0, &of->after);
    expect_file(&wanted);
}

/* (a) to (d), then the new page on turn 4, entry 1 on turn 5, the unlocking of the new page, the
 * old page on turn 7, and its unlocking. A call that goes to the new page is stored with its own
 * entry, entry 1. */
static void expect_split(const split *of)
{
    counts c = {1, 3, 2, 1, 1, 20}, file = {1, 3, 2, 2, 0, 0};
    make_one(c, &of->before, CHARGEFILE_INSERT, of->call);
    expect_run(&j, 0);
    int goes = first_bits(of->call, 1) == 1;
    unsigned turns = 4 + 1 + 1 + 3;
    expect_answer(0, (answer){CHARGEFILE_STORED, goes ? 2 : 1, turns, charge_of(of->call)});
    expect_line(0, goes ? 5 : 7, 0);
    make_job(&wanted, file);
    put_list(&wanted, 1, 1, 0, &of->stay);
    put_list(&wanted, 2, 1, 1, &of->go);
    expect_file(&wanted);
}

/* Two splits in one insert: all pseudo keys begin with 1, so the first parts none of the calls. The
 * second goes by the bit behind it, which is 1 for call 8 alone, and call 3 goes before 5 and 12 in
 * the page that has it. */
static void two_splits(void)
{
    static const calls before = {3, {5, 8, 12}}, moved = {3, {3, 5, 12}}, parted = {1, {8}};
    counts c = {2, 3, 3, 1, 1, 20};
    make_one(c, &before, CHARGEFILE_INSERT, 3);
    expect_run(&j, 0);
    expect_answer(0, (answer){CHARGEFILE_STORED, 2, 4 + 2 + 2 + 3, charge_of(3)});
    expect_line(0, 6, 0);
    make_split_twice(&wanted, 3);
    put_list(&wanted, 2, 2, 2, &moved);
    put_list(&wanted, 3, 2, 3, &parted);
    expect_file(&wanted);
}

/* One operation on a full page with calls 10 to 40, and its answer. */
static void expect_code(unsigned kind, uint32_t call, unsigned code, unsigned turns)
{
    static const calls held = {4, {10, 20, 30, 40}};
    counts c = {0, 4, 1, 1, 1, 20};
    int there = call % 10 == 0;
    make_one(c, &held, kind, call);
    expect_run(&j, 0);
    expect_answer(0, (answer){code, 1, turns, there ? charge_of(call) : 0});
}

/* Before, between and behind the calls of the page, and at each of them. */
static void every_place(void)
{
    for (uint32_t call = 5; call <= 45; call += 5) {
        int there = call % 10 == 0;
        expect_code(CHARGEFILE_SEARCH, call, there ? CHARGEFILE_FOUND : CHARGEFILE_NONE,
                    there ? 2 : 3);
        expect_code(CHARGEFILE_INSERT, call,
                    there ? CHARGEFILE_ALREADY_THERE : CHARGEFILE_NO_DEPTH, 5);
        expect_code(CHARGEFILE_DELETE, call, there ? CHARGEFILE_DELETED : CHARGEFILE_ABSENT,
                    there ? 6 : 5);
    }
}

/* Four inserts, one after another, each below all that are there. Then two of them are deleted, and
 * one is stored again. */
static void one_after_another(void)
{
    static const calls none = {0, {0}}, left = {3, {1, 3, 4}};
    static const struct {
        unsigned kind;
        uint32_t call;
    } done[7] = {
        {CHARGEFILE_INSERT, 4}, {CHARGEFILE_INSERT, 3}, {CHARGEFILE_INSERT, 2},
        {CHARGEFILE_INSERT, 1}, {CHARGEFILE_DELETE, 3}, {CHARGEFILE_DELETE, 2},
        {CHARGEFILE_INSERT, 3},
    };
    counts c = {0, 4, 1, 1, 7, 42}, file = {0, 4, 1, 1, 0, 0};
    make_one(c, &none, CHARGEFILE_SEARCH, 0);
    for (unsigned i = 0; i < 7; i++) {
        int inserts = done[i].kind == CHARGEFILE_INSERT;
        put_operation(&j, i, done[i].kind, done[i].call, inserts ? charge_of(done[i].call) : 0);
    }
    for (unsigned t = 0; t < 42; t++) {
        put_turn(&j, t, t / 6);
    }
    expect_run(&j, 0);
    for (unsigned i = 0; i < 7; i++) {
        int inserts = done[i].kind == CHARGEFILE_INSERT;
        unsigned code = inserts ? CHARGEFILE_STORED : CHARGEFILE_DELETED;
        expect_answer(i, (answer){code, 1, 6, charge_of(done[i].call)});
    }
    make_job(&wanted, file);
    put_list(&wanted, 1, 0, 0, &left);
    expect_file(&wanted);
}

void rising_tests(void)
{
    for (unsigned i = 0; i < sizeof CHANGES / sizeof CHANGES[0]; i++) {
        begin_test(CHANGES[i].name);
        expect_change(&CHANGES[i]);
        end_test();
    }
    for (unsigned i = 0; i < sizeof SPLITS / sizeof SPLITS[0]; i++) {
        begin_test(SPLITS[i].name);
        expect_split(&SPLITS[i]);
        end_test();
    }
    test("split: two at once", two_splits);
    test("looking: every place of a page", every_place);
    test("insert and delete: one after another", one_after_another);
}
