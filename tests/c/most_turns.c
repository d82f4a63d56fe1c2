/*
 * The turns that an operation uses at most: "No operation of an accepted job, whatever its list,
 * uses more than 294 (depth 8)". What is reached is less: 2g + 3 by a search and 3g + 6 by a delete
 * (misled.c has them), and by an insert what it uses where it splits the only page down to depth g:
 * 2^g + g + 6, and 6 where g is 0. Every run here is held against the bounds (run_list).
 */
#include <string.h>

#include "groups.h"
#include "harness.h"
#include "key.h"
#include "told.h"
#include "turns.h"

static job j, wanted;

/* (a) to (d), then g new pages and 2^g - 1 entries, the unlocking of the new pages, the old page
 * and its unlocking. At depth 0 no page is split: (a) to (d), the page and its unlocking. */
static unsigned longest(unsigned depth)
{
    return depth == 0 ? 6 : 4 + depth + ((1u << depth) - 1) + 3;
}

/* A call of entry 0 or of entry 1; at depth 0 there is entry 0 alone. */
static uint32_t call_of(unsigned depth, unsigned entry)
{
    return call_under(depth, depth > 0 ? entry : 0, 1);
}

/* A file whose only page has room for one record and, but for depth 0, has the call of the other
 * entry than `to`, 0 or 1. They share all their bits but the last, so that the insert of the call
 * of entry `to` splits the page g times, and entry 0 alone still names it. */
static void make_longest(unsigned depth, unsigned to, unsigned operations)
{
    counts c = {depth, 1, depth + 1, 1, operations, listed()};
    uint32_t call = call_of(depth, to), other = call_of(depth, 1 - to);
    make_job(&j, c);
    put_calls(&j, 1, 0, 0, &other, depth > 0 ? 1 : 0);
    put_operation(&j, 0, CHARGEFILE_INSERT, call, charge_of(call));
}

/* Page 1 is left with entry 0. The split to depth d made page d + 1, whose pattern is 1, and the
 * last page made has the call of entry 1. */
static void expect_longest_file(unsigned depth)
{
    counts c = {depth, 1, depth + 1, depth + 1, 0, 0};
    uint32_t first = call_of(depth, 0), second = call_of(depth, 1);
    make_job(&wanted, c);
    put_entry(&wanted, 0, 1);
    put_calls(&wanted, 1, depth, 0, &first, 1);
    for (unsigned local = 1; local <= depth; local++) {
        unsigned from = 1u << (depth - local);
        for (unsigned e = from; e < 2 * from; e++) {
            put_entry(&wanted, e, local + 1);
        }
        put_calls(&wanted, local + 1, local, 1, &second, local == depth ? 1 : 0);
    }
    expect_file(&wanted);
}

/* The insert alone, with so many turns. It is stored with the old page, the last turn but one, or
 * with its own entry, the first behind the new pages. */
static void expect_longest(unsigned depth, unsigned to, unsigned turns)
{
    unsigned most = longest(depth), used = turns < most ? turns : most;
    unsigned moment = to == 0 ? most - 2 : 4 + depth;
    int stored = turns > moment, ended = turns >= most;
    begin_list();
    give(0, turns);
    make_longest(depth, to, 1);
    run_list(&j);
    expect_header(1, stored ? 1 : 0, turns > 0 && !ended ? 1 : 0,
                  turns == 0 || ended ? layout_of(counts_of(&j)).operations : 0);
    if (stored) {
        uint32_t charge = charge_of(call_of(depth, to));
        expect_answer(0, (answer){CHARGEFILE_STORED, to == 0 ? 1 : depth + 1, used, charge});
        expect_line(0, moment, 0);
    } else {
        expect_answer(0, (answer){CHARGEFILE_NOT_YET, 0, used, 0});
    }
    if (ended) {
        expect_longest_file(depth);
    }
}

/* Every turn is used up to the last of 2^g + g + 6, which leaves a charge file; one turn less
 * leaves none. A turn more "for a finished operation does nothing". */
static void longest_insert(unsigned depth)
{
    EXPECT_EQUAL(longest(depth), depth == 0 ? 6 : (1u << depth) + depth + 6);
    for (unsigned to = 0; to <= (depth > 0 ? 1 : 0); to++) {
        for (unsigned turns = 0; turns <= longest(depth) + 1; turns++) {
            expect_longest(depth, to, turns);
        }
    }
}

/* "turns used without waiting (2)", and "Numbers are little-endian": 270 is 1 x 256 + 14. */
static void above_one_byte(void)
{
    static const unsigned turns[4] = {255, 256, 269, 270};
    for (unsigned i = 0; i < 4; i++) {
        expect_longest(8, 0, turns[i]);
        EXPECT_EQUAL(set.result[24 + 2], turns[i] % 256);
        EXPECT_EQUAL(set.result[24 + 3], turns[i] / 256);
    }
}

/* Beside the insert a delete of a call that is not there. It locks the page with its second turn;
 * the insert reads its entry and waits so many turns, until the delete has unlocked the page. */
static void run_waiting(unsigned depth, unsigned waits)
{
    begin_list();
    give(1, 2);
    give(0, 1 + waits);
    give(1, 3);
    give(0, longest(depth) - 1);
    make_longest(depth, 0, 2);
    put_operation(&j, 1, CHARGEFILE_DELETE, call_of(depth, 0), 0);
    run_list(&j);
}

/* A list filled up to 16,384 turns: the insert has the count that it has without waiting, and is
 * stored on the last turn but one. */
static void longest_insert_waits(unsigned depth)
{
    unsigned most = longest(depth);
    for (unsigned filled = 0; filled <= 1; filled++) {
        run_waiting(depth, filled ? 16384 - most - 5 : 0);
        EXPECT_EQUAL(listed(), filled ? 16384 : most + 5);
        expect_finished(&j);
        expect_answer(0, (answer){CHARGEFILE_STORED, 1, most, charge_of(call_of(depth, 0))});
        expect_answer(1, (answer){CHARGEFILE_ABSENT, 1, 5, 0});
        expect_line(0, listed() - most - 1, 1);
        expect_line(1, listed() - 2, 0);
        expect_longest_file(depth);
    }
}

/* 256 operations on one page, which is empty: one locks it, the 255 others read their entry, and
 * each then waits 59 or 60 turns. Deletes of a call that is not there use 5 turns. */
static void all_wait_for_one(void)
{
    counts c = {0, 1, 1, 1, 256, 16384};
    begin_list();
    give(0, 2);
    for (unsigned t = 0; t < 16384 - 2 - 3 - 4 * 255; t++) {
        give(1 + t % 255, 1);
    }
    give(0, 3);
    for (unsigned i = 1; i < 256; i++) {
        give(i, 4);
    }
    make_job(&j, c);
    for (unsigned i = 0; i < 256; i++) {
        put_operation(&j, i, CHARGEFILE_DELETE, i, 0);
    }
    run_list(&j);
    expect_finished(&j);
    for (unsigned i = 0; i < 256; i++) {
        expect_answer(i, (answer){CHARGEFILE_ABSENT, 1, 5, 0});
        expect_line(i, 16384 - 4 * (255 - i) - 2, i);
    }
}

/* "294 (depth 8)" is the bound of point 11, 2^g + 4g + 6, at the largest depth; it holds for a
 * search, 2g + 3, too. It fits the 16 bits of a row's count, and not 8. */
static void the_bound(void)
{
    const unsigned depth = CHARGEFILE_DEPTH_MAX;
    EXPECT_EQUAL(CHARGEFILE_USED_MAX, 294);
    EXPECT_EQUAL(CHARGEFILE_USED_MAX, (1u << depth) + 4 * depth + 6);
    EXPECT(2 * depth + 3 <= CHARGEFILE_USED_MAX);
    EXPECT(3 * depth + 6 <= CHARGEFILE_USED_MAX);
    EXPECT(longest(depth) <= CHARGEFILE_USED_MAX);
    EXPECT(CHARGEFILE_USED_MAX > UINT8_MAX);
    EXPECT(CHARGEFILE_USED_MAX <= UINT16_MAX);
    EXPECT_EQUAL(sizeof((chargefile_row *)0)->used, 2);
}

/* What rows and working memory hold beforehand does not matter: the insert of depth 8, waiting,
 * with every value in each byte that is lent. */
static void whatever_is_lent(void)
{
    static uint8_t first[RESULT_ROOM];
    run_waiting(8, 9);
    memcpy(first, set.result, sizeof first);
    for (unsigned value = 0; value < 256; value++) {
        lend(&j);
        memset(set.rows, (int)value, set.rows_length * sizeof set.rows[0]);
        memset(set.memory, (int)value, set.memory_length);
        chargefile_outcome o = run(&j);
        expect_done(o, chargefile_four(first + CHARGEFILE_RESULT_AT_TOTAL));
        EXPECT(left_as_after_a_run(o.length));
        EXPECT(memcmp(first, set.result, sizeof first) == 0);
    }
}

void most_turns_tests(void)
{
    test_depths("most turns: an insert", longest_insert);
    test_depths("most turns: an insert that waits", longest_insert_waits);
    test("most turns: above one byte", above_one_byte);
    test("most turns: 255 operations wait for one", all_wait_for_one);
    test("most turns: the bound", the_bound);
    test("most turns: whatever is lent", whatever_is_lent);
}
