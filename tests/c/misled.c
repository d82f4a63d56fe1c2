/*
 * Operations that are misled as often as can be: each time one has read in its entry which page has
 * its call, an insert of another operation splits that page, and the entry names another. A page is
 * split g times at most on the way to one entry, so that a search uses 2g + 3 turns at most, and a
 * delete 3g + 6. Every run here is held against the bounds of point 11 (run_list).
 *
 * Pages have room for one record, and page 1 is the only one in use at the start. Operation 0 is
 * the one misled; its entry is the last. Operation i, from 1 on, inserts a call whose pseudo key
 * begins with i - 1 bits 1 and a bit 0. It finds page i with a call that goes on with a bit 1,
 * splits the page once and stays there; the other call goes to page i + 1.
 */
#include "groups.h"
#include "harness.h"
#include "key.h"
#include "told.h"
#include "turns.h"

/* What operation 0 is, behind being misled: a call of the last entry that is there, or one that is
 * not; with its charge, with zero or with another; its answer, and the turns from its last locking
 * on, (b), (c), (d) and one or two more. */
typedef struct victim {
    unsigned kind;
    int there;
    enum { ZERO, ITS_OWN, ANOTHER } charge;
    unsigned code, ends_in;
} victim;

static const victim DELETES = {CHARGEFILE_DELETE, 1, ZERO, CHARGEFILE_DELETED, 5};

static const victim VICTIMS[] = {
    {CHARGEFILE_DELETE, 1, ZERO, CHARGEFILE_DELETED, 5},
    {CHARGEFILE_DELETE, 1, ITS_OWN, CHARGEFILE_DELETED, 5},
    {CHARGEFILE_DELETE, 1, ANOTHER, CHARGEFILE_DIFFERS, 4},
    {CHARGEFILE_DELETE, 0, ZERO, CHARGEFILE_ABSENT, 4},
    {CHARGEFILE_INSERT, 1, ANOTHER, CHARGEFILE_ALREADY_THERE, 4},
    {CHARGEFILE_INSERT, 0, ITS_OWN, CHARGEFILE_NO_DEPTH, 4},
};

static job j, wanted;

static unsigned last_entry(unsigned depth)
{
    return (1u << depth) - 1;
}

/* A call of the last entry that is in page 1 at the start, and one that is nowhere. */
static uint32_t call_there(unsigned depth)
{
    return call_under(depth, last_entry(depth), 1);
}

static uint32_t call_missing(unsigned depth)
{
    return call_under(depth, last_entry(depth), call_there(depth) + 1);
}

/* What operation i inserts. */
static uint32_t call_beside(unsigned i)
{
    return call_under(i, (1u << i) - 2, 1);
}

/* Its turns: (a) to (d), one new page, the entries that begin with i bits 1, the unlocking of the
 * new page, the old page and its unlocking. */
static unsigned split_turns(unsigned depth, unsigned i)
{
    return 4 + 1 + (1u << (depth - i)) + 3;
}

/* Call `held` in page 1, and after operation 0, which is still to be put, so many inserts; then as
 * many deletes of the same calls, if they are listed. */
static void make_misled(unsigned depth, unsigned inserts, unsigned deletes, uint32_t held)
{
    counts c = {depth, 1, depth + 1, 1, 1 + inserts + deletes, listed()};
    make_job(&j, c);
    put_calls(&j, 1, 0, 0, &held, 1);
    for (unsigned i = 1; i <= inserts; i++) {
        put_operation(&j, i, CHARGEFILE_INSERT, call_beside(i), charge_of(call_beside(i)));
    }
    for (unsigned i = 1; i <= deletes; i++) {
        put_operation(&j, inserts + i, CHARGEFILE_DELETE, call_beside(i), 0);
    }
}

static void expect_inserts(unsigned depth, unsigned inserts)
{
    for (unsigned i = 1; i <= inserts; i++) {
        uint32_t charge = charge_of(call_beside(i));
        expect_answer(i, (answer){CHARGEFILE_STORED, i, split_turns(depth, i), charge});
    }
}

/* Pages 1 to g have what was inserted, and page g + 1 the call that was there, unless it was struck
 * out. Entries that begin with as many bits 1 name the same page. */
static void expect_left(unsigned depth, int struck_out)
{
    counts c = {depth, 1, depth + 1, depth + 1, 0, 0};
    uint32_t there = call_there(depth);
    make_job(&wanted, c);
    for (unsigned i = 1; i <= depth; i++) {
        uint32_t beside = call_beside(i);
        unsigned entries = 1u << (depth - i);
        for (unsigned e = 0; e < entries; e++) {
            put_entry(&wanted, ((1u << i) - 2) * entries + e, i);
        }
        put_calls(&wanted, i, i, (1u << i) - 2, &beside, 1);
    }
    put_entry(&wanted, last_entry(depth), depth + 1);
    put_calls(&wanted, depth + 1, depth, last_entry(depth), &there, struck_out ? 0 : 1);
    expect_file(&wanted);
}

/* The search reads its entry and its page; the insert splits that page; the search reads its entry,
 * which names another page, and that one. In the end the entry names the page it has read. */
static void run_search(unsigned depth, unsigned last)
{
    begin_list();
    give(0, 2);
    for (unsigned i = 1; i <= depth; i++) {
        give(i, split_turns(depth, i));
        give(0, 2);
    }
    give(0, last);
    make_misled(depth, depth, 0, call_there(depth));
    put_operation(&j, 0, CHARGEFILE_SEARCH, call_missing(depth), 0);
    run_list(&j);
    expect_inserts(depth, depth);
}

/* "a failed search, its last page reading": the turn before the last. Without its last turn it has
 * no answer, and there is no charge file. */
static void misled_search(unsigned depth)
{
    run_search(depth, 1);
    expect_finished(&j);
    expect_answer(0, (answer){CHARGEFILE_NONE, depth + 1, 2 * depth + 3, 0});
    expect_line(depth, listed() - 2, 0);
    expect_left(depth, 0);
    run_search(depth, 0);
    expect_header(1 + depth, depth, 1, 0);
    expect_answer(0, (answer){CHARGEFILE_NOT_YET, 0, 2 * depth + 2, 0});
}

/* It reads its entry, which names page 1. So many times then: the insert locks page i and decides;
 * operation 0 waits for it; the insert splits the page; operation 0 locks page i, reads in its
 * entry that its call is in page i + 1 now, and unlocks page i. */
static void list_misled(unsigned depth, unsigned inserts, unsigned waits)
{
    begin_list();
    give(0, 1);
    for (unsigned i = 1; i <= inserts; i++) {
        give(i, 4);
        give(0, waits);
        give(i, split_turns(depth, i) - 4);
        give(0, 3);
    }
}

/* The same, but each insert comes while operation 0 still holds the page before: "the next turn
 * unlocks the page held, and (b) follows with the page just read". */
static void list_misled_holding(unsigned depth)
{
    begin_list();
    give(0, 1);
    for (unsigned i = 1; i <= depth; i++) {
        give(i, split_turns(depth, i));
        give(0, i == 1 ? 2 : 3);
    }
    give(0, depth == 0 ? 0 : 1);
}

static void run_victim(unsigned depth, const victim *of, unsigned deletes)
{
    uint32_t call = of->there ? call_there(depth) : call_missing(depth);
    uint32_t charge = of->charge == ZERO ? 0 : charge_of(call) + (of->charge == ANOTHER ? 1 : 0);
    make_misled(depth, depth, deletes, call_there(depth));
    put_operation(&j, 0, of->kind, call, charge);
    run_list(&j);
    expect_inserts(depth, depth);
}

/* (a), three turns each time that it is misled, and those it ends in: 3g + 6 in all for a call that
 * is deleted. */
static void expect_victim(unsigned depth, const victim *of, unsigned less)
{
    unsigned used = 1 + 3 * depth + of->ends_in - less;
    uint32_t charge = of->there ? charge_of(call_there(depth)) : 0;
    expect_answer(0, (answer){of->code, depth + 1, used, charge});
}

/* Each answer, with its last turn and without it: then the page is still locked, and there is no
 * charge file. */
static void misled_each(unsigned depth, int holding)
{
    for (unsigned v = 0; v < 2 * sizeof VICTIMS / sizeof VICTIMS[0]; v++) {
        const victim *of = &VICTIMS[v / 2];
        unsigned less = v % 2;
        if (holding) {
            list_misled_holding(depth);
        } else {
            list_misled(depth, depth, 0);
        }
        give(0, of->ends_in - less);
        run_victim(depth, of, 0);
        expect_victim(depth, of, less);
        expect_line(depth, listed() - 2 + less, 0);
        if (less == 0) {
            expect_finished(&j);
            expect_left(depth, of->code == CHARGEFILE_DELETED);
        } else {
            expect_header(1 + depth, 1 + depth, 1, 0);
        }
    }
}

static void misled_delete(unsigned depth)
{
    EXPECT_EQUAL(1 + 3 * depth + DELETES.ends_in, 3 * depth + 6);
    misled_each(depth, 0);
}

static void misled_while_holding(unsigned depth)
{
    misled_each(depth, 1);
}

/* No page is left locked: each is locked once more, by a delete of what was inserted. */
static void nothing_left_locked(unsigned depth)
{
    for (unsigned holding = 0; holding <= 1; holding++) {
        if (holding) {
            list_misled_holding(depth);
        } else {
            list_misled(depth, depth, 0);
        }
        give(0, DELETES.ends_in);
        for (unsigned i = 1; i <= depth; i++) {
            give(depth + i, 6);
        }
        run_victim(depth, &DELETES, depth);
        expect_finished(&j);
        expect_victim(depth, &DELETES, 0);
        for (unsigned i = 1; i <= depth; i++) {
            expect_answer(depth + i, (answer){CHARGEFILE_DELETED, i, 6, charge_of(call_beside(i))});
        }
    }
}

/* A list filled up to 16,384 turns: each time that the delete is misled it waits as well. It has
 * the count that it has without waiting. */
static void misled_and_waiting(unsigned depth)
{
    list_misled(depth, depth, 0);
    unsigned spare = 16384 - DELETES.ends_in - listed();
    list_misled(depth, depth, depth > 0 ? spare / depth : 0);
    give(0, DELETES.ends_in);
    unsigned end = listed();
    give(0, 16384 - end); /* it is finished: these do nothing */
    run_victim(depth, &DELETES, 0);
    expect_finished(&j);
    expect_victim(depth, &DELETES, 0);
    expect_line(depth, end - 2, 0);
    expect_left(depth, 1);
}

/* An insert that is misled so many times, and then splits the page that it has come to down to the
 * largest depth: it writes as many new pages as are left, and all entries of that page but the
 * first. Never more turns than where it is not misled at all. */
static void expect_misled_insert(unsigned depth, unsigned times)
{
    unsigned left = depth - times;
    unsigned first = last_entry(times) << left;
    uint32_t call = call_under(depth, first, 1), held = call_under(depth, first + 1, 1);
    unsigned used = 1 + 3 * times + 3 + left + ((1u << left) - 1) + 3;
    list_misled(depth, times, 0);
    give(0, used - 1 - 3 * times);
    make_misled(depth, times, 0, held);
    put_operation(&j, 0, CHARGEFILE_INSERT, call, charge_of(call));
    run_list(&j);
    expect_finished(&j);
    expect_inserts(depth, times);
    expect_answer(0, (answer){CHARGEFILE_STORED, times + 1, used, charge_of(call)});
    expect_line(times, listed() - 2, 0);
    EXPECT(used <= (1u << depth) + depth + 6);
    EXPECT_EQUAL(used, (1u << left) + 2 * times + depth + 6);
}

static void misled_insert(void)
{
    for (unsigned depth = 1; depth <= 8; depth++) {
        for (unsigned times = 0; times < depth; times++) {
            expect_misled_insert(depth, times);
        }
    }
}

void misled_tests(void)
{
    test_depths("misled: a search", misled_search);
    test_depths("misled: a delete, and the other answers", misled_delete);
    test_depths("misled: while the page before is held", misled_while_holding);
    test_depths("misled: nothing left locked", nothing_left_locked);
    test_depths("misled: a delete that waits", misled_and_waiting);
    test("misled: an insert that splits the rest", misled_insert);
}
