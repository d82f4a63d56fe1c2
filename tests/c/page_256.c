/*
 * Page 256, the last there can be: a row has room for a page's number less one. Operations read,
 * lock, write and tell it, stopped after each of their turns while others go on.
 *
 * All 256 pages are in use only where each has one entry, so that only the split of a page of depth
 * 7 can make page 256. A split with n new pages begins with a page of 2^n entries: where all other
 * entries have a page each, the new ones are pages 258 - 2^n to 257 - 2^n + n. For the largest n,
 * 8, they are pages 2 to 9; entries are written up to 255 for every n.
 */
#include "groups.h"
#include "harness.h"
#include "key.h"
#include "told.h"
#include "turns.h"

/* The page has room for three records, and has calls A and B of its entry. The operation is on A or
 * on C, which is not there. Its moment is its own turn `moment`, counted from 0. */
typedef struct use {
    const char *name;
    unsigned kind;
    int there;      /* A, and not C */
    unsigned asked; /* of a delete: 1 more than the charge that is there, or zero */
    unsigned code, moment, turns;
} use;

static const use USES[] = {
    {"page 256: found", CHARGEFILE_SEARCH, 1, 0, CHARGEFILE_FOUND, 1, 2},
    {"page 256: none", CHARGEFILE_SEARCH, 0, 0, CHARGEFILE_NONE, 1, 3},
    {"page 256: stored", CHARGEFILE_INSERT, 0, 0, CHARGEFILE_STORED, 4, 6},
    {"page 256: already there", CHARGEFILE_INSERT, 1, 0, CHARGEFILE_ALREADY_THERE, 3, 5},
    {"page 256: deleted", CHARGEFILE_DELETE, 1, 0, CHARGEFILE_DELETED, 4, 6},
    {"page 256: absent", CHARGEFILE_DELETE, 0, 0, CHARGEFILE_ABSENT, 3, 5},
    {"page 256: differs", CHARGEFILE_DELETE, 1, 1, CHARGEFILE_DIFFERS, 3, 5},
};

static job j, wanted;

/* The entry of page 256, and calls A, B and C of it. */
static unsigned own;
static uint32_t call[3];

static void set_entry(unsigned entry)
{
    own = entry;
    call[0] = call_under(8, entry, 1);
    call[1] = call_under(8, entry, call[0] + 1);
    call[2] = call_under(8, entry, call[1] + 1);
}

/* A page for each entry, page 256 for this one, and the one that it would have had for the last. */
static void make_256(job *into, unsigned operations, unsigned turns, const uint32_t *calls,
                     unsigned count)
{
    counts c = {8, 3, 256, 256, operations, turns};
    make_job(into, c);
    put_entry(into, 255, own + 1);
    put_entry(into, own, 256);
    put_page(into, own + 1, 8, 255, NULL, 0);
    put_calls(into, 256, 8, own, calls, count);
}

static void make_use(const use *of, unsigned operations)
{
    uint32_t its = call[of->there ? 0 : 2];
    uint32_t charge = of->kind == CHARGEFILE_INSERT || of->asked ? charge_of(its) + of->asked : 0;
    make_256(&j, operations, listed(), call, 2);
    put_operation(&j, 0, of->kind, its, charge);
}

static void expect_use(const use *of, unsigned turns)
{
    int has_charge = of->there || of->code == CHARGEFILE_STORED;
    uint32_t charge = has_charge ? charge_of(call[of->there ? 0 : 2]) : 0;
    expect_answer(0, (answer){of->code, 256, turns, charge});
}

/* What the page is left with, where B was deleted too and where it was not. */
static void expect_page_left(const use *of, int without_b)
{
    uint32_t left[3];
    unsigned count = 0;
    if (of->code != CHARGEFILE_DELETED) {
        left[count++] = call[0];
    }
    if (!without_b) {
        left[count++] = call[1];
    }
    if (of->code == CHARGEFILE_STORED) {
        left[count++] = call[2];
    }
    make_256(&wanted, 0, 0, left, count);
    expect_file(&wanted);
}

/* The operation alone, with so many turns. "None" is known, and told, when the entry is read again,
 * on its last turn; its moment is the page reading before. */
static void expect_cut(const use *of, unsigned turns)
{
    unsigned known = of->code == CHARGEFILE_NONE ? 2 : of->moment;
    int told = turns > known, whole = turns == 0 || turns == of->turns;
    begin_list();
    give(0, turns);
    make_use(of, 1);
    run_list(&j);
    expect_header(1, told ? 1 : 0, whole ? 0 : 1, whole ? layout_of(counts_of(&j)).operations : 0);
    if (told) {
        expect_use(of, turns);
        expect_line(0, of->moment, 0);
        EXPECT_EQUAL(set.result[24 + 1], 255); /* "the page number less one" */
    } else {
        expect_answer(0, (answer){CHARGEFILE_NOT_YET, 0, turns, 0});
    }
    if (turns == of->turns) {
        expect_page_left(of, 0);
    }
}

/* The moments of the operation and of the delete of B (below). A search locks nothing. The others
 * have the page locked from their second turn to their last: before and after, the delete locks it
 * with its second turn; between, that turn waits. */
static void expect_moments(const use *of, unsigned stop)
{
    int locks = of->kind != CHARGEFILE_SEARCH;
    int before = locks && stop < 2, held = locks && stop >= 2 && stop < of->turns;
    unsigned moments[2] = {of->moment < stop ? of->moment : of->moment + 2,
                           stop + (held ? 13 : 12)};
    if (before) {
        moments[0] = stop + 17 + of->moment; /* all but its first turn follow the delete's */
    }
    expect_log(moments, 2);
}

/* The operation is stopped after so many turns, and a delete of B, in the same page, takes two.
 * Then each has turns enough to finish, the operation twice, in case the delete has the page
 * locked. */
static void expect_stopped(const use *of, unsigned stop)
{
    begin_list();
    give(0, stop);
    give(1, 2);
    give(0, 8);
    give(1, 8);
    give(0, 8);
    make_use(of, 2);
    put_operation(&j, 1, CHARGEFILE_DELETE, call[1], 0);
    run_list(&j);
    expect_finished(&j);
    expect_use(of, of->turns);
    expect_answer(1, (answer){CHARGEFILE_DELETED, 256, 6, charge_of(call[1])});
    expect_moments(of, stop);
    expect_page_left(of, 1);
}

/* Meanwhile the lock is that of page 256 alone: operations in pages 1, 128 and 255 do not wait. A
 * list in which one did would leave it unfinished. */
static void expect_own_lock(const use *of, unsigned stop)
{
    static const unsigned others[3] = {1, 128, 255};
    begin_list();
    give(0, stop);
    for (unsigned i = 1; i <= 3; i++) {
        give(i, 5);
    }
    give(0, of->turns - stop);
    make_use(of, 4);
    for (unsigned i = 1; i <= 3; i++) {
        unsigned entry = others[i - 1] == own + 1 ? 255 : others[i - 1] - 1;
        put_operation(&j, i, CHARGEFILE_DELETE, call_under(8, entry, 1), 0);
    }
    run_list(&j);
    expect_finished(&j);
    expect_use(of, of->turns);
    for (unsigned i = 1; i <= 3; i++) {
        expect_answer(i, (answer){CHARGEFILE_ABSENT, others[i - 1], 5, 0});
    }
    expect_page_left(of, 0);
}

static void expect_all_of(const use *of)
{
    static const unsigned entries[3] = {255, 0, 127};
    for (unsigned e = 0; e < 3; e++) {
        set_entry(entries[e]);
        for (unsigned turns = 0; turns <= of->turns; turns++) {
            expect_cut(of, turns);
            expect_stopped(of, turns);
            expect_own_lock(of, turns);
        }
    }
}

/* ---- Splits with n new pages. Page U, the last in use, has the last 2^n entries, from `first` on;
 * each entry below has a page of its own. */

static unsigned first_of(unsigned n)
{
    return 256 - (1u << n);
}

static unsigned old_page(unsigned n)
{
    return first_of(n) + 1;
}

/* A call of the first entry of the page, or of the second. */
static uint32_t one_of(unsigned n, unsigned which)
{
    return call_under(8, first_of(n) + which, 1);
}

/* The pages below page U, and all entries as they are before the split. */
static void make_last(job *into, unsigned n, unsigned in_use, unsigned operations, unsigned turns)
{
    counts c = {8, 1, 256, in_use, operations, turns};
    make_job(into, c);
    for (unsigned e = 0; e < 256; e++) {
        put_entry(into, e, e < first_of(n) ? e + 1 : old_page(n));
    }
    for (unsigned e = 0; e < first_of(n); e++) {
        put_page(into, e + 1, 8, e, NULL, 0);
    }
}

/* Operation 0 inserts the call of the first entry or of the second, where the other one fills the
 * page. They differ in the last of eight bits alone. */
static void make_split(unsigned n, unsigned which, unsigned operations)
{
    uint32_t its = one_of(n, which), other = one_of(n, 1 - which);
    make_last(&j, n, old_page(n), operations, listed());
    put_calls(&j, old_page(n), 8 - n, first_of(n) >> n, &other, 1);
    put_operation(&j, 0, CHARGEFILE_INSERT, its, charge_of(its));
}

/* New page i, from 1 on, has depth 8 - n + i, and the entries whose number less `first` has n - i
 * bits behind its highest bit. */
static void expect_split_file(unsigned n)
{
    uint32_t stays = one_of(n, 0), goes = one_of(n, 1);
    unsigned first = first_of(n), old = old_page(n);
    make_last(&wanted, n, old + n, 0, 0);
    put_calls(&wanted, old, 8, first, &stays, 1);
    for (unsigned i = 1; i <= n; i++) {
        unsigned half = 1u << (n - i);
        for (unsigned e = half; e < 2 * half; e++) {
            put_entry(&wanted, first + e, old + i);
        }
        put_calls(&wanted, old + i, 8 - n + i, first / half + 1, &goes, i == n ? 1 : 0);
    }
    expect_file(&wanted);
}

/* The old page or the last of the new ones is told: page 255 or 256 where n is 1. */
static void expect_split_answer(unsigned n, unsigned which)
{
    unsigned used = 4 + n + ((1u << n) - 1) + 3;
    uint32_t charge = charge_of(one_of(n, which));
    expect_answer(0, (answer){CHARGEFILE_STORED, old_page(n) + (which ? n : 0), used, charge});
    expect_split_file(n);
}

static void splits_to_the_last_entry(void)
{
    EXPECT_EQUAL(old_page(1) + 1, 256);
    EXPECT_EQUAL(old_page(8) + 8, 9);
    for (unsigned n = 1; n <= 8; n++) {
        for (unsigned which = 0; which <= 1; which++) {
            unsigned used = 4 + n + ((1u << n) - 1) + 3;
            begin_list();
            give(0, used);
            make_split(n, which, 1);
            run_list(&j);
            expect_finished(&j);
            expect_split_answer(n, which);
            expect_line(0, which ? 4 + n : used - 2, 0);
        }
    }
}

/* When the delete decides (below), from the stop on, and how it came there. */
typedef struct decided {
    unsigned page, used, moment;
} decided;

/* The insert has page 255 locked from turn 1 to turn 8, and page 256 from turn 3 to turn 6; it
 * changes entry 255 on turn 5. */
static decided decided_after(unsigned stop)
{
    if (stop < 2) {
        return (decided){255, 5, 15}; /* it has locked page 255 first */
    }
    if (stop < 6) {
        return (decided){256, 8, 19}; /* it waits for page 255, and is misled */
    }
    return (decided){256, 5, stop < 7 ? 16 : 15}; /* it waits for page 256, or not */
}

/* The insert that makes page 256 is stopped after so many turns. A delete and a search of another
 * call of entry 255 take two turns each; then all go on. */
static void run_stopped_split(unsigned which, unsigned stop)
{
    uint32_t missing = call_under(8, 255, one_of(1, 1) + 1);
    begin_list();
    give(0, stop);
    give(1, 2);
    give(2, 2);
    give(0, 10);
    give(1, 10);
    give(0, 10);
    give(2, 3);
    make_split(1, which, 3);
    put_operation(&j, 1, CHARGEFILE_DELETE, missing, 0);
    put_operation(&j, 2, CHARGEFILE_SEARCH, missing, 0);
    run_list(&j);
}

static void stopped_split(void)
{
    for (unsigned which = 0; which <= 1; which++) {
        for (unsigned stop = 0; stop <= 9; stop++) {
            decided d = decided_after(stop);
            unsigned own_turn = which ? 5 : 7; /* with entry 255, or with page 255 */
            unsigned stored = own_turn < stop ? own_turn : own_turn + 4;
            int misled = stop < 6; /* the search has read page 255 */
            const unsigned moments[3] = {
                stop < 2 ? stop + 23 + own_turn : stored, /* it waited, or it did not */
                stop + d.moment,
                stop + (misled ? 35 : 3),
            };
            run_stopped_split(which, stop);
            expect_finished(&j);
            expect_split_answer(1, which);
            expect_answer(1, (answer){CHARGEFILE_ABSENT, d.page, d.used, 0});
            expect_answer(2, (answer){CHARGEFILE_NONE, 256, misled ? 5 : 3, 0});
            expect_log(moments, 3);
        }
    }
}

void page_256_tests(void)
{
    for (unsigned i = 0; i < sizeof USES / sizeof USES[0]; i++) {
        begin_test(USES[i].name);
        expect_all_of(&USES[i]);
        end_test();
    }
    test("page 256: splits up to the last entry", splits_to_the_last_entry);
    test("page 256: the split that makes it, stopped", stopped_split);
}
