/*
 * The page told with an answer: "the page last read by a search, the page that holds the call at a
 * stored insert's moment, the page read in turn (d) by the rest. For code 0 it stays zero."
 */
#include "groups.h"
#include "harness.h"
#include "told.h"

/* One operation on page 2, which has depth 1 and these calls; page 1 is empty. The depth is 2, and
 * a page has room for two records: calls 6, 12 and 19, whose pseudo keys begin with 10, belong to
 * entry 2, and call 8, whose pseudo key begins with 11, to entry 3. It is answered when it has used
 * `turns` turns, and finished with `last`. */
typedef struct answered {
    const char *name;
    unsigned pages, kind;
    uint32_t call;
    unsigned held;
    uint32_t calls[2];
    unsigned code, page, turns, last;
} answered;

static const answered ANSWERED[] = {
    {"page: found", 2, CHARGEFILE_SEARCH, 6, 2, {6, 12}, CHARGEFILE_FOUND, 2, 2, 2},
    {"page: none", 2, CHARGEFILE_SEARCH, 8, 2, {6, 12}, CHARGEFILE_NONE, 2, 3, 3},
    {"page: stored", 2, CHARGEFILE_INSERT, 8, 1, {6}, CHARGEFILE_STORED, 2, 5, 6},
    {"page: there", 2, CHARGEFILE_INSERT, 12, 2, {6, 12}, CHARGEFILE_ALREADY_THERE, 2, 4, 5},
    {"page: deleted", 2, CHARGEFILE_DELETE, 12, 2, {6, 12}, CHARGEFILE_DELETED, 2, 5, 6},
    {"page: absent", 2, CHARGEFILE_DELETE, 8, 2, {6, 12}, CHARGEFILE_ABSENT, 2, 4, 5},
    {"page: differs", 2, CHARGEFILE_DELETE, 12, 2, {6, 12}, CHARGEFILE_DIFFERS, 2, 4, 5},
    {"page: no depth", 2, CHARGEFILE_INSERT, 19, 2, {6, 12}, CHARGEFILE_NO_DEPTH, 2, 4, 5},
    {"page: no page", 2, CHARGEFILE_INSERT, 8, 2, {6, 12}, CHARGEFILE_NO_PAGE, 2, 4, 5},
    /* page 3 on turn 4, entry 3 on turn 5, page 3 unlocked on turn 6, page 2 on turn 7 */
    {"page: the new page", 3, CHARGEFILE_INSERT, 8, 2, {6, 12}, CHARGEFILE_STORED, 3, 6, 9},
    {"page: the old page", 3, CHARGEFILE_INSERT, 12, 2, {6, 8}, CHARGEFILE_STORED, 2, 8, 9},
};

static job j;

static int has_charge(unsigned code)
{
    return code == CHARGEFILE_FOUND || code == CHARGEFILE_STORED ||
           code == CHARGEFILE_ALREADY_THERE || code == CHARGEFILE_DELETED ||
           code == CHARGEFILE_DIFFERS;
}

/* Of a delete: zero, or another charge than the call has. */
static uint32_t charge_asked(const answered *of)
{
    if (of->kind == CHARGEFILE_INSERT) {
        return charge_of(of->call);
    }
    return of->code == CHARGEFILE_DIFFERS ? charge_of(of->call) + 1 : 0;
}

static void run_for(const answered *of, unsigned turns)
{
    counts c = {2, 2, of->pages, 2, 1, turns};
    make_job(&j, c);
    put_calls(&j, 2, 1, 1, of->calls, of->held);
    put_operation(&j, 0, of->kind, of->call, charge_asked(of));
    expect_run(&j, 0);
}

/* No page before the answer, and the same page from then on, also while the operation is still
 * under way. A turn for a finished operation does nothing. */
static void expect_page(const answered *of)
{
    uint32_t charge = has_charge(of->code) ? charge_of(of->call) : 0;
    for (unsigned turns = 0; turns < of->turns; turns++) {
        run_for(of, turns);
        expect_answer(0, (answer){CHARGEFILE_NOT_YET, 0, turns, 0});
    }
    for (unsigned turns = of->turns; turns <= of->last; turns++) {
        run_for(of, turns);
        expect_answer(0, (answer){of->code, of->page, turns, charge});
    }
    run_for(of, of->last + 1);
    expect_answer(0, (answer){of->code, of->page, of->last, charge});
}

static void put_turns(const unsigned *list, unsigned count)
{
    for (unsigned t = 0; t < count; t++) {
        put_turn(&j, t, list[t]);
    }
}

/* Both operations beside the insert read in their entry that page 1 has call 5. The insert moves it
 * to page 2. The delete locks page 1, lets it go and decides in page 2; the search reads page 1,
 * then page 2. (docs/TURNS.md goes through this list of turns, with call 3 beside call 5 and insert
 * 8.) Calls 3 and 5 belong to entry 2, calls 1 and 8 to entry 3: one of the three is of another
 * entry than the two others, so that page 3 is needed too. */
static void run_three(uint32_t beside, uint32_t inserted, uint32_t delete_at)
{
    static const unsigned list[27] = {1, 2, 0, 0, 1, 0, 0, 0, 0, 0, 0, 0, 0, 2,
                                      1, 0, 1, 1, 1, 2, 1, 1, 1, 2, 1, 1, 2};
    const uint32_t held[2] = {beside, 5};
    counts c = {2, 2, 3, 1, 3, 27};
    make_job(&j, c);
    put_calls(&j, 1, 0, 0, held, 2);
    put_operation(&j, 0, CHARGEFILE_INSERT, inserted, charge_of(inserted));
    put_operation(&j, 1, CHARGEFILE_DELETE, 5, delete_at);
    put_operation(&j, 2, CHARGEFILE_SEARCH, 5, 0);
    put_turns(list, 27);
    expect_run(&j, 0);
    expect_answer(2, (answer){CHARGEFILE_FOUND, 2, 4, charge_of(5)});
}

/* The insert is stored in this page, at this moment; the delete strikes call 5 out after the search
 * has found it. */
static void expect_three(uint32_t beside, uint32_t inserted, unsigned page, unsigned moment)
{
    run_three(beside, inserted, 0);
    expect_answer(0, (answer){CHARGEFILE_STORED, page, 11, charge_of(inserted)});
    expect_answer(1, (answer){CHARGEFILE_DELETED, 2, 9, charge_of(5)});
    expect_line(0, moment, 0);
    expect_line(1, 23, 2);
    expect_line(2, 24, 1);
}

static void three_operations(void)
{
    expect_three(3, 8, 3, 10);
}

/* The same with the calls of (C), 1 beside 5 and insert 3: it goes to page 2 as well, and is stored
 * with entry 2. */
static void three_in_one_page(void)
{
    expect_three(1, 3, 2, 9);
}

/* The same with a delete at another charge: it decides on turn 22, and the search finds the call
 * afterwards. */
static void three_with_another_charge(void)
{
    run_three(3, 8, charge_of(3));
    expect_answer(0, (answer){CHARGEFILE_STORED, 3, 11, charge_of(8)});
    expect_answer(1, (answer){CHARGEFILE_DIFFERS, 2, 8, charge_of(5)});
    expect_line(1, 22, 1);
}

/* Insert 5 is stored in page 1; then insert 7 splits that page, and call 5 goes to page 2. Each
 * tells the page at its own moment. A search afterwards reads page 2. */
static void moved_on_afterwards(void)
{
    static const unsigned list[17] = {0, 0, 0, 0, 0, 0, 1, 1, 1, 1, 1, 1, 1, 1, 1, 2, 2};
    static const uint32_t before[1] = {4}, stay[2] = {4, 7}, go[1] = {5};
    static job wanted;
    counts c = {1, 2, 2, 1, 3, 17}, file = {1, 2, 2, 2, 0, 0};
    make_job(&j, c);
    put_calls(&j, 1, 0, 0, before, 1);
    put_operation(&j, 0, CHARGEFILE_INSERT, 5, charge_of(5));
    put_operation(&j, 1, CHARGEFILE_INSERT, 7, charge_of(7));
    put_operation(&j, 2, CHARGEFILE_SEARCH, 5, 0);
    put_turns(list, 17);
    expect_run(&j, 0);
    expect_answer(0, (answer){CHARGEFILE_STORED, 1, 6, charge_of(5)});
    expect_answer(1, (answer){CHARGEFILE_STORED, 1, 9, charge_of(7)});
    expect_answer(2, (answer){CHARGEFILE_FOUND, 2, 2, charge_of(5)});
    make_job(&wanted, file);
    put_calls(&wanted, 1, 1, 0, stay, 2);
    put_calls(&wanted, 2, 1, 1, go, 1);
    expect_file(&wanted);
}

/* "the page number less one": page 256 has byte 255. Calls whose pseudo keys begin with eight bits
 * 1 are there, the lowest of them 68 and 293. */
static void the_last_page(void)
{
    static const uint32_t held[1] = {68};
    counts c = {8, 1, 256, 256, 3, 13};
    make_job(&j, c);
    put_calls(&j, 256, 8, 255, held, 1);
    put_operation(&j, 0, CHARGEFILE_SEARCH, 68, 0);
    put_operation(&j, 1, CHARGEFILE_INSERT, 293, charge_of(293));
    put_operation(&j, 2, CHARGEFILE_DELETE, 68, 0);
    for (unsigned t = 0; t < 13; t++) {
        put_turn(&j, t, t < 2 ? 0 : t < 7 ? 1 : 2);
    }
    expect_run(&j, 0);
    expect_answer(0, (answer){CHARGEFILE_FOUND, 256, 2, charge_of(68)});
    expect_answer(1, (answer){CHARGEFILE_NO_DEPTH, 256, 5, 0});
    expect_answer(2, (answer){CHARGEFILE_DELETED, 256, 6, charge_of(68)});
    EXPECT_EQUAL(set.result[24 + 1], 255);
}

void pages_told_tests(void)
{
    for (unsigned i = 0; i < sizeof ANSWERED / sizeof ANSWERED[0]; i++) {
        begin_test(ANSWERED[i].name);
        expect_page(&ANSWERED[i]);
        end_test();
    }
    test("page: three operations at once", three_operations);
    test("page: three at once, all in one page", three_in_one_page);
    test("page: three at once, and a charge that differs", three_with_another_charge);
    test("page: a call that is moved on afterwards", moved_on_afterwards);
    test("page: the last there can be", the_last_page);
}
