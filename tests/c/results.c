/* What a run writes: job E, items (C) to (H) of the document, and (C) with calls 5 and 6. */
#include "groups.h"
#include "harness.h"
#include "told.h"

static job j;

static void run_job_e(unsigned turns, size_t total)
{
    make_job_e(&j, turns);
    expect_run(&j, total);
}

static void job_e_header(void)
{
    run_job_e(20, 148);
    EXPECT_EQUAL(j.length, 156);
    expect_header(4, 4, 0, 76);
}

/* "op 0 insert 4 stored 90 turns 9", "op 1 search 3 found 70 turns 2",
 * "op 2 delete 3 deleted 70 turns 6", "op 3 search 3 none 0 turns 3". Call 4 stays in page 1, which
 * the first search reads too; the delete and the second search read page 2. */
static void job_e_answers(void)
{
    run_job_e(20, 148);
    expect_answer(0, (answer){CHARGEFILE_STORED, 1, 9, 90});
    expect_answer(1, (answer){CHARGEFILE_FOUND, 1, 2, 70});
    expect_answer(2, (answer){CHARGEFILE_DELETED, 2, 6, 70});
    expect_answer(3, (answer){CHARGEFILE_NONE, 2, 3, 0});
}

/* "at 6 op 1", "at 12 op 2", "at 15 op 3", "at 18 op 0" */
static void job_e_log(void)
{
    run_job_e(20, 148);
    expect_line(0, 6, 1);
    expect_line(1, 12, 2);
    expect_line(2, 15, 3);
    expect_line(3, 18, 0);
}

/* "page 1 depth 1 pattern 0 : 4=90", "page 2 depth 1 pattern 1 : 2=50" */
static void job_e_file(void)
{
    static const record stays[1] = {{4, 90}}, goes[1] = {{2, 50}};
    static job wanted;
    counts c = {1, 2, 2, 2, 0, 0};
    make_job(&wanted, c);
    put_page(&wanted, 1, 1, 0, stays, 1);
    put_page(&wanted, 2, 1, 1, goes, 1);
    run_job_e(20, 148);
    expect_file(&wanted);
}

/* (G) "job E cut to 7 turns: L 0, two begun, no charge file". The search took turn 0, the insert
 * the six turns after it. */
static void job_e_cut(void)
{
    run_job_e(7, 24 + 8 * 4);
    expect_header(4, 0, 2, 0);
    expect_answer(0, (answer){CHARGEFILE_NOT_YET, 0, 6, 0});
    expect_answer(1, (answer){CHARGEFILE_NOT_YET, 0, 1, 0});
    expect_answer(2, (answer){CHARGEFILE_NOT_YET, 0, 0, 0});
    expect_answer(3, (answer){CHARGEFILE_NOT_YET, 0, 0, 0});
}

/* (H) "no turns: the charge file is the one that came in" */
static void job_e_without_turns(void)
{
    static const record held[2] = {{2, 50}, {3, 70}};
    static job wanted;
    counts c = {1, 2, 2, 1, 0, 0};
    make_job(&wanted, c);
    put_page(&wanted, 1, 0, 0, held, 2);
    run_job_e(0, 24 + 8 * 4 + 76);
    expect_header(4, 0, 0, 76);
    expect_file(&wanted);
}

/* One operation on the full page of (C) to (F), and its answer. The turns used are counted off the
 * document's "Turns": four for (a) to (d), then what follows. */
static void expect_on_full_page(unsigned pages, unsigned kind, uint32_t call, answer wanted)
{
    make_full_page(&j, pages, kind, call, kind == CHARGEFILE_INSERT ? 30 : 0);
    expect_run(&j, result_room(counts_of(&j)));
    expect_answer(0, wanted);
}

/* (C) After (a) to (d), two new pages and two entries are written; then the new pages are unlocked,
 * the old page is written, and unlocked. The call's own entry is entry 2, written first: turn 6. */
static void insert_3_needs_two_pages(void)
{
    static const record stored[2] = {{3, 30}, {5, 20}};
    static const record parted[1] = {{1, 10}};
    static job wanted;
    make_split_twice(&wanted, 2);
    put_page(&wanted, 2, 2, 2, stored, 2);
    put_page(&wanted, 3, 2, 3, parted, 1);
    expect_on_full_page(3, CHARGEFILE_INSERT, 3, (answer){CHARGEFILE_STORED, 2, 4 + 2 + 2 + 3, 30});
    expect_line(0, 6, 0);
    expect_file(&wanted);
}

/* (E2) One new page is enough: both calls of the page go there, and call 9 stays. After (a) to (d),
 * it is written, and two entries; then it is unlocked, and the old page is written on turn 8. */
static void insert_9_needs_one_page(void)
{
    static const record stored[1] = {{9, 30}};
    static const record moved[2] = {{1, 10}, {5, 20}};
    static job wanted;
    counts c = {2, 2, 2, 2, 0, 0};
    make_job(&wanted, c);
    put_page(&wanted, 1, 1, 0, stored, 1);
    put_page(&wanted, 2, 1, 1, moved, 2);
    expect_on_full_page(2, CHARGEFILE_INSERT, 9, (answer){CHARGEFILE_STORED, 1, 4 + 1 + 2 + 3, 30});
    expect_line(0, 8, 0);
    expect_file(&wanted);
}

/* "(C) with calls 5 and 6 in the page, no depth": both belong to entry 2, as call 3 does. The page
 * stays as it is. */
static void no_depth(void)
{
    static const record held[2] = {{5, 10}, {6, 20}};
    static job wanted;
    counts c = {2, 2, 3, 1, 0, 0};
    make_full_page(&j, 3, CHARGEFILE_INSERT, 3, 30);
    put_page(&j, 1, 0, 0, held, 2);
    make_job(&wanted, c);
    put_page(&wanted, 1, 0, 0, held, 2);
    expect_run(&j, result_room(counts_of(&j)));
    expect_answer(0, (answer){CHARGEFILE_NO_DEPTH, 1, 5, 0});
    expect_line(0, 3, 0);
    expect_file(&wanted);
}

/* (D), (F) and a delete of a call that is not there: one turn after (a) to (d) unlocks. */
static void no_page(void)
{
    expect_on_full_page(2, CHARGEFILE_INSERT, 3, (answer){CHARGEFILE_NO_PAGE, 1, 5, 0});
}

static void already_there(void)
{
    expect_on_full_page(2, CHARGEFILE_INSERT, 1, (answer){CHARGEFILE_ALREADY_THERE, 1, 5, 10});
}

static void absent(void)
{
    expect_on_full_page(2, CHARGEFILE_DELETE, 9, (answer){CHARGEFILE_ABSENT, 1, 5, 0});
}

void result_tests(void)
{
    test("result: header of job E", job_e_header);
    test("result: answers of job E", job_e_answers);
    test("result: log of job E", job_e_log);
    test("result: charge file of job E", job_e_file);
    test("result: job E cut to 7 turns (G)", job_e_cut);
    test("result: job E without turns (H)", job_e_without_turns);
    test("result: insert 3 needs two pages (C)", insert_3_needs_two_pages);
    test("result: insert 9 needs one page (E2)", insert_9_needs_one_page);
    test("result: no depth, (C) with calls 5 and 6", no_depth);
    test("result: no page (D)", no_page);
    test("result: already there (F)", already_there);
    test("result: absent", absent);
}
