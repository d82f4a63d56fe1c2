/*
 * A delete at a charge: "It now deletes only where the file's charge is equal. Where the call is
 * there at another charge, the answer is 9, "differs", with the file's charge, its moment is turn
 * (d), the next turn unlocks, and nothing changes. A delete with charge zero strikes out as ever."
 */
#include "groups.h"
#include "harness.h"
#include "told.h"

/* The page has calls 4 and 6, and between them call 5 with the charge `held`. */
enum { BEFORE = 60, BEHIND = 70 };

/* One delete, of call 5 or of call 7, which is not there, with the charge `asked`. */
typedef struct asked {
    const char *name;
    uint32_t call, held, asked;
    unsigned code;
} asked;

static const asked ASKED[] = {
    {"delete at: the same charge", 5, 250, 250, CHARGEFILE_DELETED},
    {"delete at: another charge", 5, 250, 180, CHARGEFILE_DIFFERS},
    {"delete at: one less", 5, 250, 249, CHARGEFILE_DIFFERS},
    {"delete at: one more", 5, 250, 251, CHARGEFILE_DIFFERS},
    {"delete at: zero asked", 5, 250, 0, CHARGEFILE_DELETED},
    {"delete at: zero held", 5, 0, 250, CHARGEFILE_DIFFERS},
    {"delete at: zero held, the largest asked", 5, 0, UINT32_MAX, CHARGEFILE_DIFFERS},
    {"delete at: zero asked and held", 5, 0, 0, CHARGEFILE_DELETED},
    {"delete at: the largest charge", 5, UINT32_MAX, UINT32_MAX, CHARGEFILE_DELETED},
    {"delete at: the largest held, zero asked", 5, UINT32_MAX, 0, CHARGEFILE_DELETED},
    {"delete at: the charge of the record before", 5, 250, BEFORE, CHARGEFILE_DIFFERS},
    {"delete at: the charge of the record behind", 5, 250, BEHIND, CHARGEFILE_DIFFERS},
    {"delete at: the number of the call", 5, 250, 5, CHARGEFILE_DIFFERS},
    {"delete at: not there", 7, 250, 250, CHARGEFILE_ABSENT},
    {"delete at: not there, the charge of another", 7, 250, BEHIND, CHARGEFILE_ABSENT},
    {"delete at: not there, zero asked", 7, 250, 0, CHARGEFILE_ABSENT},
};

static job j, wanted;

/* A file of one page with room for three. */
static void make_page(job *into, unsigned operations, unsigned turns, uint32_t held)
{
    const record records[3] = {{4, BEFORE}, {5, held}, {6, BEHIND}};
    counts c = {0, 3, 1, 1, operations, turns};
    make_job(into, c);
    put_page(into, 1, 0, 0, records, 3);
}

/* The charge file has what came in, without call 5 where that was struck out. */
static void expect_left(uint32_t held, int struck_out)
{
    static const record others[2] = {{4, BEFORE}, {6, BEHIND}};
    counts c = {0, 3, 1, 1, 0, 0};
    make_page(&wanted, 0, 0, held);
    if (struck_out) {
        make_job(&wanted, c);
        put_page(&wanted, 1, 0, 0, others, 2);
    }
    expect_file(&wanted);
}

/* Turn (d) is turn 3. Then a turn unlocks, or one writes the page and one unlocks. */
static void expect_asked(const asked *of)
{
    int deleted = of->code == CHARGEFILE_DELETED;
    uint32_t charge = of->code == CHARGEFILE_ABSENT ? 0 : of->held;
    make_page(&j, 1, 20, of->held);
    put_operation(&j, 0, CHARGEFILE_DELETE, of->call, of->asked);
    expect_run(&j, 0);
    expect_header(1, 1, 0, layout_of(counts_of(&j)).operations);
    expect_answer(0, (answer){of->code, 1, deleted ? 6 : 5, charge});
    expect_line(0, deleted ? 4 : 3, 0);
    expect_left(of->held, deleted);
}

/* A charge that differs in one bit, whichever it is. */
static void every_bit_counts(void)
{
    const uint32_t held = 0x5A5AA5A5;
    for (unsigned bit = 0; bit < 32; bit++) {
        make_page(&j, 1, 5, held);
        put_operation(&j, 0, CHARGEFILE_DELETE, 5, held ^ (uint32_t)1 << bit);
        expect_run(&j, 0);
        expect_answer(0, (answer){CHARGEFILE_DIFFERS, 1, 5, held});
    }
}

/* Before turn (d) there is no answer. After it there is one with its line, but the page is still
 * locked: the operation is under way, and there is no charge file. */
static void cut_around_turn_d(void)
{
    for (unsigned turns = 1; turns <= 4; turns++) {
        make_page(&j, 1, turns, 250);
        put_operation(&j, 0, CHARGEFILE_DELETE, 5, 180);
        expect_run(&j, 0);
        int told = turns == 4;
        expect_header(1, told ? 1 : 0, 1, 0);
        expect_answer(0, told ? (answer){CHARGEFILE_DIFFERS, 1, 4, 250}
                              : (answer){CHARGEFILE_NOT_YET, 0, turns, 0});
    }
    expect_line(0, 3, 0);
}

/* Two deletes of call 5, which has charge 250, in step: operation 0 takes the even turns and locks
 * the page on turn 2. */
static void run_two(uint32_t first, uint32_t second)
{
    make_page(&j, 2, 18, 250);
    put_operation(&j, 0, CHARGEFILE_DELETE, 5, first);
    put_operation(&j, 1, CHARGEFILE_DELETE, 5, second);
    for (unsigned t = 0; t < 18; t++) {
        put_turn(&j, t, t % 2);
    }
    expect_run(&j, 0);
}

/* The first decides on turn 6 and unlocks on turn 8. The second locks the page on turn 9, and so
 * decides on turn 13. */
static void the_wrong_charge_first(void)
{
    run_two(180, 250);
    expect_answer(0, (answer){CHARGEFILE_DIFFERS, 1, 5, 250});
    expect_answer(1, (answer){CHARGEFILE_DELETED, 1, 6, 250});
    expect_line(0, 6, 0);
    expect_line(1, 15, 1);
    expect_left(250, 1);
}

/* The first writes on turn 8 and unlocks on turn 10. The second locks the page on turn 11. */
static void the_right_charge_first(void)
{
    run_two(250, 180);
    expect_answer(0, (answer){CHARGEFILE_DELETED, 1, 6, 250});
    expect_answer(1, (answer){CHARGEFILE_ABSENT, 1, 5, 0});
    expect_line(0, 8, 0);
    expect_line(1, 15, 1);
    expect_left(250, 1);
}

/* One after another: struck out, stored at 270, not struck out at 250, struck out at 270. */
static void charged_anew(void)
{
    static const uint32_t charges[4] = {250, 270, 250, 270};
    static const unsigned ends[4] = {6, 12, 17, 23};
    make_page(&j, 4, 23, 250);
    for (unsigned i = 0, t = 0; i < 4; i++) {
        put_operation(&j, i, i == 1 ? CHARGEFILE_INSERT : CHARGEFILE_DELETE, 5, charges[i]);
        for (; t < ends[i]; t++) {
            put_turn(&j, t, i);
        }
    }
    expect_run(&j, 0);
    expect_answer(0, (answer){CHARGEFILE_DELETED, 1, 6, 250});
    expect_answer(1, (answer){CHARGEFILE_STORED, 1, 6, 270});
    expect_answer(2, (answer){CHARGEFILE_DIFFERS, 1, 5, 270});
    expect_answer(3, (answer){CHARGEFILE_DELETED, 1, 6, 270});
    expect_left(250, 1);
}

void delete_tests(void)
{
    for (unsigned i = 0; i < sizeof ASKED / sizeof ASKED[0]; i++) {
        begin_test(ASKED[i].name);
        expect_asked(&ASKED[i]);
        end_test();
    }
    test("delete at: every bit counts", every_bit_counts);
    test("delete at: cut around turn (d)", cut_around_turn_d);
    test("delete at: two, the wrong charge first", the_wrong_charge_first);
    test("delete at: two, the right charge first", the_right_charge_first);
    test("delete at: charged anew", charged_anew);
}
