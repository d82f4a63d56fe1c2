/*
 * Where a call belongs: the library goes by the pseudo keys that key.c works out, in the check and
 * in a run. And calls that share a pseudo key: no split can part them, and a page tells them apart
 * by their numbers.
 */
#include "groups.h"
#include "harness.h"
#include "key.h"
#include "lent.h"
#include "tidying.h"
#include "told.h"

/* Calls with one pseudo key, by rising number: 47c607a0, 0004b900 and 76717f00. More than eight
 * never share one. */
static const uint32_t TWO[2] = {141231736, 474790318};
static const uint32_t THREE[3] = {2266965870, 2390834178, 2723606448};
static const uint32_t EIGHT[8] = {76782598,   307694142,  645167468,  762366464,
                                  3647208091, 3988431817, 4095890157, 4220387713};

/* The calls below 32 by the first two bits of their pseudo keys. */
static const uint32_t SMALL[4][8] = {
    {4, 11, 13, 14, 20, 27, 29, 30},
    {0, 7, 9, 10, 16, 23, 25, 26},
    {3, 5, 6, 12, 19, 21, 22, 28},
    {1, 2, 8, 15, 17, 18, 24, 31},
};

static job j, wanted;

/* (A), and the calls that share a key. */
static void keys_by_hand(void)
{
    EXPECT_EQUAL(pseudo_key(1), 0xfb69b604);
    EXPECT_EQUAL(pseudo_key(6), 0xab3d76f3);
    EXPECT_EQUAL(pseudo_key(0), 0x4b95f515);
    for (unsigned i = 0; i < 2; i++) {
        EXPECT_EQUAL(pseudo_key(TWO[i]), 0x47c607a0);
    }
    for (unsigned i = 0; i < 3; i++) {
        EXPECT_EQUAL(pseudo_key(THREE[i]), 0x0004b900);
    }
    for (unsigned i = 0; i < 8; i++) {
        EXPECT_EQUAL(pseudo_key(EIGHT[i]), 0x76717f00);
    }
}

/* A file with a page for each pattern of so many bits. The call, alone in one of them, is accepted
 * there or refused 8. */
static void expect_belongs(unsigned depth, uint32_t call, unsigned pattern, int belongs)
{
    counts c = {depth, 1, 1u << depth, 1u << depth, 0, 0};
    make_job(&j, c);
    put_calls(&j, pattern + 1, depth, pattern, &call, 1);
    if (belongs) {
        expect_done(check(&j), 0);
    } else {
        expect_refusal(check(&j), CHARGEFILE_REFUSED_RECORD, layout_of(c).table + 12 * pattern + 4);
    }
}

/* Each in its own page, and in no other; then all 32 in one file. */
static void every_small_call(void)
{
    counts c = {2, 8, 4, 4, 0, 0};
    for (unsigned x = 0; x < 4; x++) {
        for (unsigned i = 0; i < 8; i++) {
            for (unsigned pattern = 0; pattern < 4; pattern++) {
                expect_belongs(2, SMALL[x][i], pattern, pattern == x);
            }
        }
    }
    make_job(&j, c);
    for (unsigned x = 0; x < 4; x++) {
        put_calls(&j, x + 1, 2, x, SMALL[x], 8);
    }
    expect_run(&j, 24 + j.length);
}

/* Each byte of a call with each of its values, the others zero: the first eight bits of the pseudo
 * key are those of key.c, from the first of them to the last. */
static void every_byte_of_a_call(void)
{
    for (unsigned byte = 0; byte < 4; byte++) {
        for (uint32_t value = 0; value < 256; value++) {
            uint32_t call = value << 8 * byte;
            unsigned pattern = first_bits(call, 8);
            expect_belongs(8, call, pattern, 1);
            expect_belongs(8, call, pattern ^ 1, 0);
            expect_belongs(8, call, pattern ^ 128, 0);
        }
    }
}

/* Calls of one line card, which stands in their low eight bits: 263, 519 and 775 are of card 7, and
 * their pseudo keys begin with 10, 11 and 00. The third comes into a page full of the others, which
 * go to the new page. */
static void calls_of_one_card(void)
{
    static const uint32_t others[2] = {263, 519}, stored[1] = {775};
    counts c = {1, 2, 2, 1, 1, 9}, file = {1, 2, 2, 2, 0, 0};
    make_job(&j, c);
    put_calls(&j, 1, 0, 0, others, 2);
    put_operation(&j, 0, CHARGEFILE_INSERT, 775, charge_of(775));
    expect_run(&j, 0);
    expect_answer(0, (answer){CHARGEFILE_STORED, 1, 9, charge_of(775)});
    make_job(&wanted, file);
    put_calls(&wanted, 1, 1, 0, stored, 1);
    put_calls(&wanted, 2, 1, 1, others, 2);
    expect_file(&wanted);
}

/* The deepest directory, whose entries all name page 1, with these calls. Eight pages are free: as
 * many as the splits down to depth 8 would need. */
static void make_one_page(job *into, unsigned capacity, const uint32_t *calls, unsigned count,
                          unsigned operations, unsigned turns)
{
    counts c = {8, capacity, 9, 1, operations, turns};
    make_job(into, c);
    put_calls(into, 1, 0, 0, calls, count);
}

static void expect_one_page(unsigned capacity, const uint32_t *calls, unsigned count)
{
    make_one_page(&wanted, capacity, calls, count, 0, 0);
    expect_file(&wanted);
}

/* An operation, its answer, and the turns that it uses. */
typedef struct step {
    unsigned kind;
    uint32_t call;
    unsigned code, turns;
} step;

/* Both calls are stored, the higher first, and found; one is struck out, and both are looked for
 * again. One operation after another. */
static void expect_apart(uint32_t struck_out, uint32_t kept)
{
    const step steps[7] = {
        {CHARGEFILE_INSERT, TWO[1], CHARGEFILE_STORED, 6},
        {CHARGEFILE_INSERT, TWO[0], CHARGEFILE_STORED, 6},
        {CHARGEFILE_SEARCH, struck_out, CHARGEFILE_FOUND, 2},
        {CHARGEFILE_SEARCH, kept, CHARGEFILE_FOUND, 2},
        {CHARGEFILE_DELETE, struck_out, CHARGEFILE_DELETED, 6},
        {CHARGEFILE_SEARCH, struck_out, CHARGEFILE_NONE, 3},
        {CHARGEFILE_SEARCH, kept, CHARGEFILE_FOUND, 2},
    };
    make_one_page(&j, 2, NULL, 0, 7, 27);
    for (unsigned i = 0, t = 0; i < 7; i++) {
        int inserts = steps[i].kind == CHARGEFILE_INSERT;
        put_operation(&j, i, steps[i].kind, steps[i].call, inserts ? charge_of(steps[i].call) : 0);
        for (unsigned end = t + steps[i].turns; t < end; t++) {
            put_turn(&j, t, i);
        }
    }
    expect_run(&j, 0);
    for (unsigned i = 0; i < 7; i++) {
        uint32_t charge = steps[i].code == CHARGEFILE_NONE ? 0 : charge_of(steps[i].call);
        expect_answer(i, (answer){steps[i].code, 1, steps[i].turns, charge});
    }
    expect_one_page(2, &kept, 1);
}

static void two_apart(void)
{
    expect_apart(TWO[0], TWO[1]);
    expect_apart(TWO[1], TWO[0]);
}

/* One of the three is inserted where the other two are in the page, which has room for so many. */
static void insert_third(uint32_t call, const uint32_t *others, unsigned capacity)
{
    make_one_page(&j, capacity, others, 2, 1, 20);
    put_operation(&j, 0, CHARGEFILE_INSERT, call, charge_of(call));
    expect_run(&j, 0);
}

/* In a full page it is told "no depth", though the directory is as deep as can be and pages are
 * free: "all c records share their first g bits with the call". With room for it, it is stored. */
static void three_calls(void)
{
    for (unsigned third = 0; third < 3; third++) {
        const uint32_t others[2] = {THREE[third == 0 ? 1 : 0], THREE[third == 2 ? 1 : 2]};
        insert_third(THREE[third], others, 2);
        expect_answer(0, (answer){CHARGEFILE_NO_DEPTH, 1, 5, 0});
        expect_line(0, 3, 0);
        expect_one_page(2, others, 2);
        insert_third(THREE[third], others, 3);
        expect_answer(0, (answer){CHARGEFILE_STORED, 1, 6, charge_of(THREE[third])});
        expect_line(0, 4, 0);
        expect_one_page(3, THREE, 3);
    }
}

/* Each of the eight is found with its own charge. */
static void eight_in_a_page(void)
{
    make_one_page(&j, 8, EIGHT, 8, 8, 16);
    for (unsigned i = 0; i < 8; i++) {
        put_operation(&j, i, CHARGEFILE_SEARCH, EIGHT[i], 0);
        put_turn(&j, 2 * i, i);
        put_turn(&j, 2 * i + 1, i);
    }
    expect_run(&j, 0);
    for (unsigned i = 0; i < 8; i++) {
        expect_answer(i, (answer){CHARGEFILE_FOUND, 1, 2, charge_of(EIGHT[i])});
    }
    expect_one_page(8, EIGHT, 8);
}

static void one_of_eight_struck_out(void)
{
    for (unsigned gone = 0; gone < 8; gone++) {
        uint32_t left[7];
        for (unsigned i = 0; i < 7; i++) {
            left[i] = EIGHT[i < gone ? i : i + 1];
        }
        make_one_page(&j, 8, EIGHT, 8, 1, 6);
        put_operation(&j, 0, CHARGEFILE_DELETE, EIGHT[gone], charge_of(EIGHT[gone]));
        expect_run(&j, 0);
        expect_answer(0, (answer){CHARGEFILE_DELETED, 1, 6, charge_of(EIGHT[gone])});
        expect_one_page(8, left, 7);
    }
}

/* The two calls in page 1, of depth 0, which stands at 32 + 2 x 256, and in page 72, of depth 8
 * with the pattern 47 (hexadecimal), 71 pages of 20 bytes behind it. The second record is told. */
static void expect_checked(const uint32_t *calls, uint64_t number)
{
    counts deepest = {8, 2, 256, 256, 0, 0};
    for (unsigned page = 1; page <= 72; page += 71) {
        if (page == 1) {
            make_one_page(&j, 2, calls, 2, 0, 0);
        } else {
            make_job(&j, deepest);
            put_calls(&j, page, 8, 0x47, calls, 2);
        }
        if (number == CHARGEFILE_ACCEPTED) {
            expect_run(&j, 24 + j.length);
        } else {
            expect_refused(&j, number, 544 + 20 * (page - 1) + 12);
        }
    }
}

static void two_checked(void)
{
    static const uint32_t falling[2] = {474790318, 141231736}, same[2] = {474790318, 474790318};
    expect_checked(TWO, CHARGEFILE_ACCEPTED);
    expect_checked(falling, CHARGEFILE_REFUSED_RECORD);
    expect_checked(same, CHARGEFILE_REFUSED_RECORD);
}

/* A file with nothing but the eight, in a page of its own: all pages are joined, and it is left. */
static void eight_tidied(void)
{
    counts was = {8, 8, 256, 256, 0, 0}, left = {0, 8, 256, 1, 0, 0};
    make_job(&j, was);
    put_calls(&j, 0x76 + 1, 8, 0x76, EIGHT, 8);
    make_job(&wanted, left);
    put_calls(&wanted, 1, 0, 0, EIGHT, 8);
    expect_tidied(&j, 0, wanted.length, &wanted);
}

void key_tests(void)
{
    test("key: by hand (A), and calls that share one", keys_by_hand);
    test("key: every small call in its page", every_small_call);
    test("key: every byte of a call", every_byte_of_a_call);
    test("key: calls of one line card", calls_of_one_card);
    test("one key: two calls stored, found and struck out apart", two_apart);
    test("one key: a third call, no depth without room", three_calls);
    test("one key: eight found in a page", eight_in_a_page);
    test("one key: one of eight struck out", one_of_eight_struck_out);
    test("one key: two in a page, rising and not", two_checked);
    test("one key: eight tidied", eight_tidied);
}
