/*
 * Which files and which depths tidying refuses: each refusal with the one before it, the depth as a
 * number of 64 bits, and the file's own refusals as the check tells them. Nothing is written.
 */
#include "groups.h"
#include "harness.h"
#include "lent.h"
#include "tidying.h"

static job j, wanted;

/* Two full pages of depth 1, with these counts. */
static void make_two_full(job *into, counts c)
{
    static const page full[2] = {{1, 0, 1, {4}}, {1, 1, 1, {5}}};
    make_file(into, c, full);
}

/* Every depth from 1 to 8 is taken, and no other. No part of the 64 bits is left out. */
static void wanted_depths(void)
{
    static const uint64_t others[] = {
        0, 9, 255, 256, 264, 1ull << 16, 1ull << 32, (1ull << 32) + 1, 1ull << 63, UINT64_MAX - 7,
        UINT64_MAX,
    };
    make_two_full(&j, (counts){1, 1, 2, 2, 0, 0});
    for (unsigned i = 0; i < sizeof others / sizeof others[0]; i++) {
        expect_not_tidied(&j, others[i], OUT_ROOM, CHARGEFILE_REFUSED_DEPTH, 0);
    }
    for (unsigned depth = 1; depth <= 8; depth++) {
        make_two_full(&wanted, (counts){depth, 1, 2, 2, 0, 0});
        expect_tidied(&j, depth, wanted.length, &wanted);
    }
}

/* Pages that are joined count with the depth that they have then: c is 2 here, and the two pages
 * come to one of depth 0. */
static void depth_after_joining(void)
{
    static const page both = {0, 0, 2, {4, 5}};
    make_two_full(&j, (counts){3, 2, 2, 2, 0, 0});
    make_file(&wanted, (counts){0, 2, 2, 1, 0, 0}, &both);
    expect_tidied(&j, 0, wanted.length, &wanted);
    make_two_full(&j, (counts){3, 1, 2, 2, 0, 0});
    expect_not_tidied(&j, 0, OUT_ROOM, CHARGEFILE_REFUSED_DEPTH, 0);
}

/* "18 after the file's own refusals, then 19, then 11" */
static void order_of_refusals(void)
{
    make_two_full(&j, (counts){1, 1, 2, 2, 1, 3});
    put_turn(&j, 2, 1);
    expect_not_tidied(&j, 9, 0, CHARGEFILE_REFUSED_TURN, j.length - 2);
    put_turn(&j, 2, 0);
    expect_not_tidied(&j, 9, 0, CHARGEFILE_REFUSED_PRESENT, CHARGEFILE_AT_OPERATIONS);
    make_two_full(&j, (counts){1, 1, 2, 2, 0, 0});
    expect_not_tidied(&j, 9, 0, CHARGEFILE_REFUSED_DEPTH, 0);
    expect_not_tidied(&j, 0, 0, CHARGEFILE_REFUSED_DEPTH, 0);
    expect_not_tidied(&j, 1, 0, CHARGEFILE_REFUSED_OUTPUT, CHARGEFILE_SMALL_OUTPUT);
}

/* "Job version is 2; version 1 gives refusal 2": at 0, and before all else that may be wrong. */
static void version_1(void)
{
    make_two_full(&j, (counts){1, 1, 2, 2, 0, 0});
    put_two(j.bytes, 1);
    expect_refused(&j, CHARGEFILE_REFUSED_VERSION, 0);
    expect_not_tidied(&j, 1, OUT_ROOM, CHARGEFILE_REFUSED_VERSION, 0);
    expect_not_tidied(&j, 9, 0, CHARGEFILE_REFUSED_VERSION, 0);
    j.bytes[CHARGEFILE_AT_DEPTH] = 9;
    expect_not_tidied(&j, 9, 0, CHARGEFILE_REFUSED_VERSION, 0);
}

/* One operation or as many as there can be, with turns or without. */
static void operations_present(void)
{
    static const unsigned operations[] = {1, 2, 255, 256};
    for (unsigned i = 0; i < 4; i++) {
        for (unsigned turns = 0; turns < 2; turns++) {
            make_two_full(&j, (counts){1, 1, 2, 2, operations[i], turns});
            expect_done(check(&j), 0);
            expect_not_tidied(&j, 1, OUT_ROOM, CHARGEFILE_REFUSED_PRESENT,
                              CHARGEFILE_AT_OPERATIONS);
        }
    }
}

/* Whatever the check refuses is refused alike, whatever depth is wanted and however much is lent:
 * every byte of a file, with each of its bits turned over. */
static void refused_as_by_the_check(void)
{
    unsigned refused = 0;
    make_two_full(&j, (counts){1, 1, 3, 2, 0, 0});
    for (unsigned i = 0; i < 8 * j.length; i++) {
        uint8_t bit = (uint8_t)(1u << i % 8);
        j.bytes[i / 8] ^= bit;
        chargefile_outcome told = check(&j);
        if (told.refusal != CHARGEFILE_ACCEPTED) {
            refused++;
            expect_outcome(&j, 1, OUT_ROOM, told);
            expect_outcome(&j, UINT64_MAX, 0, told);
        }
        j.bytes[i / 8] ^= bit;
    }
    EXPECT(refused > 300);
}

static void every_wrong_length(void)
{
    make_two_full(&j, (counts){1, 1, 2, 2, 0, 0});
    for (size_t whole = j.length, length = 0; length < whole + 9; length++) {
        j.length = length;
        if (length < 32) {
            expect_not_tidied(&j, 1, OUT_ROOM, CHARGEFILE_REFUSED_SHORT, length);
        } else if (length != whole) {
            expect_not_tidied(&j, 1, OUT_ROOM, CHARGEFILE_REFUSED_OFFSET, 28);
        }
    }
}

/* "Where a length is 0 the pointer is not followed and may be NULL." */
static void null_where_nothing_is_lent(void)
{
    expect_refusal(chargefile_tidy(NULL, 0, 1, NULL, 0), CHARGEFILE_REFUSED_SHORT, 0);
    expect_refusal(chargefile_tidy(NULL, 0, 9, out, OUT_ROOM), CHARGEFILE_REFUSED_SHORT, 0);
    make_two_full(&j, (counts){1, 1, 2, 2, 0, 0});
    expect_refusal(chargefile_tidy(j.bytes, j.length, 0, NULL, 0), CHARGEFILE_REFUSED_DEPTH, 0);
    expect_refusal(chargefile_tidy(j.bytes, j.length, 1, NULL, 0), CHARGEFILE_REFUSED_OUTPUT,
                   CHARGEFILE_SMALL_OUTPUT);
}

void not_tidied_tests(void)
{
    test("not tidied: every wanted depth but 1 to 8", wanted_depths);
    test("not tidied: the depth after joining counts", depth_after_joining);
    test("not tidied: the order of refusals", order_of_refusals);
    test("not tidied: version 1", version_1);
    test("not tidied: operations present", operations_present);
    test("not tidied: refused as by the check", refused_as_by_the_check);
    test("not tidied: every wrong length", every_wrong_length);
    test("not tidied: NULL where the length is 0", null_where_nothing_is_lent);
}
