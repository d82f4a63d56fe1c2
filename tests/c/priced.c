/* What a switch's log costs: charges worked out by hand, at the seconds where they change. */
#include <string.h>

#include "groups.h"
#include "harness.h"
#include "pricing.h"
#include "told.h"

enum { HOUR = 3600, DAY = 24 * HOUR };

static const uint32_t MOST = UINT32_MAX;

static month m;

/* One call: the band is the only one, and its code is the town's. */
typedef struct one_call {
    const char *name;
    band band;
    uint32_t start, talked, charge;
} one_call;

#define IN_TOWN {1, 10, 60, 5, 2, 3, 7}

static const one_call CALLS[] = {
    {"priced: no seconds", IN_TOWN, 0, 0, 0},
    {"priced: the last free second", IN_TOWN, 0, 10, 5},
    {"priced: behind the free seconds", IN_TOWN, 0, 11, 5 + 2},
    {"priced: a unit's last second", IN_TOWN, 0, 70, 5 + 2},
    {"priced: the next unit's first second", IN_TOWN, 0, 71, 5 + 2 * 2},
    {"priced: nothing free, a unit", {1, 0, 60, 5, 2, 3, 7}, 0, 60, 5 + 2},
    {"priced: nothing free, a second more", {1, 0, 60, 5, 2, 3, 7}, 0, 61, 5 + 2 * 2},
    {"priced: 255 free seconds", {1, 255, 60, 5, 2, 3, 7}, 0, 255, 5},
    {"priced: by the second", {1, 10, 1, 5, 2, 3, 7}, 0, 31, 5 + 2 * 21},
    {"priced: by the hour", {1, 10, 3600, 5, 2, 3, 7}, 0, 3610, 5 + 2},
    {"priced: a unit of two bytes", {1, 10, 300, 5, 2, 3, 7}, 0, 310, 5 + 2},
    {"priced: cheap when it starts, dear when it ends", IN_TOWN, 25000, 14400, 5 + 2 * 240},
    {"priced: dear on the second day", IN_TOWN, DAY + 8 * HOUR, 11, 5 + 7},
    {"priced: the last second of the month", IN_TOWN, 31 * DAY - 1, 11, 5 + 2},
    {"priced: behind the month", IN_TOWN, 31 * DAY + 19 * HOUR, 11, 5 + 3},
    {"priced: dear in the far future", IN_TOWN, 4294800000u, 11, 5 + 7},
    {"priced: the last start there is", IN_TOWN, 4294967295u, 11, 5 + 2},
    {"priced: fee and unit to 2^32 - 1", {1, 10, 60, 4294967293u, 2, 0, 0}, 0, 11, 4294967295u},
    {"priced: units to 2^32 - 1", {1, 0, 1, 0, 65537, 0, 0}, 0, 65535, 4294967295u},
    {"priced: the longest call", {1, 255, 1, 255, 1, 0, 0}, 0, 4294967295u, 4294967295u},
    {"priced: the highest fee, and no seconds", {1, 0, 1, 4294967295u, 9, 9, 9}, 0, 0, 0},
};

static void expect_charge(const one_call *c)
{
    clear_month(&m);
    add_band(&m, c->band);
    add_call(&m, 1000, c->start, c->talked);
    expect_charges(&m, &c->charge);
}

/* "0 to 6 and 20 to 23 cheap, 7, 18 and 19 standard, 8 to 17 dear": the first and the last second of
 * each hour. */
static void every_hour(void)
{
    static const char classes[] = "cccccccsddddddddddsscccc";
    uint32_t charges[48];
    make_town(&m);
    for (unsigned hour = 0; hour < 24; hour++) {
        uint32_t unit = classes[hour] == 'c' ? 2 : classes[hour] == 's' ? 3 : 7;
        add_call(&m, hour, hour * HOUR, 11);
        add_call(&m, hour, hour * HOUR + HOUR - 1, 11);
        charges[2 * hour] = charges[2 * hour + 1] = 5 + unit;
    }
    expect_charges(&m, charges);
}

/* 32 bands, the last with code 0 and one before it with code 255; a call of each. */
static void every_band(void)
{
    uint32_t charges[32];
    clear_month(&m);
    for (unsigned i = 0; i < 32; i++) {
        unsigned code = i == 7 ? 255 : 31 - i;
        add_band(&m, (band){code, 0, 60, 100 + i, 0, 0, 0});
        add_logged(&m, (logged){i, 0, code, 0, 1});
        charges[i] = 100 + i;
    }
    expect_charges(&m, charges);
}

/* Calls do not rise, one comes twice, and neither number nor extension counts. */
static void order_of_the_log(void)
{
    static const uint32_t charges[] = {12, 19, 0, 26, 12};
    make_town(&m);
    add_call(&m, 9, 9 * HOUR, 11);
    add_logged(&m, (logged){3, 65535, 1, 9 * HOUR, 71});
    add_call(&m, MOST, 9 * HOUR, 0);
    add_call(&m, 9, 9 * HOUR, 131);
    add_call(&m, 9, 9 * HOUR, 11);
    expect_charges(&m, charges);
}

/* More records than a job has operations. */
static void long_log(void)
{
    static uint32_t charges[1200];
    make_town(&m);
    for (uint32_t i = 0; i < 1200; i++) {
        add_call(&m, i, i * 997, i);
        uint32_t hour = i * 997 / HOUR % 24;
        uint32_t unit = hour >= 8 && hour <= 17 ? 7 : hour == 7 || hour == 18 || hour == 19 ? 3 : 2;
        charges[i] = i == 0 ? 0 : i <= 10 ? 5 : 5 + unit * ((i - 10 + 59) / 60);
    }
    expect_charges(&m, charges);
}

/* "Where a length is 0 the pointer is not followed and may be NULL." */
static void nothing_at_all(void)
{
    clear_month(&m);
    expect_charges(&m, NULL);
    expect_done(chargefile_price(NULL, 0, NULL, 0, NULL, 0), 0);
    make_town(&m);
    expect_charges(&m, NULL);
    expect_done(chargefile_price(m.tariff, 20, NULL, 0, NULL, 0), 0);
}

/* Tariff, log and output are bytes and need no alignment. */
static void odd_addresses(void)
{
    static uint8_t tariff[1 + 20], log[3 + 32];
    put_band(tariff + 1, TOWN);
    put_logged(log + 3, (logged){7, 0, 1, 0, 11});
    put_logged(log + 19, (logged){8, 0, 1, 0, 71});
    memset(inserts, 0x5A, sizeof inserts);
    expect_done(chargefile_price(tariff + 1, 20, log + 3, 32, inserts + 5, 20), 20);
    EXPECT_EQUAL(chargefile_four(inserts + 5 + 6), 7);
    EXPECT_EQUAL(chargefile_four(inserts + 15 + 6), 9);
    EXPECT_EQUAL(inserts[4], 0x5A);
    EXPECT_EQUAL(inserts[25], 0x5A);
}

/* The inserts are the operations of a job as they stand: each is run to its end before the next. The
 * third has the first one's call, and finds it there at the first one's charge. */
static void in_a_job(void)
{
    static job j;
    counts c = {1, 2, 2, 1, 3, 18};
    make_town(&m);
    add_call(&m, 2, 0, 11);
    add_call(&m, 7, 0, 0);
    add_call(&m, 2, 0, 71);
    make_job(&j, c);
    expect_done(chargefile_price(m.tariff, m.tariff_length, m.log, m.log_length,
                                 j.bytes + layout_of(c).operations, 30),
                30);
    for (unsigned turn = 0; turn < 18; turn++) {
        put_turn(&j, turn, turn / 6);
    }
    expect_run(&j, result_room(c));
    expect_answer(0, (answer){CHARGEFILE_STORED, 1, 6, 7});
    expect_answer(1, (answer){CHARGEFILE_STORED, 1, 6, 0});
    expect_answer(2, (answer){CHARGEFILE_ALREADY_THERE, 1, 5, 7});
}

void priced_tests(void)
{
    for (unsigned i = 0; i < sizeof CALLS / sizeof CALLS[0]; i++) {
        begin_test(CALLS[i].name);
        expect_charge(&CALLS[i]);
        end_test();
    }
    test("priced: the first and the last second of each hour", every_hour);
    test("priced: a call of each of 32 bands", every_band);
    test("priced: the order of the log", order_of_the_log);
    test("priced: a long log", long_log);
    test("priced: nothing, and NULL where the length is 0", nothing_at_all);
    test("priced: odd addresses", odd_addresses);
    test("priced: the inserts in a job", in_a_job);
}
