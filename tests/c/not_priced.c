/*
 * Which tariffs and logs are refused: each refusal at its boundary, and with those that it is told
 * before. Nothing is written.
 */
#include "groups.h"
#include "harness.h"
#include "lent.h"
#include "pricing.h"

static month m;

/* A month of three calls in town, of 11 seconds each. */
static void make_three_calls(void)
{
    make_town(&m);
    for (uint32_t call = 0; call < 3; call++) {
        add_call(&m, call, 0, 11);
    }
}

/* Every length but whole bands and whole records, of the tariff first. */
static void every_wrong_length(void)
{
    make_three_calls();
    for (size_t length = 0; length <= 48; length++) {
        m.log_length = length;
        if (length % 16 != 0) {
            expect_not_priced(&m, INSERTS_ROOM, CHARGEFILE_REFUSED_SHORT, length);
        }
    }
    for (size_t length = 0; length < TARIFF_ROOM; length++) {
        m.tariff_length = length;
        m.log_length = 47;
        if (length % 20 != 0) {
            expect_not_priced(&m, 0, CHARGEFILE_REFUSED_SHORT, length);
        } else {
            expect_not_priced(&m, 0, CHARGEFILE_REFUSED_SHORT, 47);
        }
    }
}

/* "more than 32 bands, at the length": also where the first band is bad */
static void too_many_bands(void)
{
    clear_month(&m);
    for (unsigned code = 0; code < 32; code++) {
        add_band(&m, (band){code, 0, 60, 1, 1, 1, 1});
    }
    expect_charges(&m, NULL);
    add_band(&m, (band){99, 0, 60, 1, 1, 1, 1});
    expect_not_priced(&m, 0, CHARGEFILE_REFUSED_TARIFF, 660);
    put_two(m.tariff + 2, 0);
    expect_not_priced(&m, 0, CHARGEFILE_REFUSED_TARIFF, 660);
    add_band(&m, TOWN);
    expect_not_priced(&m, 0, CHARGEFILE_REFUSED_TARIFF, 680);
}

/* "unit in seconds (2, from 1 to 3,600)" */
static void units(void)
{
    static const unsigned bad[] = {0, 3601, 3840, 32768, 65535};
    static const unsigned good[] = {1, 2, 255, 256, 3599, 3600};
    clear_month(&m);
    add_band(&m, (band){4, 0, 60, 1, 1, 1, 1});
    add_band(&m, TOWN);
    for (unsigned i = 0; i < sizeof bad / sizeof bad[0]; i++) {
        put_two(m.tariff + 22, bad[i]);
        expect_not_priced(&m, INSERTS_ROOM, CHARGEFILE_REFUSED_TARIFF, 20);
    }
    for (unsigned i = 0; i < sizeof good / sizeof good[0]; i++) {
        put_two(m.tariff + 22, good[i]);
        expect_charges(&m, NULL);
    }
}

/* "the first band with an earlier band's code or a bad unit" */
static void codes(void)
{
    clear_month(&m);
    add_band(&m, (band){0, 0, 60, 1, 1, 1, 1});
    add_band(&m, (band){255, 0, 60, 1, 1, 1, 1});
    add_band(&m, (band){0, 0, 60, 1, 1, 1, 1});
    add_band(&m, (band){255, 0, 60, 1, 1, 1, 1});
    expect_not_priced(&m, INSERTS_ROOM, CHARGEFILE_REFUSED_TARIFF, 40);
    put_two(m.tariff + 62, 0); /* behind it a unit of 0, and then before it */
    expect_not_priced(&m, INSERTS_ROOM, CHARGEFILE_REFUSED_TARIFF, 40);
    put_two(m.tariff + 22, 0);
    expect_not_priced(&m, INSERTS_ROOM, CHARGEFILE_REFUSED_TARIFF, 20);
}

/* Every value but 0, in each of three records. */
static void zero_bytes(void)
{
    make_three_calls();
    for (unsigned i = 0; i < 3; i++) {
        for (unsigned byte = 1; byte < 256; byte++) {
            m.log[16 * i + 7] = (uint8_t)byte;
            expect_not_priced(&m, INSERTS_ROOM, CHARGEFILE_REFUSED_OPERATION, 16 * i);
        }
        m.log[16 * i + 7] = 0;
    }
}

/* Every code but the band's; a call of no seconds needs its band too, and its zero byte. */
static void no_such_band(void)
{
    make_three_calls();
    put_four(m.log + 32 + 12, 0);
    for (unsigned code = 0; code < 256; code++) {
        m.log[32 + 6] = (uint8_t)code;
        if (code != TOWN.code) {
            expect_not_priced(&m, INSERTS_ROOM, CHARGEFILE_REFUSED_BAND, 32);
        }
    }
    m.log[32 + 7] = 1;
    expect_not_priced(&m, INSERTS_ROOM, CHARGEFILE_REFUSED_OPERATION, 32);
    m.tariff_length = 0;
    expect_not_priced(&m, INSERTS_ROOM, CHARGEFILE_REFUSED_BAND, 0);
}

typedef struct dear {
    band band;
    uint32_t talked;
} dear;

/* A charge of 2^32, and others up to the highest there is, 2^64 - 2^32. */
static void too_dear(void)
{
    static const dear DEAR[] = {
        {{1, 10, 60, 4294967294u, 2, 0, 0}, 11},
        {{1, 0, 1, 4294967295u, 1, 0, 0}, 1},
        {{1, 0, 1, 0, 65536, 0, 0}, 65536},
        {{1, 0, 1, 0, 65537, 0, 0}, 65536},
        {{1, 255, 1, 256, 1, 0, 0}, 4294967295u},
        {{1, 0, 1, 4294967295u, 4294967295u, 0, 0}, 4294967295u},
        {{1, 0, 2, 0, 4294967295u, 0, 0}, 4294967295u},
    };
    for (unsigned i = 0; i < sizeof DEAR / sizeof DEAR[0]; i++) {
        clear_month(&m);
        add_band(&m, DEAR[i].band);
        add_call(&m, 1, 0, 0);
        add_call(&m, 2, 0, DEAR[i].talked);
        expect_not_priced(&m, INSERTS_ROOM, CHARGEFILE_REFUSED_CHARGE, 16);
    }
}

/* "record by record, at that record, 9 for the zero byte, 14, 15": all three in one record, and in
 * three one after the other. */
static void record_by_record(void)
{
    make_three_calls();
    put_four(m.tariff + 4, UINT32_MAX);
    expect_not_priced(&m, 0, CHARGEFILE_REFUSED_CHARGE, 0);
    m.log[16 + 6] = 9;
    m.log[32 + 7] = 9;
    expect_not_priced(&m, 0, CHARGEFILE_REFUSED_CHARGE, 0);
    put_four(m.log + 12, 0);
    expect_not_priced(&m, 0, CHARGEFILE_REFUSED_BAND, 16);
    m.log[16 + 7] = 9;
    expect_not_priced(&m, 0, CHARGEFILE_REFUSED_OPERATION, 16);
    put_two(m.tariff + 2, 0);
    expect_not_priced(&m, 0, CHARGEFILE_REFUSED_TARIFF, 0);
}

/* "then 11, under 10 bytes a record, at place 0" */
static void every_room(void)
{
    make_three_calls();
    for (size_t lent = 0; lent < 30; lent++) {
        expect_not_priced(&m, lent, CHARGEFILE_REFUSED_OUTPUT, CHARGEFILE_SMALL_OUTPUT);
    }
    for (size_t lent = 30; lent < 60; lent++) {
        expect_pricing(&m, lent, (chargefile_outcome){CHARGEFILE_ACCEPTED, 0, 30});
    }
}

/* "Where a length is 0 the pointer is not followed and may be NULL." */
static void null_where_nothing_is_lent(void)
{
    make_three_calls();
    expect_refusal(chargefile_price(NULL, 0, m.log, 48, NULL, 0), CHARGEFILE_REFUSED_BAND, 0);
    expect_refusal(chargefile_price(NULL, 0, m.log, 47, NULL, 0), CHARGEFILE_REFUSED_SHORT, 47);
    expect_refusal(chargefile_price(m.tariff, 19, NULL, 0, NULL, 0), CHARGEFILE_REFUSED_SHORT, 19);
    expect_refusal(chargefile_price(m.tariff, 20, m.log, 48, NULL, 0), CHARGEFILE_REFUSED_OUTPUT,
                   CHARGEFILE_SMALL_OUTPUT);
}

void not_priced_tests(void)
{
    test("not priced: every wrong length", every_wrong_length);
    test("not priced: more than 32 bands", too_many_bands);
    test("not priced: every unit but 1 to 3,600", units);
    test("not priced: a code twice", codes);
    test("not priced: the zero byte", zero_bytes);
    test("not priced: no such band", no_such_band);
    test("not priced: a charge above 2^32 - 1", too_dear);
    test("not priced: record by record", record_by_record);
    test("not priced: every room", every_room);
    test("not priced: NULL where the length is 0", null_where_nothing_is_lent);
}
