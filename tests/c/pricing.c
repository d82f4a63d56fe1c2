#include "pricing.h"

#include <assert.h>
#include <string.h>

#include "from_cpp.h"
#include "harness.h"

enum { INSERTS_BYTE = 0xA5 };

const band TOWN = {1, 10, 60, 5, 2, 3, 7};

uint8_t inserts[INSERTS_ROOM];

/* "code (1), free seconds (1), unit in seconds (2), connection fee (4), and price for each started
 * unit in the cheap, standard and dear class (4 each)" */
void put_band(uint8_t *at, band b)
{
    at[0] = (uint8_t)b.code;
    at[1] = (uint8_t)b.free;
    put_two(at + 2, b.unit);
    put_four(at + 4, b.fee);
    put_four(at + 8, b.cheap);
    put_four(at + 12, b.standard);
    put_four(at + 16, b.dear);
}

/* "call number (4), extension (2), band (1), zero (1), start in seconds from the month's beginning
 * (4), seconds talked (4)" */
void put_logged(uint8_t *at, logged l)
{
    put_four(at, l.call);
    put_two(at + 4, l.extension);
    at[6] = (uint8_t)l.band;
    at[7] = 0;
    put_four(at + 8, l.start);
    put_four(at + 12, l.talked);
}

void clear_month(month *m)
{
    memset(m, 0, sizeof *m);
}

void add_band(month *m, band b)
{
    assert(m->tariff_length + 20 <= sizeof m->tariff);
    put_band(m->tariff + m->tariff_length, b);
    m->tariff_length += 20;
}

void add_logged(month *m, logged l)
{
    assert(m->log_length + 16 <= sizeof m->log);
    put_logged(m->log + m->log_length, l);
    m->log_length += 16;
}

void add_call(month *m, uint32_t call, uint32_t start, uint32_t talked)
{
    add_logged(m, (logged){call, 214, TOWN.code, start, talked});
}

void make_town(month *m)
{
    clear_month(m);
    add_band(m, TOWN);
}

/* The first byte from `written` on that is not as it was lent; INSERTS_ROOM where there is none. */
static size_t first_changed(size_t written)
{
    size_t i = written;
    while (i < INSERTS_ROOM && inserts[i] == INSERTS_BYTE) {
        i++;
    }
    return i;
}

void expect_pricing(const month *m, size_t lent, chargefile_outcome told)
{
    static month before;
    for (unsigned cpp = 0; cpp < 2; cpp++) {
        before = *m;
        memset(inserts, INSERTS_BYTE, sizeof inserts);
        chargefile_outcome o = (cpp ? cpp_price : chargefile_price)(
            m->tariff, m->tariff_length, m->log, m->log_length, inserts, lent);
        EXPECT_EQUAL(o.refusal, told.refusal);
        EXPECT_EQUAL(o.place, told.place);
        EXPECT_EQUAL(o.length, told.length);
        EXPECT_EQUAL(first_changed(told.length), INSERTS_ROOM);
        EXPECT(memcmp(before.tariff, m->tariff, sizeof before.tariff) == 0);
        EXPECT(memcmp(before.log, m->log, sizeof before.log) == 0);
    }
}

void expect_not_priced(const month *m, size_t lent, uint64_t number, uint64_t place)
{
    expect_pricing(m, lent, (chargefile_outcome){number, place, 0});
}

/* "The output is an insert for each record, in log order": kind 2, a zero byte, call and charge. */
static void expect_insert(const uint8_t *insert, const uint8_t *record, uint32_t charge)
{
    EXPECT_EQUAL(insert[0], CHARGEFILE_INSERT);
    EXPECT_EQUAL(insert[1], 0);
    EXPECT(memcmp(insert + 2, record, 4) == 0);
    EXPECT_EQUAL(chargefile_four(insert + 6), charge);
}

void expect_charges(const month *m, const uint32_t *charges)
{
    size_t length = 10 * (m->log_length / 16);
    chargefile_outcome done = {CHARGEFILE_ACCEPTED, 0, length};
    if (length > 0) {
        expect_not_priced(m, length - 1, CHARGEFILE_REFUSED_OUTPUT, CHARGEFILE_SMALL_OUTPUT);
    }
    expect_pricing(m, length + 77, done);
    expect_pricing(m, length, done);
    for (size_t i = 0; i < m->log_length / 16; i++) {
        expect_insert(inserts + 10 * i, m->log + 16 * i, charges[i]);
    }
}
