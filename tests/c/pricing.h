/*
 * A tariff and a switch's log written byte by byte, as the document lays them out and not by
 * chargefile_tariff.h, so that the header is tested too; and what comes of pricing. The room is
 * larger than what is lent of it, so that a write past a lent length is seen as well.
 */
#ifndef PRICING_H
#define PRICING_H

#include "chargefile.h"
#include "jobs.h"

typedef struct band {
    unsigned code, free, unit;
    uint32_t fee, cheap, standard, dear;
} band;

typedef struct logged {
    uint32_t call;
    unsigned extension, band;
    uint32_t start, talked;
} logged;

/* Ten seconds free, a unit of a minute, fee 5; a unit costs 2, 3 or 7. */
extern const band TOWN;

enum { TARIFF_ROOM = 900, LOG_ROOM = 20000, INSERTS_ROOM = 13000 };

typedef struct month {
    uint8_t tariff[TARIFF_ROOM], log[LOG_ROOM];
    size_t tariff_length, log_length;
} month;

void put_band(uint8_t *at, band b);
void put_logged(uint8_t *at, logged l);

/* A month without bands and calls, and one more band or call behind those that it has. */
void clear_month(month *m);
void add_band(month *m, band b);
void add_logged(month *m, logged l);

/* A call in town, from extension 214: its number, its start and the seconds talked. */
void add_call(month *m, uint32_t call, uint32_t start, uint32_t talked);

/* A month with the town's band and no call. */
void make_town(month *m);

/* Where the inserts go: each pricing fills it anew with bytes of one value. */
extern uint8_t inserts[INSERTS_ROOM];

/* Expects that pricing, lent so much, comes to this, called from C and from C++; that the month's own
 * bytes are kept, and those of `inserts` behind the length that is told. */
void expect_pricing(const month *m, size_t lent, chargefile_outcome told);
void expect_not_priced(const month *m, size_t lent, uint64_t number, uint64_t place);

/* Expects a charge for each call of the log: just enough is lent, and more. With a byte less it is
 * refused. */
void expect_charges(const month *m, const uint32_t *charges);

#endif
