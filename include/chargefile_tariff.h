/*
 * The bytes of a tariff and of a switch's log, for C (C99 on) and C++: where each field stands, how
 * large each part is, and functions that write a band and a log record. docs/FORMAT.md has every
 * byte ("The tariff"). Include chargefile.h, which includes this file and has the calls.
 */
#ifndef CHARGEFILE_TARIFF_H
#define CHARGEFILE_TARIFF_H

#include <stddef.h>
#include <stdint.h>

#include "chargefile_format.h"

#ifdef __cplusplus
extern "C" {
#endif

/* ---- A tariff: bands, one behind another, and nothing else. */

#define CHARGEFILE_BAND_SIZE 20u
#define CHARGEFILE_BANDS_MAX 32u /* bands of a tariff, from 0 */
#define CHARGEFILE_TARIFF_MAX (CHARGEFILE_BAND_SIZE * CHARGEFILE_BANDS_MAX)
#define CHARGEFILE_UNIT_MIN 1u
#define CHARGEFILE_UNIT_MAX 3600u /* seconds */

/* Where the fields of a band stand, counted in bytes from the band's start. */
#define CHARGEFILE_BAND_AT_CODE 0u      /* 1 byte: no two bands of a tariff have the same */
#define CHARGEFILE_BAND_AT_FREE 1u      /* 1 byte: free seconds */
#define CHARGEFILE_BAND_AT_UNIT 2u      /* 2 bytes: a unit, in seconds */
#define CHARGEFILE_BAND_AT_FEE 4u       /* 4 bytes: the connection fee */
#define CHARGEFILE_BAND_AT_CHEAP 8u     /* 4 bytes: for each started unit, hours 0 to 6, 20 to 23 */
#define CHARGEFILE_BAND_AT_STANDARD 12u /* 4 bytes: hours 7, 18 and 19 */
#define CHARGEFILE_BAND_AT_DEAR 16u     /* 4 bytes: hours 8 to 17 */

/* ---- A switch's log: records, one behind another, and nothing else. There may be any number. */

#define CHARGEFILE_LOGGED_SIZE 16u

/* Where the fields of a log record stand, counted in bytes from the record's start. */
#define CHARGEFILE_LOGGED_AT_CALL 0u      /* 4 bytes: the call number */
#define CHARGEFILE_LOGGED_AT_EXTENSION 4u /* 2 bytes */
#define CHARGEFILE_LOGGED_AT_BAND 6u      /* 1 byte: the code of a band */
#define CHARGEFILE_LOGGED_AT_ZERO 7u      /* 1 byte, zero */
#define CHARGEFILE_LOGGED_AT_START 8u     /* 4 bytes: in seconds from the month's beginning */
#define CHARGEFILE_LOGGED_AT_TALKED 12u   /* 4 bytes: seconds talked */

/* What chargefile_price must be lent for so many bytes of a log: an operation for each record. */
#define CHARGEFILE_PRICED_SIZE(log_length)                                                         \
    (CHARGEFILE_OPERATION_SIZE * ((size_t)(log_length) / CHARGEFILE_LOGGED_SIZE))

/* ---- Writing them. Amounts are in cents. */

/* A band, field by field. */
typedef struct chargefile_band {
    uint8_t code;
    uint8_t free_seconds;
    uint16_t unit; /* CHARGEFILE_UNIT_MIN to CHARGEFILE_UNIT_MAX */
    uint32_t fee;
    uint32_t cheap;
    uint32_t standard;
    uint32_t dear;
} chargefile_band;

/* A log record, field by field. */
typedef struct chargefile_logged {
    uint32_t call;
    uint16_t extension;
    uint8_t band;
    uint32_t start;
    uint32_t talked;
} chargefile_logged;

/* Writes the CHARGEFILE_BAND_SIZE bytes of a band. */
static inline void chargefile_put_band(uint8_t *bytes, chargefile_band band)
{
    bytes[CHARGEFILE_BAND_AT_CODE] = band.code;
    bytes[CHARGEFILE_BAND_AT_FREE] = band.free_seconds;
    chargefile_put_two(bytes + CHARGEFILE_BAND_AT_UNIT, band.unit);
    chargefile_put_four(bytes + CHARGEFILE_BAND_AT_FEE, band.fee);
    chargefile_put_four(bytes + CHARGEFILE_BAND_AT_CHEAP, band.cheap);
    chargefile_put_four(bytes + CHARGEFILE_BAND_AT_STANDARD, band.standard);
    chargefile_put_four(bytes + CHARGEFILE_BAND_AT_DEAR, band.dear);
}

/* Writes the CHARGEFILE_LOGGED_SIZE bytes of a log record. */
static inline void chargefile_put_logged(uint8_t *bytes, chargefile_logged logged)
{
    chargefile_put_four(bytes + CHARGEFILE_LOGGED_AT_CALL, logged.call);
    chargefile_put_two(bytes + CHARGEFILE_LOGGED_AT_EXTENSION, logged.extension);
    bytes[CHARGEFILE_LOGGED_AT_BAND] = logged.band;
    bytes[CHARGEFILE_LOGGED_AT_ZERO] = 0;
    chargefile_put_four(bytes + CHARGEFILE_LOGGED_AT_START, logged.start);
    chargefile_put_four(bytes + CHARGEFILE_LOGGED_AT_TALKED, logged.talked);
}

#ifdef __cplusplus
}
#endif

#endif /* CHARGEFILE_TARIFF_H */
