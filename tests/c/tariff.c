/* The numbers of the tariff's header are the document's, and its functions write bands and records as
 * they are laid out. */
#include <string.h>

#include "from_cpp.h"
#include "groups.h"
#include "harness.h"
#include "pricing.h"

/* "at most 32 bands of 20 bytes", "unit in seconds (2, from 1 to 3,600)", "A log record is 16
 * bytes", "under 10 bytes a record" */
static void numbers(void)
{
    EXPECT_EQUAL(CHARGEFILE_BAND_SIZE, 20);
    EXPECT_EQUAL(CHARGEFILE_BANDS_MAX, 32);
    EXPECT_EQUAL(CHARGEFILE_TARIFF_MAX, 640);
    EXPECT_EQUAL(CHARGEFILE_UNIT_MIN, 1);
    EXPECT_EQUAL(CHARGEFILE_UNIT_MAX, 3600);
    EXPECT_EQUAL(CHARGEFILE_LOGGED_SIZE, 16);
    EXPECT_EQUAL(CHARGEFILE_PRICED_SIZE(0), 0);
    EXPECT_EQUAL(CHARGEFILE_PRICED_SIZE(16), 10);
    EXPECT_EQUAL(CHARGEFILE_PRICED_SIZE(16 * 256), 2560);
    EXPECT_EQUAL(CHARGEFILE_PRICED_SIZE((size_t)16 << 40), (size_t)10 << 40);
}

/* Each field of a band that is written here is found by its name. */
static void band_fields(void)
{
    uint8_t b[20];
    put_band(b, (band){250, 251, 0x0102, 0x03040506, 0x0708090A, 0x0B0C0D0E, 0xF0F1F2F3});
    EXPECT_EQUAL(b[CHARGEFILE_BAND_AT_CODE], 250);
    EXPECT_EQUAL(b[CHARGEFILE_BAND_AT_FREE], 251);
    EXPECT_EQUAL(chargefile_two(b + CHARGEFILE_BAND_AT_UNIT), 0x0102);
    EXPECT_EQUAL(chargefile_four(b + CHARGEFILE_BAND_AT_FEE), 0x03040506);
    EXPECT_EQUAL(chargefile_four(b + CHARGEFILE_BAND_AT_CHEAP), 0x0708090A);
    EXPECT_EQUAL(chargefile_four(b + CHARGEFILE_BAND_AT_STANDARD), 0x0B0C0D0E);
    EXPECT_EQUAL(chargefile_four(b + CHARGEFILE_BAND_AT_DEAR), 0xF0F1F2F3);
}

static void record_fields(void)
{
    uint8_t r[16];
    put_logged(r, (logged){0xF0010203, 0xF405, 6, 0xF708090A, 0xFB0C0D0E});
    EXPECT_EQUAL(chargefile_four(r + CHARGEFILE_LOGGED_AT_CALL), 0xF0010203);
    EXPECT_EQUAL(chargefile_two(r + CHARGEFILE_LOGGED_AT_EXTENSION), 0xF405);
    EXPECT_EQUAL(r[CHARGEFILE_LOGGED_AT_BAND], 6);
    EXPECT_EQUAL(r[CHARGEFILE_LOGGED_AT_ZERO], 0);
    EXPECT_EQUAL(CHARGEFILE_LOGGED_AT_ZERO, 7);
    EXPECT_EQUAL(chargefile_four(r + CHARGEFILE_LOGGED_AT_START), 0xF708090A);
    EXPECT_EQUAL(chargefile_four(r + CHARGEFILE_LOGGED_AT_TALKED), 0xFB0C0D0E);
}

/* The header's functions write the same bytes, and none behind them. */
static void written_by_the_header(void)
{
    uint8_t got[21], wanted[21];
    memset(got, 0xA5, sizeof got);
    memset(wanted, 0xA5, sizeof wanted);
    put_band(wanted, (band){250, 251, 0x0102, 0x03040506, 0x0708090A, 0x0B0C0D0E, 0xF0F1F2F3});
    chargefile_put_band(got, (chargefile_band){250, 251, 0x0102, 0x03040506, 0x0708090A, 0x0B0C0D0E,
                                               0xF0F1F2F3});
    EXPECT(memcmp(got, wanted, sizeof got) == 0);
    memset(got, 0xA5, sizeof got);
    memset(wanted, 0xA5, sizeof wanted);
    put_logged(wanted, (logged){0xF0010203, 0xF405, 6, 0xF708090A, 0xFB0C0D0E});
    chargefile_put_logged(got, (chargefile_logged){0xF0010203, 0xF405, 6, 0xF708090A, 0xFB0C0D0E});
    EXPECT(memcmp(got, wanted, sizeof got) == 0);
}

/* The same from C++. */
static void written_from_cpp(void)
{
    uint8_t got[21], wanted[21];
    memset(got, 0xA5, sizeof got);
    memset(wanted, 0xA5, sizeof wanted);
    put_band(wanted, (band){1, 2, 3, 0xF0040506, 0xF0070809, 0xF00A0B0C, 0xF00D0E0F});
    cpp_put_band(got, (chargefile_band){1, 2, 3, 0xF0040506, 0xF0070809, 0xF00A0B0C, 0xF00D0E0F});
    EXPECT(memcmp(got, wanted, sizeof got) == 0);
    put_logged(wanted, (logged){0xF0010203, 0xF405, 6, 0xF708090A, 0xFB0C0D0E});
    cpp_put_logged(got, (chargefile_logged){0xF0010203, 0xF405, 6, 0xF708090A, 0xFB0C0D0E});
    EXPECT(memcmp(got, wanted, sizeof got) == 0);
    EXPECT_EQUAL(cpp_priced_size(16 * 256), 2560);
}

void tariff_tests(void)
{
    test("tariff's header: its numbers", numbers);
    test("tariff's header: where the fields of a band stand", band_fields);
    test("tariff's header: where the fields of a log record stand", record_fields);
    test("tariff's header: what its functions write", written_by_the_header);
    test("tariff's header: what they write from C++", written_from_cpp);
}
