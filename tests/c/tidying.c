#include "tidying.h"

#include <string.h>

#include "from_cpp.h"
#include "harness.h"
#include "lent.h"

enum { OUT_BYTE = 0xA5 };

uint8_t out[OUT_ROOM];

void make_file(job *j, counts c, const page *pages)
{
    make_job(j, c);
    for (unsigned x = 0; x < c.in_use; x++) {
        const page *p = &pages[x];
        put_calls(j, x + 1, p->depth, p->pattern, p->calls, p->count);
        for (unsigned e = 0; e < 1u << c.depth; e++) {
            if (e >> (c.depth - p->depth) == p->pattern) {
                put_entry(j, e, x + 1);
            }
        }
    }
}

/* The first byte from `written` on that is not as it was lent; OUT_ROOM where there is none. */
static size_t first_changed(size_t written)
{
    size_t i = written;
    while (i < OUT_ROOM && out[i] == OUT_BYTE) {
        i++;
    }
    return i;
}

void expect_outcome(const job *file, uint64_t depth, size_t lent, chargefile_outcome told)
{
    static job before;
    for (unsigned cpp = 0; cpp < 2; cpp++) {
        before = *file;
        memset(out, OUT_BYTE, sizeof out);
        chargefile_outcome o = cpp ? cpp_tidy(file->bytes, file->length, depth, out, lent)
                                   : chargefile_tidy(file->bytes, file->length, depth, out, lent);
        EXPECT_EQUAL(o.refusal, told.refusal);
        EXPECT_EQUAL(o.place, told.place);
        EXPECT_EQUAL(o.length, told.length);
        EXPECT_EQUAL(first_changed(told.length), OUT_ROOM);
        EXPECT(memcmp(before.bytes, file->bytes, sizeof before.bytes) == 0);
    }
}

void expect_not_tidied(const job *file, uint64_t depth, size_t lent, uint64_t number,
                       uint64_t place)
{
    expect_outcome(file, depth, lent, (chargefile_outcome){number, place, 0});
}

void expect_tidied(const job *file, uint64_t depth, size_t lent, const job *wanted)
{
    expect_outcome(file, depth, lent, (chargefile_outcome){CHARGEFILE_ACCEPTED, 0, wanted->length});
    EXPECT(memcmp(out, wanted->bytes, wanted->length) == 0);
    EXPECT_EQUAL(chargefile_four(out + CHARGEFILE_AT_TOTAL), wanted->length);
    expect_done(chargefile_check(out, wanted->length), 0);
}
