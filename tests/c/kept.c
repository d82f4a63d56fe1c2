/*
 * "Nothing lent is written": job E refused with every number, and with each place of 11, called from
 * C and from C++, and every byte of what it is lent and of the job itself compared with what was
 * there before.
 */
#include <string.h>

#include "from_cpp.h"
#include "groups.h"
#include "harness.h"
#include "lent.h"

typedef struct caller {
    chargefile_outcome (*check)(const uint8_t *, size_t);
    chargefile_outcome (*run)(const uint8_t *, size_t, uint8_t *, size_t, chargefile_row *, size_t,
                              uint8_t *, size_t);
} caller;

static const caller FROM_C = {chargefile_check, chargefile_run};
static const caller FROM_CPP = {cpp_check, cpp_run};

/* Job E with one byte changed (its first is 2 already), and by how much the job is cut and less is
 * lent than the least. */
typedef struct refused {
    const char *name;
    unsigned at, byte;
    unsigned job_less, result_less, rows_less, memory_less;
    unsigned number, place;
} refused;

static const refused REFUSED[] = {
    {"kept: refusal 1", 0, 2, 136, 0, 0, 0, CHARGEFILE_REFUSED_SHORT, 20},
    {"kept: refusal 2", 0, 1, 0, 0, 0, 0, CHARGEFILE_REFUSED_VERSION, 0},
    {"kept: refusal 3", 2, 9, 0, 0, 0, 0, CHARGEFILE_REFUSED_LIMIT, 2},
    {"kept: refusal 4", 20, 77, 0, 0, 0, 0, CHARGEFILE_REFUSED_OFFSET, 20},
    {"kept: refusal 5", 34, 2, 0, 0, 0, 0, CHARGEFILE_REFUSED_ENTRY, 34},
    {"kept: refusal 6", 37, 3, 0, 0, 0, 0, CHARGEFILE_REFUSED_PAGE, 36},
    {"kept: refusal 7", 36, 1, 0, 0, 0, 0, CHARGEFILE_REFUSED_OWNER, 34},
    {"kept: refusal 8, a call twice", 48, 2, 0, 0, 0, 0, CHARGEFILE_REFUSED_RECORD, 48},
    {"kept: refusal 8, a call that is lower", 48, 1, 0, 0, 0, 0, CHARGEFILE_REFUSED_RECORD, 48},
    {"kept: refusal 8, by the last byte", 43, 1, 0, 0, 0, 0, CHARGEFILE_REFUSED_RECORD, 48},
    {"kept: refusal 9", 92, 5, 0, 0, 0, 0, CHARGEFILE_REFUSED_OPERATION, 86},
    {"kept: refusal 10", 154, 4, 0, 0, 0, 0, CHARGEFILE_REFUSED_TURN, 154},
    {"kept: refusal 11, result", 0, 2, 0, 1, 0, 0, CHARGEFILE_REFUSED_OUTPUT, 0},
    {"kept: refusal 11, rows", 0, 2, 0, 0, 1, 0, CHARGEFILE_REFUSED_OUTPUT, 1},
    {"kept: refusal 11, memory", 0, 2, 0, 0, 0, 1, CHARGEFILE_REFUSED_OUTPUT, 2},
    {"kept: refusal 12", 38, 1, 0, 0, 0, 0, CHARGEFILE_REFUSED_PATTERN, 38},
    {"kept: refusal 13", 57, 1, 0, 0, 0, 0, CHARGEFILE_REFUSED_ZERO, 57},
};

static job j, job_before;
static lent set_before;

/* Bytes that differ from their neighbours, so that bytes moved about are seen too. */
static void fill(void *bytes, size_t count)
{
    uint8_t *b = bytes;
    for (size_t i = 0; i < count; i++) {
        b[i] = (uint8_t)(17 + 89 * i + i / 256);
    }
}

static void make_refused(const refused *r)
{
    make_job_e(&j, 20);
    lend(&j);
    fill(set.result, sizeof set.result);
    fill(set.rows, sizeof set.rows);
    fill(set.memory, sizeof set.memory);
    j.bytes[r->at] = (uint8_t)r->byte;
    j.length -= r->job_less;
    set.result_length -= r->result_less;
    set.rows_length -= r->rows_less;
    set.memory_length -= r->memory_less;
    job_before = j;
    set_before = set;
}

static void expect_all_kept(void)
{
    EXPECT(memcmp(j.bytes, job_before.bytes, sizeof j.bytes) == 0);
    EXPECT(memcmp(set.result, set_before.result, sizeof set.result) == 0);
    EXPECT(memcmp(set.rows, set_before.rows, sizeof set.rows) == 0);
    EXPECT(memcmp(set.memory, set_before.memory, sizeof set.memory) == 0);
}

static void expect_kept(const refused *r, const caller *from)
{
    make_refused(r);
    chargefile_outcome checked = from->check(j.bytes, j.length);
    if (r->number == CHARGEFILE_REFUSED_OUTPUT) {
        expect_done(checked, 0);
    } else {
        expect_refusal(checked, r->number, r->place);
    }
    expect_all_kept();
    expect_refusal(from->run(j.bytes, j.length, set.result, set.result_length, set.rows,
                             set.rows_length, set.memory, set.memory_length),
                   r->number, r->place);
    expect_all_kept();
}

void kept_tests(void)
{
    for (unsigned i = 0; i < sizeof REFUSED / sizeof REFUSED[0]; i++) {
        begin_test(REFUSED[i].name);
        expect_kept(&REFUSED[i], &FROM_C);
        expect_kept(&REFUSED[i], &FROM_CPP);
        end_test();
    }
}
