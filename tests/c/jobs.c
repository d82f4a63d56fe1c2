#include "jobs.h"

#include <assert.h>
#include <string.h>

#include "chargefile.h"

/* "Page, 4 + 8c bytes" */
static size_t page_length(counts c)
{
    return 4 + 8 * (size_t)c.capacity;
}

layout layout_of(counts c)
{
    layout l;
    l.directory = 32;
    l.table = l.directory + 2 * ((size_t)1 << c.depth);
    l.operations = l.table + c.pages * page_length(c);
    l.turns = l.operations + 10 * (size_t)c.operations;
    l.total = l.turns + 2 * (size_t)c.turns;
    return l;
}

size_t result_room(counts c)
{
    return 24 + 12 * (size_t)c.operations + layout_of(c).operations;
}

/* "Numbers are little-endian." */
void put_two(uint8_t *at, uint32_t number)
{
    at[0] = (uint8_t)(number % 256);
    at[1] = (uint8_t)(number / 256 % 256);
}

void put_four(uint8_t *at, uint32_t number)
{
    put_two(at, number % 65536);
    put_two(at + 2, number / 65536);
}

static void put_header(job *j, counts c)
{
    layout l = layout_of(c);
    put_two(j->bytes, 2);
    j->bytes[2] = (uint8_t)c.depth;
    j->bytes[3] = (uint8_t)c.capacity;
    put_two(j->bytes + 4, c.pages);
    put_two(j->bytes + 6, c.in_use);
    put_two(j->bytes + 8, c.operations);
    put_two(j->bytes + 10, c.turns);
    put_four(j->bytes + 12, (uint32_t)l.directory);
    put_four(j->bytes + 16, (uint32_t)l.table);
    put_four(j->bytes + 20, (uint32_t)l.operations);
    put_four(j->bytes + 24, (uint32_t)l.turns);
    put_four(j->bytes + 28, (uint32_t)l.total);
}

counts counts_of(const job *j)
{
    const uint8_t *b = j->bytes;
    counts c;
    c.depth = b[2];
    c.capacity = b[3];
    c.pages = b[4] + 256u * b[5];
    c.in_use = b[6] + 256u * b[7];
    c.operations = b[8] + 256u * b[9];
    c.turns = b[10] + 256u * b[11];
    return c;
}

void make_job(job *j, counts c)
{
    unsigned local = 0;
    while (local < c.depth && 2u << local <= c.in_use) {
        local++;
    }
    memset(j, 0, sizeof *j);
    j->length = layout_of(c).total;
    assert(j->length <= JOB_ROOM);
    put_header(j, c);
    for (unsigned e = 0; e < 1u << c.depth; e++) {
        put_entry(j, e, 1 + (e >> (c.depth - local)));
    }
    for (unsigned p = 1; p <= 1u << local && p <= c.pages; p++) {
        put_page(j, p, local, p - 1, NULL, 0);
    }
    for (unsigned i = 0; i < c.operations; i++) {
        put_operation(j, i, CHARGEFILE_SEARCH, i, 0);
    }
}

void put_entry(job *j, unsigned entry, unsigned page)
{
    put_two(j->bytes + layout_of(counts_of(j)).directory + 2 * entry, page);
}

void put_page(job *j, unsigned page, unsigned depth, unsigned pattern, const record *records,
              unsigned count)
{
    counts c = counts_of(j);
    uint8_t *at = j->bytes + layout_of(c).table + (page - 1) * page_length(c);
    at[0] = (uint8_t)depth;
    at[1] = (uint8_t)count;
    put_two(at + 2, pattern);
    for (unsigned r = 0; r < count; r++) {
        put_four(at + 4 + 8 * r, records[r].call);
        put_four(at + 8 + 8 * r, records[r].charge);
    }
}

void make_split_twice(job *j, unsigned capacity)
{
    counts c = {2, capacity, 3, 3, 0, 0};
    make_job(j, c);
    put_entry(j, 0, 1);
    put_entry(j, 1, 1);
    put_entry(j, 2, 2);
    put_entry(j, 3, 3);
    put_page(j, 1, 1, 0, NULL, 0);
}

uint32_t charge_of(uint32_t call)
{
    return ~call;
}

void put_calls(job *j, unsigned page, unsigned depth, unsigned pattern, const uint32_t *calls,
               unsigned count)
{
    record held[8];
    for (unsigned r = 0; r < count; r++) {
        held[r].call = calls[r];
        held[r].charge = charge_of(calls[r]);
    }
    put_page(j, page, depth, pattern, held, count);
}

void put_operation(job *j, unsigned operation, unsigned kind, uint32_t call, uint32_t charge)
{
    uint8_t *at = j->bytes + layout_of(counts_of(j)).operations + 10 * operation;
    at[0] = (uint8_t)kind;
    at[1] = 0;
    put_four(at + 2, call);
    put_four(at + 6, charge);
}

void put_turn(job *j, unsigned turn, unsigned operation)
{
    put_two(j->bytes + layout_of(counts_of(j)).turns + 2 * turn, operation);
}

void make_job_e(job *j, unsigned turns)
{
    static const unsigned list[20] = {1, 0, 0, 0, 0, 0, 0, 0, 2, 2, 2, 2, 2, 2, 3, 3, 3, 1, 0, 0};
    static const record held[2] = {{2, 50}, {3, 70}};
    counts c = {1, 2, 2, 1, 4, turns};
    make_job(j, c);
    put_page(j, 1, 0, 0, held, 2);
    put_operation(j, 0, CHARGEFILE_INSERT, 4, 90);
    put_operation(j, 1, CHARGEFILE_SEARCH, 3, 0);
    put_operation(j, 2, CHARGEFILE_DELETE, 3, 0);
    put_operation(j, 3, CHARGEFILE_SEARCH, 3, 0);
    for (unsigned t = 0; t < turns; t++) {
        put_turn(j, t, list[t]);
    }
}

void make_full_page(job *j, unsigned pages, unsigned kind, uint32_t call, uint32_t charge)
{
    static const record held[2] = {{1, 10}, {5, 20}};
    counts c = {2, 2, pages, 1, 1, 20};
    make_job(j, c);
    put_page(j, 1, 0, 0, held, 2);
    put_operation(j, 0, kind, call, charge);
}
