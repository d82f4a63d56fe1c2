/*
 * Jobs written byte by byte, as the document lays them out. Sizes and offsets are worked out here
 * from its words and not from chargefile.h, so that the header is tested too.
 */
#ifndef JOBS_H
#define JOBS_H

#include <stddef.h>
#include <stdint.h>

enum { JOB_ROOM = 60000 };

typedef struct job {
    uint8_t bytes[JOB_ROOM];
    size_t length;
} job;

/* The counts of a header. */
typedef struct counts {
    unsigned depth, capacity, pages, in_use, operations, turns;
} counts;

/* Where the sections of a job begin, and its total. */
typedef struct layout {
    size_t directory, table, operations, turns, total;
} layout;

typedef struct record {
    uint32_t call, charge;
} record;

layout layout_of(counts c);

/* "24 + 12m + the charge file's length" */
size_t result_room(counts c);

void put_two(uint8_t *at, uint32_t number);
void put_four(uint8_t *at, uint32_t number);

/*
 * A job with these counts, laid out for them and sound but for a count outside its limits: the
 * pages in use are empty and all of one local depth, every operation is a search, and every turn
 * goes to the first operation.
 */
void make_job(job *j, counts c);

/* Parts of a job that was made. Pages count from 1, the others from 0. */
void put_entry(job *j, unsigned entry, unsigned page);
void put_page(job *j, unsigned page, unsigned depth, unsigned pattern, const record *records,
              unsigned count);

/* Every call has a charge of its own, and charges fall where calls rise, so that no charge lends its
 * order to a call. */
uint32_t charge_of(uint32_t call);

/* The charge file that one insert leaves which splits the only page, of depth 0, twice: entries 0 and
 * 1 name page 1, which has no record, entry 2 names page 2 and entry 3 page 3. Pages 2 and 3, of
 * depth 2, are still to be put. */
void make_split_twice(job *j, unsigned capacity);

/* A page with these calls, each with its own charge. */
void put_calls(job *j, unsigned page, unsigned depth, unsigned pattern, const uint32_t *calls,
               unsigned count);
void put_operation(job *j, unsigned operation, unsigned kind, uint32_t call, uint32_t charge);
void put_turn(job *j, unsigned turn, unsigned operation);

counts counts_of(const job *j);

/* Job E of the document with its first `turns` turns; it has 20. */
void make_job_e(job *j, unsigned turns);

/* The job of (C) to (F): g 2, c 2, one page of depth 0 with calls 1 and 5, so many pages, and one
 * operation that gets 20 turns. */
void make_full_page(job *j, unsigned pages, unsigned kind, uint32_t call, uint32_t charge);

#endif
