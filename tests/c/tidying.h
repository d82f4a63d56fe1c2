/*
 * A charge file told page by page, and what comes of tidying it. The room is larger than what is
 * lent of it, so that a write past a lent length is seen as well.
 */
#ifndef TIDYING_H
#define TIDYING_H

#include "chargefile.h"
#include "jobs.h"

/* A page by its calls; each has its own charge. */
typedef struct page {
    unsigned depth, pattern, count;
    uint32_t calls[8];
} page;

/* A charge file with these pages, as many as are in use; every entry names the page whose pattern
 * begins it. Operations and turns are those of make_job. */
void make_file(job *j, counts c, const page *pages);

/* Where a file is tidied to: each tidying fills it anew with bytes of one value. */
enum { OUT_ROOM = 18000 };
extern uint8_t out[OUT_ROOM];

/* Expects that the file, at this depth and lent so much of `out`, comes to this, called from C and
 * from C++; and that its own bytes are kept, and those of `out` behind the length that is told. */
void expect_outcome(const job *file, uint64_t depth, size_t lent, chargefile_outcome told);
void expect_not_tidied(const job *file, uint64_t depth, size_t lent, uint64_t number,
                       uint64_t place);

/* Expects that the file comes to the wanted one, to the byte, and that it is accepted as a job. */
void expect_tidied(const job *file, uint64_t depth, size_t lent, const job *wanted);

#endif
