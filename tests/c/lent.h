/*
 * What a run or dealing is lent, filled with patterns beforehand. The rooms are larger than what is
 * lent of them, so that a write past a lent length is seen as well. The output of dealing goes to
 * where the result of a run goes.
 */
#ifndef LENT_H
#define LENT_H

#include "chargefile.h"
#include "jobs.h"

enum { RESULT_ROOM = 41100, ROWS_ROOM = 300, MEMORY_ROOM = 25000 };

typedef struct lent {
    uint8_t result[RESULT_ROOM];
    chargefile_row rows[ROWS_ROOM];
    uint8_t memory[MEMORY_ROOM];
    size_t result_length, rows_length, memory_length;
} lent;

/* The one lent set: each lend fills it anew. */
extern lent set;

/* Lends so many bytes of output, rows and bytes of working memory. */
void lend_so_much(size_t result, size_t rows, size_t memory);

/* The least that this job's run may be lent. */
void lend(const job *j);

/* Calls the library with what is lent, and expects that the job's own bytes are kept. */
chargefile_outcome run(const job *j);
chargefile_outcome check(const job *j);

/* "refusal 0: done, and length is the output's; else its number, with place, and length 0" */
void expect_done(chargefile_outcome o, uint64_t length);
void expect_refusal(chargefile_outcome o, uint64_t number, uint64_t place);

/* 1 where result, rows and memory are as they were lent. */
int nothing_written(void);

/* 1 where the result ends after `total` bytes and the rest of the buffer is as it was lent; where
 * all lent rows and all lent memory are zero; and where nothing past what was lent is written. */
int left_as_after_a_run(size_t total);

/* Expects the refusal of a job from check and run, with `number` and `place`, and nothing written. */
void expect_refused(const job *j, uint64_t number, uint64_t place);

/* Expects that check and run accept the job, lent the least; `total` bytes of result, if not 0. */
void expect_run(const job *j, size_t total);

/* Expects that a run of the job with what is lent now is refused 11 with this place. */
void expect_too_small(const job *j, uint64_t place);

#endif
