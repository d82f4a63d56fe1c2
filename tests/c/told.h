/* What a run has told: expectations about the result in the lent buffer, read off its bytes by the
 * offsets in its header. */
#ifndef TOLD_H
#define TOLD_H

#include "lent.h"

/* The page by its number, from 1; 0 where there is no answer yet. */
typedef struct answer {
    unsigned code, page, turns;
    uint32_t charge;
} answer;

/* Answer `operation` of the result. Its second byte is "the page number less one"; "For code 0 it
 * stays zero." */
void expect_answer(unsigned operation, answer wanted);

void expect_line(unsigned line, unsigned moment, unsigned operation);

/* The header: offsets "in that order with no gap", and 0 where there is no charge file. */
void expect_header(unsigned operations, unsigned lines, unsigned under_way, size_t file);

/* The charge file of the result is this one, to the byte, and is accepted as a job. */
void expect_file(const job *wanted);

#endif
