/*
 * Turns dealt for a job: what comes of it, called from C and from C++, and what is lent afterwards.
 */
#ifndef DEALING_H
#define DEALING_H

#include "lent.h"

/* The least that dealing must be lent for this job: "the job's length and 20,476 bytes more", and
 * what a run needs of the rest. */
void lend_for_dealing(const job *j);

/* Expects that dealing, with what is lent now, refuses the job with number and place, and that
 * nothing is written. */
void expect_no_turns(const job *j, uint64_t number, uint64_t place);

/* Expects the same, however much is lent: enough, and nothing. */
void expect_not_dealt(const job *j, uint64_t number, uint64_t place);

/* Expects that dealing, with what is lent now, writes the job with as many turns as it tells, and
 * all else as it was. Rows and working memory "are left as after a run". The dealt job is put in
 * `dealt`. */
void expect_turns(const job *j, job *dealt);

/* Expects the same with the least lent, and that these are the turns. */
void expect_list(const job *j, const unsigned *list, unsigned count);

/* Expects that the job is accepted and runs to its end: "No turn of it waits, every operation has
 * an answer when it is run, and there is a charge file." */
void expect_all_finished(const job *dealt);

#endif
