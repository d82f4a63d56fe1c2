/*
 * Lists of turns written out piece by piece, before the job that has them is made, and runs whose
 * counts of turns used are held against the document's.
 */
#ifndef TURNS_H
#define TURNS_H

#include "lent.h"

/* The one list: begun anew, and so many turns more for an operation. */
void begin_list(void);
void give(unsigned operation, unsigned turns);

/* How many turns the list has. */
unsigned listed(void);

/* Runs the job, which was made for as many turns as the list has, with the list. Expects that it is
 * accepted, and that no operation has used more than expect_within says. */
void run_list(job *j);

/* "No search uses more than 2g + 3 turns, and no other operation more than 2^g + 4g + 6 that are
 * not waiting. The counts are those in the result." And none "uses more than 294". */
void expect_within(const job *j);

/* A test for every depth, 0 to 8, which stands behind its name. */
void test_depths(const char *name, void (*body)(unsigned depth));

/* Every operation is answered, and finished: there is a charge file. */
void expect_finished(const job *j);

/* The log has a line for each of so many operations, at these moments, "by moment, then
 * operation". */
void expect_log(const unsigned *moments, unsigned operations);

#endif
