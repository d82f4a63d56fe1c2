/* The groups of tests, a file each. */
#ifndef GROUPS_H
#define GROUPS_H

void header_tests(void);     /* the numbers of the header are the document's */
void limit_tests(void);      /* a count at its limit, and one past it */
void refusal_tests(void);    /* every row of the refusal table but 11 */
void page_fault_tests(void); /* rows 12, 6 and 13: their bytes, and their order */
void record_tests(void);     /* row 8: calls that belong in their page, and rise */
void output_tests(void);     /* row 11, and what is lent */
void kept_tests(void);       /* a refused job has written nothing, whatever its refusal */
void result_tests(void);     /* what a run writes */
void delete_tests(void);     /* a delete at a charge */
void pages_told_tests(void); /* the page told with an answer */
void rising_tests(void);     /* where a run puts a record, and where it finds one */
void key_tests(void);        /* where a call belongs, and calls that share a pseudo key */
void most_turns_tests(void); /* the turns that an insert uses at most, and waiting */
void misled_tests(void);     /* the turns that a search and a delete use at most */
void page_256_tests(void);   /* the last page there can be, and splits that lead to it */
void tidied_tests(void);     /* what tidying writes */
void not_tidied_tests(void); /* what tidying refuses */
void dealt_tests(void);      /* the turns that are dealt for a job */
void not_dealt_tests(void);  /* for which jobs none are dealt */
void tariff_tests(void);     /* the numbers of the tariff's header are the document's */
void priced_tests(void);     /* what the calls of a switch's log cost */
void not_priced_tests(void); /* which tariffs and logs are refused */

#endif
