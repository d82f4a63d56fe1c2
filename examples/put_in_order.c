/*
 * put_in_order: puts the records of each page of a job or a charge file in order, by rising call.
 *
 *     put_in_order < found.file > april.file
 *
 * For pages that were put together by hand, or come from elsewhere. Nothing but the order of records
 * within a page is changed. Exit status 0, and the job on standard output. Exit status 1, the reason
 * on standard error and nothing on standard output, where there is another fault in it; the place of
 * a record is told as it is with its page in order.
 */
#include <stdlib.h>

#include "job_files.h"

static const char NAME[] = "put_in_order";

static uint8_t job[JOB_ROOM];

/* Calls are compared as numbers. */
static int by_call(const void *one, const void *other)
{
    uint32_t a = chargefile_four(one), b = chargefile_four(other);
    return (a > b) - (a < b);
}

/* The order of records is looked at late (docs/FORMAT.md, "Refusals"): where nothing is told before
 * it, the header and the fields of every page are sound. */
static void sort_pages(void)
{
    uint8_t *page = job + chargefile_four(job + CHARGEFILE_AT_TABLE_OFFSET);
    for (uint32_t x = 0; x < chargefile_two(job + CHARGEFILE_AT_IN_USE); x++) {
        qsort(page + CHARGEFILE_PAGE_HEAD_SIZE, page[CHARGEFILE_PAGE_AT_COUNT],
              CHARGEFILE_RECORD_SIZE, by_call);
        page += CHARGEFILE_PAGE_SIZE(job[CHARGEFILE_AT_CAPACITY]);
    }
}

int main(int count, char **words)
{
    (void)words;
    if (count != 1) {
        fprintf(stderr, "usage: %s < JOB > JOB\n", NAME);
        return 1;
    }
    size_t length;
    if (!job_was_read(NAME, job, &length)) {
        return 1;
    }
    chargefile_outcome told = chargefile_check(job, length);
    if (told.refusal == CHARGEFILE_REFUSED_RECORD) {
        sort_pages();
        told = chargefile_check(job, length);
    }
    return was_accepted(NAME, told) ? write_out(NAME, job, length) : 1;
}
