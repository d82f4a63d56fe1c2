/*
 * deal: writes a job that has operations and no turns with a turn list that finishes them all.
 *
 *     deal < unturned.job > job
 *
 * Exit status 0, and the job with its list on standard output. Exit status 1, the reason on
 * standard error and nothing on standard output, where the job is refused or has turns already.
 */
#include "job_files.h"

static const char NAME[] = "deal";

/* All that is lent is enough for every job: refusal 11 is never told. */
static uint8_t job[JOB_ROOM];
static uint8_t dealt[CHARGEFILE_DEAL_MAX];
static chargefile_row rows[CHARGEFILE_ROWS_MAX];
static uint8_t memory[CHARGEFILE_MEMORY_SIZE];

int main(int count, char **words)
{
    (void)words;
    if (count != 1) {
        fprintf(stderr, "usage: %s < JOB > JOB\n", NAME);
        return 1;
    }
    size_t length;
    if (!job_was_read(NAME, job, &length)) {
        return 1;
    }
    chargefile_outcome told = chargefile_deal(job, length, dealt, sizeof dealt, rows,
                                              CHARGEFILE_ROWS_MAX, memory, sizeof memory);
    return was_accepted(NAME, told) ? write_out(NAME, dealt, told.length) : 1;
}
