/*
 * next_month: runs a job and writes the charge file that its result holds, for the month after.
 *
 *     next_month < march.job > april.file
 *
 * Exit status 0, and the charge file on standard output. Exit status 1, the reason on standard
 * error and nothing on standard output, where the job is refused, or where operations are under way
 * when the turns end: then there is no charge file, and the job needs more turns.
 */
#include "job_files.h"

static const char NAME[] = "next_month";

static uint8_t job[JOB_ROOM];
static uint8_t result[CHARGEFILE_RESULT_MAX];

/* The charge file stands last in a result: from its offset to the total. */
static int write_charge_file(void)
{
    uint32_t offset = chargefile_four(result + CHARGEFILE_RESULT_AT_FILE_OFFSET);
    uint32_t total = chargefile_four(result + CHARGEFILE_RESULT_AT_TOTAL);
    if (offset == 0) {
        fprintf(stderr, "%s: no charge file: operations under way: %" PRIu32 "\n", NAME,
                chargefile_two(result + CHARGEFILE_RESULT_AT_UNDER_WAY));
        return 1;
    }
    return write_out(NAME, result + offset, total - offset);
}

int main(int count, char **words)
{
    (void)words;
    if (count != 1) {
        fprintf(stderr, "usage: %s < JOB > CHARGE-FILE\n", NAME);
        return 1;
    }
    return was_run(NAME, job, result) ? write_charge_file() : 1;
}
