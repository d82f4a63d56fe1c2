/*
 * tidy: joins the thin pages of a charge file, and writes it with a directory of the wanted depth.
 *
 *     tidy 4 < march.file > april.file
 *
 * Exit status 0, and the tidied charge file on standard output. Exit status 1, the reason on
 * standard error and nothing on standard output, where the charge file is refused or has
 * operations, or where the wanted depth is above 8 or below that of a page left after joining.
 */
#include "job_files.h"

static const char NAME[] = "tidy";

/* The output is as long as the longest charge file: refusal 11 is never told. */
static uint8_t file[JOB_ROOM];
static uint8_t tidied[CHARGEFILE_FILE_MAX];

int main(int count, char **words)
{
    uint32_t depth;
    if (count != 2) {
        fprintf(stderr, "usage: %s DEPTH < CHARGE-FILE > CHARGE-FILE\n", NAME);
        return 1;
    }
    if (!number_of(words[1], &depth)) {
        fprintf(stderr, "%s: the wanted depth is a number, 0 to %u\n", NAME, CHARGEFILE_DEPTH_MAX);
        return 1;
    }
    size_t length;
    if (!job_was_read(NAME, file, &length)) {
        return 1;
    }
    chargefile_outcome told = chargefile_tidy(file, length, depth, tidied, sizeof tidied);
    return was_accepted(NAME, told) ? write_out(NAME, tidied, told.length) : 1;
}
