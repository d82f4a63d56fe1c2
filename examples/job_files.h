/* What the programs of this folder share: inputs, outputs, numbers, how a refusal is told, and the
 * run of a job. */
#ifndef JOB_FILES_H
#define JOB_FILES_H

#include <inttypes.h>
#include <stdbool.h>
#include <stdio.h>
#include <stdlib.h>
#include <string.h>

#include "chargefile.h"

/* Room for a job. One byte more than the longest has, so that a longer one is not cut to a sound
 * one: its length is then not its total, and it is refused. */
#define JOB_ROOM (CHARGEFILE_JOB_MAX + 1)

/* Whether all that was wanted of an input was read; said on standard error where not. */
static inline bool was_read(const char *program, FILE *from, const char *name)
{
    if (from != NULL && !ferror(from)) {
        return true;
    }
    fprintf(stderr, "%s: %s cannot be read\n", program, name);
    return false;
}

/* Flushes standard output; the exit status. Said on standard error where it cannot be written. */
static inline int flush_out(const char *program)
{
    if (!ferror(stdout) && fflush(stdout) == 0) {
        return 0;
    }
    fprintf(stderr, "%s: standard output cannot be written\n", program);
    return 1;
}

/* Writes all bytes to standard output; the exit status. */
static inline int write_out(const char *program, const uint8_t *bytes, size_t length)
{
    fwrite(bytes, 1, length, stdout);
    return flush_out(program);
}

/* False where the word is no number of 32 bits, or there is no word. */
static inline bool number_of(const char *word, uint32_t *number)
{
    bool digits = word != NULL && *word != '\0' && strspn(word, "0123456789") == strlen(word);
    uint64_t value = digits ? strtoull(word, NULL, 10) : UINT64_MAX;
    *number = (uint32_t)value;
    return value <= UINT32_MAX;
}

/* Whether a call was not refused; if it was, says number, place and word (docs/FORMAT.md,
 * "Refusals"). No call tells a number that has no word here. */
static inline bool was_accepted(const char *program, chargefile_outcome told)
{
    static const char *const words[] = {
        [CHARGEFILE_REFUSED_SHORT] = "short",         [CHARGEFILE_REFUSED_VERSION] = "version",
        [CHARGEFILE_REFUSED_LIMIT] = "limit",         [CHARGEFILE_REFUSED_OFFSET] = "offset",
        [CHARGEFILE_REFUSED_ENTRY] = "entry",         [CHARGEFILE_REFUSED_PAGE] = "page",
        [CHARGEFILE_REFUSED_OWNER] = "owner",         [CHARGEFILE_REFUSED_RECORD] = "record",
        [CHARGEFILE_REFUSED_OPERATION] = "operation", [CHARGEFILE_REFUSED_TURN] = "turn",
        [CHARGEFILE_REFUSED_OUTPUT] = "output",       [CHARGEFILE_REFUSED_PATTERN] = "pattern",
        [CHARGEFILE_REFUSED_ZERO] = "zero",           [CHARGEFILE_REFUSED_BAND] = "band",
        [CHARGEFILE_REFUSED_CHARGE] = "charge",       [CHARGEFILE_REFUSED_TARIFF] = "tariff",
        [CHARGEFILE_REFUSED_PRESENT] = "present",     [CHARGEFILE_REFUSED_DEPTH] = "depth",
        [CHARGEFILE_REFUSED_DEALT] = "dealt",
    };
    if (told.refusal == CHARGEFILE_ACCEPTED) {
        return true;
    }
    fprintf(stderr, "%s: refused %" PRIu64 " %" PRIu64 ": %s\n", program, told.refusal, told.place,
            words[told.refusal]);
    return false;
}

/* Reads a job or a charge file from standard input, into JOB_ROOM bytes, and how long it is. False
 * where that fails, which is said on standard error. */
static inline bool job_was_read(const char *program, uint8_t *job, size_t *length)
{
    *length = fread(job, 1, JOB_ROOM, stdin);
    return was_read(program, stdin, "standard input");
}

/* Reads a job from standard input, into JOB_ROOM bytes, and runs it: its result, in
 * CHARGEFILE_RESULT_MAX bytes. False where that fails, which is said on standard error. */
static inline bool was_run(const char *program, uint8_t *job, uint8_t *result)
{
    static chargefile_row rows[CHARGEFILE_ROWS_MAX];
    static uint8_t memory[CHARGEFILE_MEMORY_SIZE];
    size_t length;
    if (!job_was_read(program, job, &length)) {
        return false;
    }
    return was_accepted(program, chargefile_run(job, length, result, CHARGEFILE_RESULT_MAX, rows,
                                                CHARGEFILE_ROWS_MAX, memory, sizeof memory));
}

#endif
