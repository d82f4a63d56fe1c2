/*
 * price: works out the charges of a switch's log by a tariff, and puts them behind a charge file as
 * inserts: a job without turns, which `deal` can deal.
 *
 *     price inn.tariff inn.log < charge.file > unturned.job
 *
 * A job has at most 256 operations, so a longer log is priced in parts of 256 records, 4,096 bytes
 * each, with the charge file that the job before has left. A longer one at once, or a tariff of more
 * than 32 bands, 640 bytes, is not taken.
 *
 * Exit status 0, and the job on standard output. Exit status 1, the reason on standard error and
 * nothing on standard output, where charge file, tariff or log is refused.
 */
#include "job_files.h"

static const char NAME[] = "price";

/* One byte more than the longest that is taken, so that a longer one is not cut to a sound one. */
static uint8_t tariff[CHARGEFILE_TARIFF_MAX + 1];
static uint8_t log_bytes[CHARGEFILE_LOGGED_SIZE * CHARGEFILE_OPERATIONS_MAX + 1];
static uint8_t job[JOB_ROOM];

/* Reads a file of `room` bytes at most. False where there are more, or it cannot be read. */
static bool all_was_read(const char *path, uint8_t *bytes, size_t room, size_t *length)
{
    FILE *from = fopen(path, "rb");
    *length = from == NULL ? 0 : fread(bytes, 1, room + 1, from);
    if (!was_read(NAME, from, path)) {
        return false;
    }
    if (*length > room) {
        fprintf(stderr, "%s: %s has more than %zu bytes\n", NAME, path, room);
        return false;
    }
    return true;
}

/* Reads the charge file from standard input. False where it is refused, or is none. */
static bool charge_file_was_read(size_t *length)
{
    if (!job_was_read(NAME, job, length) || !was_accepted(NAME, chargefile_check(job, *length))) {
        return false;
    }
    if (*length > chargefile_four(job + CHARGEFILE_AT_OPERATIONS_OFFSET)) {
        fprintf(stderr, "%s: standard input has operations or turns: it is no charge file\n", NAME);
        return false;
    }
    return true;
}

/* Puts the inserts behind the charge file of `begin` bytes. The job's length; 0 where they are
 * refused. Number and place are about the tariff or the log, and which it is is said too. */
static size_t put_inserts(size_t begin, size_t tariff_length, size_t log_length)
{
    chargefile_outcome told = chargefile_price(tariff, tariff_length, log_bytes, log_length,
                                               job + begin, sizeof job - begin);
    bool by_tariff = told.refusal == CHARGEFILE_REFUSED_TARIFF ||
                     (told.refusal == CHARGEFILE_REFUSED_SHORT &&
                      tariff_length % CHARGEFILE_BAND_SIZE != 0);
    const char *name = by_tariff ? "price: tariff" : "price: log";
    return was_accepted(name, told) ? begin + told.length : 0;
}

/* Of the charge file's header, what is no longer so: a count, an offset and the total. */
static void change_header(size_t begin, size_t end)
{
    uint32_t operations = (uint32_t)(end - begin) / CHARGEFILE_OPERATION_SIZE;
    chargefile_put_two(job + CHARGEFILE_AT_OPERATIONS, operations);
    chargefile_put_four(job + CHARGEFILE_AT_TURNS_OFFSET, (uint32_t)end);
    chargefile_put_four(job + CHARGEFILE_AT_TOTAL, (uint32_t)end);
}

int main(int count, char **words)
{
    size_t begin, tariff_length, log_length;
    if (count != 3) {
        fprintf(stderr, "usage: %s TARIFF LOG < CHARGE-FILE > JOB\n", NAME);
        return 1;
    }
    if (!all_was_read(words[1], tariff, CHARGEFILE_TARIFF_MAX, &tariff_length) ||
        !all_was_read(words[2], log_bytes, sizeof log_bytes - 1, &log_length) ||
        !charge_file_was_read(&begin)) {
        return 1;
    }
    size_t end = put_inserts(begin, tariff_length, log_length);
    if (end == 0) {
        return 1;
    }
    change_header(begin, end);
    return write_out(NAME, job, end);
}
