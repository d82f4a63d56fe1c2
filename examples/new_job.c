/*
 * new_job: makes a job of a charge file, with operations and turns that are told in lines of text.
 *
 *     new_job april.file < april.ops > april.job
 *
 * A line is one of these. Numbers are decimal. Operations stand first and are counted from 0, and a
 * turn names one by its number; turns may go on over many lines. An empty line says nothing.
 *
 *     insert CALL CHARGE
 *     search CALL
 *     delete CALL
 *     delete CALL CHARGE
 *     turns N N N ...
 *
 * A delete with a charge strikes the call out only if the file then has it at this charge. With no
 * charge, or with 0, it strikes the call out at any.
 *
 * Exit status 0, and the job on standard output. Exit status 1, the reason on standard error and
 * nothing on standard output, where the charge file is refused or a line is wrong.
 */
#include "job_files.h"

static const char NAME[] = "new_job";
static const char BLANKS[] = " \t\r\n";

/* The job as far as it is made: the charge file, and behind it operations, then turns. The charge
 * file was accepted, so there is room for as many of them as the limits allow. */
static uint8_t job[JOB_ROOM];
static size_t length;
static uint32_t operations, turns;

static void append_two(uint32_t number)
{
    chargefile_put_two(job + length, number);
    length += 2;
}

static void append_four(uint32_t number)
{
    chargefile_put_four(job + length, number);
    length += 4;
}

/* This and the next two give NULL, or what is wrong with the line. */
static const char *add_operation(unsigned kind)
{
    uint32_t call, charge = 0;
    bool sound = number_of(strtok(NULL, BLANKS), &call);
    const char *word = strtok(NULL, BLANKS);
    if (kind == CHARGEFILE_INSERT || (kind == CHARGEFILE_DELETE && word != NULL)) {
        sound = sound && number_of(word, &charge);
        word = strtok(NULL, BLANKS);
    }
    if (!sound || word != NULL) {
        return "a call belongs here, and for an insert a charge, which a delete may have too, "
               "0 to 4294967295 each";
    }
    if (turns > 0) {
        return "operations stand before turns";
    }
    if (operations == CHARGEFILE_OPERATIONS_MAX) {
        return "too many operations";
    }
    append_two(kind); /* and the zero byte */
    append_four(call);
    append_four(charge);
    operations++;
    return NULL;
}

static const char *add_turns(void)
{
    uint32_t operation;
    for (char *word = strtok(NULL, BLANKS); word != NULL; word = strtok(NULL, BLANKS)) {
        if (!number_of(word, &operation) || operation >= operations) {
            return "a turn names no operation";
        }
        if (turns == CHARGEFILE_TURNS_MAX) {
            return "too many turns";
        }
        append_two(operation);
        turns++;
    }
    return NULL;
}

/* A text that was cut off is refused, unless the cut is behind a line feed. */
static const char *add_line(char *line)
{
    static const char *const kinds[] = {"turns", "search", "insert", "delete"};
    size_t end = strlen(line);
    if (end == 0 || line[end - 1] != '\n') {
        return "it has no line feed, or a zero byte, or is too long";
    }
    const char *word = strtok(line, BLANKS);
    for (unsigned kind = 0; word != NULL && kind < 4; kind++) {
        if (strcmp(word, kinds[kind]) == 0) {
            return kind == 0 ? add_turns() : add_operation(kind);
        }
    }
    return word == NULL ? NULL : "it begins with none of the four words";
}

static bool add_lines(void)
{
    static char line[4096];
    for (unsigned number = 1; fgets(line, sizeof line, stdin) != NULL; number++) {
        const char *wrong = add_line(line);
        if (wrong != NULL) {
            fprintf(stderr, "%s: line %u: %s\n", NAME, number, wrong);
            return false;
        }
    }
    return was_read(NAME, stdin, "standard input");
}

static bool read_charge_file(const char *path)
{
    FILE *from = fopen(path, "rb");
    length = from == NULL ? 0 : fread(job, 1, sizeof job, from);
    if (!was_read(NAME, from, path) || !was_accepted(NAME, chargefile_check(job, length))) {
        return false;
    }
    if (length > chargefile_four(job + CHARGEFILE_AT_OPERATIONS_OFFSET)) {
        fprintf(stderr, "%s: %s has operations or turns: it is no charge file\n", NAME, path);
        return false;
    }
    return true;
}

/* Of the charge file's header, what is no longer so: two counts, an offset and the total. */
static void change_header(void)
{
    uint32_t begin = chargefile_four(job + CHARGEFILE_AT_OPERATIONS_OFFSET);
    chargefile_put_two(job + CHARGEFILE_AT_OPERATIONS, operations);
    chargefile_put_two(job + CHARGEFILE_AT_TURNS, turns);
    chargefile_put_four(job + CHARGEFILE_AT_TURNS_OFFSET, begin + CHARGEFILE_OPERATION_SIZE * operations);
    chargefile_put_four(job + CHARGEFILE_AT_TOTAL, (uint32_t)length);
}

int main(int count, char **words)
{
    if (count != 2) {
        fprintf(stderr, "usage: %s CHARGE-FILE < LINES > JOB\n", NAME);
        return 1;
    }
    if (!read_charge_file(words[1]) || !add_lines()) {
        return 1;
    }
    change_header();
    return write_out(NAME, job, length);
}
