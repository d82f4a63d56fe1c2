/*
 * pages: runs a job and prints the page behind each answer, for whoever is to look into it.
 *
 *     pages < march.job
 *
 * A line for each operation: its number, kind and call, the answer in words, the charge, and the
 * page. chargefile_format.h says which page that is for each answer (chargefile_answer_page). Page 0
 * is no page: the operation has no answer yet.
 *
 * Exit status 0, and the lines on standard output. Exit status 1, the reason on standard error and
 * nothing on standard output, where the job is refused.
 */
#include "job_files.h"

static const char NAME[] = "pages";

static uint8_t job[JOB_ROOM];
static uint8_t result[CHARGEFILE_RESULT_MAX];

static void print_answer(uint32_t number, const uint8_t *operation, const uint8_t *answer)
{
    static const char *const kinds[] = {"", "search", "insert", "delete"};
    static const char *const codes[] = {
        "not yet", "found",  "none",     "stored",  "already there",
        "deleted", "absent", "no depth", "no page", "differs",
    };
    printf("op %" PRIu32 " %s %" PRIu32, number, kinds[operation[0]],
           chargefile_four(operation + 2));
    printf(" %s %" PRIu32 " page %" PRIu32 "\n", codes[answer[CHARGEFILE_ANSWER_AT_CODE]],
           chargefile_four(answer + CHARGEFILE_ANSWER_AT_CHARGE), chargefile_answer_page(answer));
}

/* Operations and answers stand in the same order. */
static int print_answers(void)
{
    uint32_t count = chargefile_two(result + CHARGEFILE_RESULT_AT_OPERATIONS);
    const uint8_t *operation = job + chargefile_four(job + CHARGEFILE_AT_OPERATIONS_OFFSET);
    const uint8_t *answer = result + chargefile_four(result + CHARGEFILE_RESULT_AT_ANSWERS_OFFSET);
    for (uint32_t number = 0; number < count; number++) {
        print_answer(number, operation, answer);
        operation += CHARGEFILE_OPERATION_SIZE;
        answer += CHARGEFILE_ANSWER_SIZE;
    }
    return flush_out(NAME);
}

int main(int count, char **words)
{
    (void)words;
    if (count != 1) {
        fprintf(stderr, "usage: %s < JOB\n", NAME);
        return 1;
    }
    return was_run(NAME, job, result) ? print_answers() : 1;
}
