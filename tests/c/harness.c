#include "harness.h"

#include <inttypes.h>
#include <stdio.h>

static const char *name;
static unsigned expected; /* expectations of the test under way */
static unsigned unmet;
static unsigned passed;
static unsigned failed;

void begin_test(const char *its_name)
{
    name = its_name;
    expected = 0;
    unmet = 0;
}

void end_test(void)
{
    if (expected == 0) {
        printf("%s: FAILED: it expects nothing\n", name);
    }
    if (expected > 0 && unmet == 0) {
        passed++;
    } else {
        failed++;
    }
}

void test(const char *its_name, void (*body)(void))
{
    begin_test(its_name);
    body();
    end_test();
}

void expect_equal(const char *what, uint64_t got, uint64_t wanted, const char *file, int line)
{
    expected++;
    if (got == wanted) {
        return;
    }
    if (unmet == 0) {
        printf("%s: FAILED: %s is %" PRIu64 ", wanted %" PRIu64 " (%s:%d)\n", name, what, got,
               wanted, file, line);
    }
    unmet++;
}

int all_counted(void)
{
    printf("%u passed, %u failed\n", passed, failed);
    return passed > 0 && failed == 0 ? 0 : 1;
}
