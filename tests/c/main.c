/* The header against the library, and both against the document. `.ci/c` builds and runs this. */
#include "groups.h"
#include "harness.h"

int main(void)
{
    header_tests();
    limit_tests();
    refusal_tests();
    page_fault_tests();
    record_tests();
    output_tests();
    kept_tests();
    result_tests();
    delete_tests();
    pages_told_tests();
    rising_tests();
    key_tests();
    most_turns_tests();
    misled_tests();
    page_256_tests();
    tidied_tests();
    not_tidied_tests();
    dealt_tests();
    not_dealt_tests();
    tariff_tests();
    priced_tests();
    not_priced_tests();
    return all_counted();
}
