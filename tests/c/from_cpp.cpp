// The header must compile as C++, and its calls must link there: that is what `extern "C"` is for.
#include "from_cpp.h"

chargefile_outcome cpp_check(const uint8_t *job, size_t job_length)
{
    return chargefile_check(job, job_length);
}

chargefile_outcome cpp_run(const uint8_t *job, size_t job_length, uint8_t *result,
                           size_t result_length, chargefile_row *rows, size_t rows_length,
                           uint8_t *memory, size_t memory_length)
{
    return chargefile_run(job, job_length, result, result_length, rows, rows_length, memory,
                          memory_length);
}

chargefile_outcome cpp_tidy(const uint8_t *file, size_t file_length, uint64_t depth, uint8_t *out,
                            size_t out_length)
{
    return chargefile_tidy(file, file_length, depth, out, out_length);
}

chargefile_outcome cpp_deal(const uint8_t *job, size_t job_length, uint8_t *out, size_t out_length,
                            chargefile_row *rows, size_t rows_length, uint8_t *memory,
                            size_t memory_length)
{
    return chargefile_deal(job, job_length, out, out_length, rows, rows_length, memory,
                           memory_length);
}

chargefile_outcome cpp_price(const uint8_t *tariff, size_t tariff_length, const uint8_t *log,
                             size_t log_length, uint8_t *out, size_t out_length)
{
    return chargefile_price(tariff, tariff_length, log, log_length, out, out_length);
}

void cpp_put_band(uint8_t *bytes, chargefile_band band)
{
    chargefile_put_band(bytes, band);
}

void cpp_put_logged(uint8_t *bytes, chargefile_logged logged)
{
    chargefile_put_logged(bytes, logged);
}

size_t cpp_priced_size(size_t log_length)
{
    return CHARGEFILE_PRICED_SIZE(log_length);
}

size_t cpp_result_size(const uint8_t *job, size_t job_length)
{
    return chargefile_result_size(job, job_length);
}

uint32_t cpp_answer_page(const uint8_t *answer)
{
    return chargefile_answer_page(answer);
}

size_t cpp_row_size(void)
{
    return sizeof(chargefile_row);
}

size_t cpp_outcome_size(void)
{
    return sizeof(chargefile_outcome);
}
