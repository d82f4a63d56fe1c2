/* The header as a C++ program sees it: called from from_cpp.cpp, told to the C tests. */
#ifndef FROM_CPP_H
#define FROM_CPP_H

#include "chargefile.h"

#ifdef __cplusplus
extern "C" {
#endif

chargefile_outcome cpp_check(const uint8_t *job, size_t job_length);
chargefile_outcome cpp_run(const uint8_t *job, size_t job_length, uint8_t *result,
                           size_t result_length, chargefile_row *rows, size_t rows_length,
                           uint8_t *memory, size_t memory_length);
chargefile_outcome cpp_tidy(const uint8_t *file, size_t file_length, uint64_t depth, uint8_t *out,
                            size_t out_length);
chargefile_outcome cpp_deal(const uint8_t *job, size_t job_length, uint8_t *out, size_t out_length,
                            chargefile_row *rows, size_t rows_length, uint8_t *memory,
                            size_t memory_length);
chargefile_outcome cpp_price(const uint8_t *tariff, size_t tariff_length, const uint8_t *log,
                             size_t log_length, uint8_t *out, size_t out_length);
void cpp_put_band(uint8_t *bytes, chargefile_band band);
void cpp_put_logged(uint8_t *bytes, chargefile_logged logged);
size_t cpp_priced_size(size_t log_length);
size_t cpp_result_size(const uint8_t *job, size_t job_length);
uint32_t cpp_answer_page(const uint8_t *answer);
size_t cpp_row_size(void);
size_t cpp_outcome_size(void);

#ifdef __cplusplus
}
#endif

#endif
