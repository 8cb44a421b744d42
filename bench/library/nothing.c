// A run that does nothing: what call.c costs by itself.
#include "uxoladun.h"

uint32_t uxoladun_run(uint64_t *records, size_t record_count, const uint8_t *log, size_t log_length,
                      const uint8_t *steps, size_t steps_length, size_t partitions, size_t workers,
                      uint64_t first_position, uint64_t *results, size_t results_length, uint8_t *outcomes,
                      size_t outcomes_length, uint64_t *counts, size_t counts_length) {
    (void)records, (void)record_count, (void)log, (void)log_length, (void)steps, (void)steps_length, (void)partitions;
    (void)workers, (void)first_position, (void)results, (void)results_length, (void)outcomes, (void)outcomes_length;
    (void)counts, (void)counts_length;
    return 0;
}
