// Calls uxoladun_run so many times on one batch and prints what it gave at last: call FILE TIMES
// FILE is one case of uxoladun_run in the form that reference/README.md says. Each call gets the records anew.
#include "uxoladun.h"
#include <inttypes.h>
#include <stdio.h>
#include <stdlib.h>
#include <string.h>

enum { LONGEST = 1 << 20, MOST_RECORDS = 1024 };
static uint8_t file[LONGEST];
static uint64_t stored[MOST_RECORDS], records[MOST_RECORDS];
static uint64_t results[UXOLADUN_RESULTS_LENGTH], counts[UXOLADUN_COUNTS_LENGTH];
static uint8_t outcomes[UXOLADUN_OUTCOMES_LENGTH];

static uint64_t number_at(size_t k) {
    uint64_t number = 0;
    for (int b = 7; b >= 0; b--) number = number << 8 | file[8 * k + (size_t)b];
    return number;
}

static void print_numbers(const char *name, const uint64_t *array, size_t length) {
    printf("%s", name);
    for (size_t k = 0; k < length; k++) printf(" %" PRIu64, array[k]);
    printf("\n");
}

int main(int count, char **arguments) {
    FILE *from = count == 3 ? fopen(arguments[1], "rb") : NULL;
    if (!from || fread(file, 1, sizeof file, from) < 56) return 2;
    fclose(from);
    size_t record_count = number_at(4), log_length = number_at(5), steps_length = number_at(6);
    if (record_count > MOST_RECORDS) return 2;
    for (size_t r = 0; r < record_count; r++) stored[r] = number_at(7 + r);
    const uint8_t *log = file + 8 * (7 + record_count), *steps = log + log_length;
    uint32_t number = 0;
    for (long times = atol(arguments[2]); times > 0; times--) {
        memcpy(records, stored, record_count * sizeof *records);
        number = uxoladun_run(records, record_count, log, log_length, steps, steps_length, number_at(1), number_at(2),
                              number_at(3), results, UXOLADUN_RESULTS_LENGTH, outcomes, UXOLADUN_OUTCOMES_LENGTH,
                              counts, UXOLADUN_COUNTS_LENGTH);
    }
    printf("run %" PRIu32 "\n", number);
    print_numbers("records", records, record_count);
    print_numbers("results", results, UXOLADUN_RESULTS_LENGTH);
    for (size_t k = 0; k < sizeof outcomes; k++) printf("%d ", outcomes[k]);
    print_numbers("\ncounts", counts, UXOLADUN_COUNTS_LENGTH);
    return 0;
}
