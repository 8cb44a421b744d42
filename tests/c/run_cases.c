// Runs the cases of a file through the library and prints what it answers: run_cases CASES_FILE
// reference/README.md says the form of the file and of the lines.
#include "uxoladun.h"
#include <inttypes.h>
#include <stdio.h>
#include <stdlib.h>
#include <string.h>

enum { RESULTS = UXOLADUN_RESULTS_LENGTH, OUTCOMES = UXOLADUN_OUTCOMES_LENGTH, COUNTS = UXOLADUN_COUNTS_LENGTH };
enum { PAST = 2 };
static const uint8_t *at, *end;

static void give_up(const char *why) {
    fprintf(stderr, "run_cases: %s\n", why);
    exit(2);
}

// ---- The file ----

static const uint8_t *load(const char *name, size_t *length) {
    FILE *file = fopen(name, "rb");
    if (!file || fseek(file, 0, SEEK_END)) give_up("no such file");
    *length = (size_t)ftell(file);
    rewind(file);
    uint8_t *data = malloc(*length + 1);
    if (!data || fread(data, 1, *length, file) != *length) give_up("the file cannot be read");
    fclose(file);
    return data;
}

// The next bytes, in memory of their own that ends where they end, so that a read past them can be noticed.
static uint8_t *next_bytes(size_t length) {
    if ((size_t)(end - at) < length) give_up("the file ends within a case");
    uint8_t *copy = malloc(length ? length : 1);
    if (!copy) give_up("no memory");
    memcpy(copy, at, length);
    at += length;
    return copy;
}

static uint64_t next_number(void) {
    uint8_t *bytes = next_bytes(8);
    uint64_t number = 0;
    for (int k = 7; k >= 0; k--) number = number << 8 | bytes[k];
    free(bytes);
    return number;
}

// ---- Arrays that the library writes: filled with a pattern, and longer than it may know ----

static uint64_t *patterned(size_t length) {
    uint64_t *array = malloc((length + PAST) * sizeof *array);
    if (!array) give_up("no memory");
    for (size_t k = 0; k < length + PAST; k++) array[k] = 1000 + k;
    return array;
}

static int keeps_pattern(const uint64_t *array, size_t from, size_t to) {
    for (size_t k = from; k < to; k++) if (array[k] != 1000 + k) return 0;
    return 1;
}

static int keeps_bytes(const uint8_t *array, size_t from, size_t to) {
    for (size_t k = from; k < to; k++) if (array[k] != 100 + k) return 0;
    return 1;
}

static void print_numbers(const char *name, const uint64_t *array, size_t length) {
    printf("%s", name);
    for (size_t k = 0; k < length; k++) printf(" %" PRIu64, array[k]);
    printf("\n");
}

// Index and number of those that are not 0.
static void print_few(const char *name, const uint64_t *array, size_t length) {
    printf("%s", name);
    for (size_t k = 0; k < length; k++) if (array[k]) printf(" %zu %" PRIu64, k, array[k]);
    printf("\n");
}

// ---- The two sorts of cases ----

static void check_case(void) {
    size_t records = (size_t)next_number(), length = (size_t)next_number();
    uint8_t *entry = next_bytes(length);
    uint64_t place = 1000;
    uint32_t number = uxoladun_check(entry, length, records, &place);
    printf("check %" PRIu32 " at %" PRIu64 "\n", number, place);
    free(entry);
}

static void run_case(void) {
    size_t partitions = (size_t)next_number(), workers = (size_t)next_number();
    uint64_t first = next_number();
    size_t record_count = (size_t)next_number();
    size_t log_length = (size_t)next_number(), steps_length = (size_t)next_number();
    uint64_t *records = patterned(record_count), *before = patterned(record_count);
    for (size_t r = 0; r < record_count; r++) records[r] = before[r] = next_number();
    uint8_t *log = next_bytes(log_length), *steps = next_bytes(steps_length), outcomes[OUTCOMES + PAST];
    uint64_t *results = patterned(RESULTS), *counts = patterned(COUNTS);
    for (size_t k = 0; k < sizeof outcomes; k++) outcomes[k] = (uint8_t)(100 + k);
    size_t lengths[] = {RESULTS, OUTCOMES, COUNTS};
    uint32_t number;
    int kept;
    // First with each length wrong in turn, by one too few or too many, then as they are.
    for (int wrong = 5; wrong >= -1; wrong--) {
        size_t given[] = {lengths[0], lengths[1], lengths[2]};
        if (wrong >= 0) given[wrong / 2] += wrong % 2 ? 1 : -1;
        number = uxoladun_run(records, record_count, log, log_length, steps, steps_length, partitions, workers, first,
                              results, given[0], outcomes, given[1], counts, given[2]);
        kept = !memcmp(records, before, record_count * sizeof *records) && keeps_pattern(results, 0, RESULTS)
            && keeps_bytes(outcomes, 0, OUTCOMES) && keeps_pattern(counts, 0, COUNTS);
        if (wrong >= 0 && (number != 1 || !kept)) printf("a wrong length is taken\n");
    }
    printf("run %" PRIu32 "%s\n", number, number && kept ? " all kept" : "");
    if (!number || !kept) {
        uint64_t wide[OUTCOMES];
        for (size_t k = 0; k < OUTCOMES; k++) wide[k] = outcomes[k];
        print_numbers("records", records, record_count);
        print_few("results", results, RESULTS);
        print_few("outcomes", wide, OUTCOMES);
        print_numbers("counts", counts, COUNTS);
    }
    if (!keeps_pattern(records, record_count, record_count + PAST) || !keeps_pattern(results, RESULTS, RESULTS + PAST)
        || !keeps_bytes(outcomes, OUTCOMES, OUTCOMES + PAST) || !keeps_pattern(counts, COUNTS, COUNTS + PAST))
        printf("written past the end\n");
    free(records), free(before), free(log), free(steps), free(results), free(counts);
}

int main(int count, char **arguments) {
    size_t length;
    if (count != 2) give_up("run_cases CASES_FILE");
    const uint8_t *data = at = load(arguments[1], &length);
    end = data + length;
    while (at < end) {
        uint64_t sort = next_number();
        if (sort == 1) check_case();
        else if (sort == 2) run_case();
        else give_up("a case of no known sort");
    }
    free((void *)data);
    return 0;
}
