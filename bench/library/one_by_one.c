// The transactions run one by one on the records, in plain C: every entry is checked as an opening checks it, and then
// each transaction runs to its end before the next. There are no versions and no workers; the steps are not looked at,
// and the counts stay as they are.
#include "uxoladun.h"
#include "../engine/engine.h"
#include <string.h>

// False where the action aborts.
static bool acts(const struct action *action, uint64_t *records) {
    uint64_t *r = records + action->r, *s = records + action->s, c = action->c, sum;
    switch (action->kind) {
    case 1: *r = c; return true;
    case 2: *r += c; return true;
    case 3:
        if (*r < c) return false;
        *r -= c;
        return true;
    case 4: *r = *s; return true;
    case 5:
        sum = *r + *s;
        *r = sum;
        *s = 0;
        return true;
    }
    return *r >= c;
}

// What an aborted transaction wrote is taken back.
static uint8_t runs(const struct transaction *t, uint64_t *records, uint64_t *values) {
    uint64_t before[4];
    for (size_t j = 0; j < t->readcount; j++) values[j] = records[t->reads[j]];
    for (size_t j = 0; j < t->writecount; j++) before[j] = records[t->writes[j]];
    for (size_t k = 0; k < t->actioncount; k++) {
        if (acts(&t->actions[k], records)) continue;
        for (size_t j = 0; j < t->writecount; j++) records[t->writes[j]] = before[j];
        return UXOLADUN_ABORTED;
    }
    return UXOLADUN_COMMITTED;
}

uint32_t uxoladun_run(uint64_t *records, size_t record_count, const uint8_t *log, size_t log_length,
                      const uint8_t *steps, size_t steps_length, size_t partitions, size_t workers,
                      uint64_t first_position, uint64_t *results, size_t results_length, uint8_t *outcomes,
                      size_t outcomes_length, uint64_t *counts, size_t counts_length) {
    struct transaction transactions[MOST_TRANSACTIONS];
    size_t n = log_length / ENTRY;
    (void)steps, (void)steps_length, (void)partitions, (void)workers, (void)first_position;
    (void)counts, (void)counts_length;
    if (n < 1 || n > MOST_TRANSACTIONS || log_length % ENTRY) return 2;
    for (size_t i = 0; i < n; i++) {
        int refusal = unpack(log + ENTRY * i, record_count, &transactions[i]);
        if (refusal) return (uint32_t)refusal;
    }
    memset(results, 0, results_length * sizeof *results);
    memset(outcomes, 0, outcomes_length);
    for (size_t i = 0; i < n; i++) outcomes[i] = runs(&transactions[i], records, results + 4 * i);
    return 0;
}
