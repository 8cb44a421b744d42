// The two calls of uxoladun.h over the engine in C of bench/engine. It is no part of the library: it stands in for it,
// so that the cases can be tried without one and are checked against a second implementation.
#include "uxoladun.h"
#include "../../bench/engine/engine.h"
#include <string.h>

// All that one run needs besides what its caller lends.
struct store {
    struct state state;
    struct version versions[SLOTS];
    uint16_t newest[MOST_RECORDS];
};

uint32_t uxoladun_check(const uint8_t *entry, size_t length, size_t records, uint64_t *place) {
    struct transaction meaning;
    *place = 0;
    if (records < 1 || records > MOST_RECORDS) return 1;
    if (length != ENTRY) return 2;
    return (uint32_t)unpack(entry, records, &meaning);
}

static struct answer offered(struct store *store, const uint8_t *step, struct bytes log, struct numbers records,
                             struct numbers results) {
    struct slots newest = {store->newest, records.length};
    struct versions versions = {store->versions, SLOTS};
    size_t party = step[1], i = step[2] | step[3] << 8;
    if (i && step[0] != 2) return (struct answer){REFUSED, 0, 0};
    switch (step[0]) {
    case 1: return place(&store->state, party, log, newest, versions);
    case 2: return claim(&store->state, party, i);
    case 3: return advance(&store->state, party, log, records, newest, versions, results);
    case 4: return seal(&store->state, records, newest, versions);
    }
    return (struct answer){REFUSED, 0, 0};
}

static uint8_t outcome_of(struct row row) {
    if (row.progress != COMPLETE) return UXOLADUN_NOT_COMPLETE;
    return row.of == COMMITTED ? UXOLADUN_COMMITTED : UXOLADUN_ABORTED;
}

uint32_t uxoladun_run(uint64_t *records, size_t record_count, const uint8_t *log, size_t log_length,
                      const uint8_t *steps, size_t steps_length, size_t partitions, size_t workers,
                      uint64_t first_position, uint64_t *results, size_t results_length, uint8_t *outcomes,
                      size_t outcomes_length, uint64_t *counts, size_t counts_length) {
    struct store store;
    struct bytes batch = {log, log_length};
    struct numbers stored = {records, record_count}, read = {results, SLOTS};
    if (results_length != UXOLADUN_RESULTS_LENGTH || outcomes_length != UXOLADUN_OUTCOMES_LENGTH
        || counts_length != UXOLADUN_COUNTS_LENGTH) return 1;
    struct answer answer = make(&store.state, record_count, partitions, workers, first_position);
    if (answer.result == REFUSED) return answer.number;
    answer = open_batch(&store.state, batch, (struct slots){store.newest, record_count},
                        (struct versions){store.versions, SLOTS}, read);
    if (answer.result == REFUSED) return answer.number;
    memset(counts, 0, 4 * sizeof *counts);
    for (size_t at = 0; at + 4 <= steps_length; at += 4) {
        answer = offered(&store, steps + at, batch, stored, read);
        counts[UXOLADUN_STEPS]++;
        counts[UXOLADUN_REFUSED] += answer.result == REFUSED;
        counts[UXOLADUN_WAITS] += answer.result == WAITS;
        if (steps[at] == 4 && answer.result == ACCEPTED) counts[UXOLADUN_SEALED] = 1;
    }
    for (size_t i = 0; i < MOST_TRANSACTIONS; i++) outcomes[i] = outcome_of(store.state.rows[i]);
    return 0;
}
