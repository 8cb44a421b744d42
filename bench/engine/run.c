// The program of document 01 over the engine in C. setup.bin holds P and W, 2 and 2 without it; a third byte that is
// not 0 leaves out all lines but the counts, so that a seal can be measured without the lines that it makes.
#include "engine.h"
#include <fcntl.h>
#include <inttypes.h>
#include <stdio.h>
#include <string.h>
#include <unistd.h>

static uint8_t stored[8 * MOST_RECORDS + 8], log_bytes[ENTRY * (MOST_TRANSACTIONS + 1)], piece[65536];
static uint64_t record_table[MOST_RECORDS], result_table[SLOTS];
static uint16_t newest_table[MOST_RECORDS];
static struct version version_table[SLOTS];
static struct bytes batch;
static struct numbers records = {record_table, 0}, results = {result_table, SLOTS};
static struct slots newest = {newest_table, 0};
static struct versions versions = {version_table, SLOTS};
static struct state state;
static uint64_t steps, refusals, waits, first;
static uint8_t size;
static bool sealed;

// "A missing file counts as empty." What lies past the space is not needed to know that a length is wrong.
static size_t load(const char *name, uint8_t *space, size_t most) {
    int file = open(name, O_RDONLY);
    size_t have = 0;
    if (file < 0) return 0;
    for (ssize_t got; have < most && (got = read(file, space + have, most - have)) > 0;) have += (size_t)got;
    close(file);
    return have;
}

static uint64_t number_at(const uint8_t *b) {
    uint64_t number = 0;
    for (int k = 7; k >= 0; k--) number = number << 8 | b[k];
    return number;
}

static struct answer start(const uint8_t *setup) {
    size_t length = load("records.bin", stored, sizeof stored);
    size_t n = length % 8 ? 0 : length / 8;
    struct answer made = make(&state, n, setup[0], setup[1], 1);
    if (made.result == REFUSED) return made;
    for (size_t r = 0; r < n; r++) record_table[r] = number_at(stored + 8 * r);
    records.length = newest.length = n;
    batch = (struct bytes){log_bytes, load("log.bin", log_bytes, sizeof log_bytes)};
    struct answer opened = open_batch(&state, batch, newest, versions, results);
    first = state.next;
    size = state.size;
    return opened;
}

static struct answer offered(const uint8_t *step) {
    size_t party = step[1], i = step[2] | step[3] << 8;
    if (i && step[0] != 2) return (struct answer){REFUSED, 0, 0};
    switch (step[0]) {
    case 1: return place(&state, party, batch, newest, versions);
    case 2: return claim(&state, party, i);
    case 3: return advance(&state, party, batch, records, newest, versions, results);
    case 4: return seal(&state, records, newest, versions);
    }
    return (struct answer){REFUSED, 0, 0};
}

static void offer(const uint8_t *step) {
    struct answer answer = offered(step);
    steps++;
    refusals += answer.result == REFUSED;
    waits += answer.result == WAITS;
    if (step[0] == 4 && answer.result == ACCEPTED) sealed = true;
}

// "a short last step is dropped"; a step may lie across two pieces.
static void offer_all(void) {
    int file = open("steps.bin", O_RDONLY);
    size_t have = 0;
    if (file < 0) return;
    for (ssize_t got; (got = read(file, piece + have, sizeof piece - have)) > 0;) {
        size_t at = 0;
        have += (size_t)got;
        for (; at + 4 <= have; at += 4) offer(piece + at);
        have -= at;
        memmove(piece, piece + at, have);
    }
    close(file);
}

static void print_transaction(uint8_t i) {
    struct transaction t;
    unpack(log_bytes + ENTRY * i, state.records, &t);
    printf("tx %" PRIu64 " %s", first + i, state.rows[i].of == COMMITTED ? "committed" : "aborted");
    for (int k = 0; k < t.readcount; k++) printf(" %" PRIu64, result_table[4 * i + k]);
    printf("\n");
}

static void print_batch(void) {
    if (!sealed) {
        printf("not sealed\n");
        return;
    }
    for (uint8_t i = 0; i < size; i++) print_transaction(i);
    for (size_t r = 0; r < records.length; r++) printf("rec %zu %" PRIu64 "\n", r, record_table[r]);
}

int main(void) {
    uint8_t setup[3] = {2, 2, 0};
    load("setup.bin", setup, sizeof setup);
    struct answer opened = start(setup);
    if (opened.result == REFUSED) {
        printf("refused %d\n", opened.number);
        return 0;
    }
    offer_all();
    if (!setup[2]) print_batch();
    printf("steps %" PRIu64 " refused %" PRIu64 " waits %" PRIu64 "\n", steps, refusals, waits);
    return 0;
}
