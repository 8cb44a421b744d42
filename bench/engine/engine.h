// The engine of document 01 in plain C, as a yardstick: every check at every call, for any state and any lent tables.
#ifndef ENGINE_H
#define ENGINE_H
#include <stdbool.h>
#include <stddef.h>
#include <stdint.h>

enum { MOST_RECORDS = 1024, MOST_PARTIES = 8, MOST_TRANSACTIONS = 64, SLOTS = 256, ENTRY = 88, NO_SLOT = 65535 };
#define NO_END UINT64_MAX

enum outcome { COMMITTED, ABORTED };
enum progress { UNPROCESSED, EXECUTING, COMPLETE };
enum phase { IDLE, READING, DECIDED };

struct action { uint8_t kind; uint16_t r, s; uint64_t c; };
struct transaction {
    uint8_t readcount, writecount, actioncount;
    uint16_t reads[4], writes[4];
    struct action actions[4];
};

struct version { uint64_t begin, end, contents; uint16_t previous; bool produced; };

// "Unprocessed, Executing by a named worker, or Complete with an outcome": `of` is that worker or that outcome.
struct row { uint8_t progress, of; };

// What a phase does not have is never looked at; a worker that a call makes idle is all zero.
struct worker {
    uint8_t phase, transaction, outcome;
    uint8_t valuecount, carries, fills;
    bool carried[4];
    uint64_t values[4], contents[4];
};

struct state {
    uint64_t next, batch;
    uint16_t records;
    uint8_t partitions, workers, size;
    uint8_t placed[MOST_PARTIES];
    struct row rows[MOST_TRANSACTIONS];
    struct worker crew[MOST_PARTIES];
};

// Lent tables, each with its length.
struct bytes { const uint8_t *at; size_t length; };
struct slots { uint16_t *at; size_t length; };
struct numbers { uint64_t *at; size_t length; };
struct versions { struct version *at; size_t length; };

// `at` is a refusal's place, or the position that is waited for.
enum result { ACCEPTED, WAITS, REFUSED };
struct answer { uint8_t result, number; uint64_t at; };

int unpack(const uint8_t *entry, uint64_t n, struct transaction *t);
struct answer make(struct state *s, uint64_t records, uint64_t partitions, uint64_t workers, uint64_t next);
struct answer open_batch(struct state *s, struct bytes log, struct slots newest, struct versions versions,
                         struct numbers results);
struct answer place(struct state *s, size_t p, struct bytes log, struct slots newest, struct versions versions);
struct answer claim(struct state *s, size_t w, size_t i);
struct answer advance(struct state *s, size_t w, struct bytes log, struct numbers records, struct slots newest,
                      struct versions versions, struct numbers results);
struct answer seal(struct state *s, struct numbers records, struct slots newest, struct versions versions);
#endif
