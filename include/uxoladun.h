// Uxoladun from C: check one packed transaction, and run one batch from its opening to its last step.
//
// Both calls answer with document 01's refusal number, 0 for none. Neither keeps anything between calls, so calls at
// the same time do not disturb each other. Numbers within an entry, a log and steps are little-endian, those in arrays
// of numbers are the machine's own.
#ifndef UXOLADUN_H
#define UXOLADUN_H

#include <stddef.h>
#include <stdint.h>

#ifdef __cplusplus
extern "C" {
#endif

// How long the arrays must be that a run writes.
enum { UXOLADUN_RESULTS_LENGTH = 256, UXOLADUN_OUTCOMES_LENGTH = 64, UXOLADUN_COUNTS_LENGTH = 4 };

// What may be said of a transaction after a run.
enum { UXOLADUN_NOT_COMPLETE = 0, UXOLADUN_COMMITTED = 1, UXOLADUN_ABORTED = 2 };

// Which number of `counts` is which. Sealed is 1 if a seal was accepted, else 0.
enum { UXOLADUN_STEPS = 0, UXOLADUN_REFUSED = 1, UXOLADUN_WAITS = 2, UXOLADUN_SEALED = 3 };

// Checks one packed transaction for a store of `records` records.
//
// Answers 1 if `records` is not 1 to 1,024, 2 if `length` is not 88, then the first of 4 to 8 that the entry fails,
// else 0. `place` becomes the index of the transaction at fault; an entry that stands alone is transaction 0, so it
// becomes 0 in any case.
uint32_t uxoladun_check(const uint8_t *entry, size_t length, size_t records, uint64_t *place);

// Makes a store, opens the batch in `log` and offers it the steps in `steps`, all of them, 4 bytes each, in the form of
// the program's steps.bin. A step that is refused changes nothing and is counted. A short last step is dropped.
//
//   records         record_count numbers, the store's records. After an accepted seal: what the batch made of them
//   log             log_length bytes, one batch of packed transactions
//   steps           steps_length bytes
//   partitions      P, 1 to 8
//   workers         W, 1 to 8
//   first_position  the position of transaction 0, 1 to 2^64 - 1
//   results         256 numbers. From 4 i on stand the values that transaction i read, if it is complete, else zeros
//   outcomes        64 bytes. Byte i says what became of transaction i, as UXOLADUN_COMMITTED; past the last: 0
//   counts          4 numbers: steps offered, steps refused, waits, and whether the batch was sealed
//
// Answers 0 if the batch was opened, sealed or not. Otherwise the number that refuses the making or the opening, and
// then records, results, outcomes and counts keep their contents. Checked in this order: 1 the lengths of results,
// outcomes and counts, then record_count, partitions, workers and first_position; 2 log_length; 3 the positions; 4 to 8
// each transaction in turn.
//
// In crates/capi both calls are proved to give what the definitions in its specs/ say, for every input: `uxoladun_run`
// is Running.antt's `ran_of`. That a sealed batch's records and results are those of the transactions run one by one is
// proved of it in crates/promised. The proofs take for granted what C does not check: each pointer is to as many
// elements as the length with it says, aligned, not null even where the length is 0, and no array that is written
// overlaps another.
uint32_t uxoladun_run(uint64_t *records, size_t record_count, const uint8_t *log, size_t log_length,
                      const uint8_t *steps, size_t steps_length, size_t partitions, size_t workers,
                      uint64_t first_position, uint64_t *results, size_t results_length, uint8_t *outcomes,
                      size_t outcomes_length, uint64_t *counts, size_t counts_length);

#ifdef __cplusplus
}
#endif

#endif
