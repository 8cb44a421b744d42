"""The cases of what the calls do, of refusal 15, and those at random.

Each function whose name is in GENERATORS yields cases for cases_engine.py; its
first line says what it covers.
"""

import random
from dataclasses import replace

from case_files import LARGEST_NUMBER, transaction
from cases_decide import (EDGE_NUMBERS, SMALL_NUMBERS, add, copy, floor, move, random_transaction,
                          set_, take)
from counters import ABORTED, COMMITTED
from engine import (EMPTY, NO_SLOT, TABLE_LENGTH, Complete, Decided, Executing, Idle, Reading,
                    State, Tables, Unprocessed, Version, Worker, is_idle)
from engine_moments import (BATCH, Moment, adder, after, answered, any_step, carrier, case, done,
                            fresh, log_of, opened, planned, reader, run_through, tens,
                            useful_steps, with_chain, with_newest, with_placed, with_row,
                            with_state, with_tables, with_version, with_worker, writer)

OUTCOMES = (COMMITTED, ABORTED)


# Opening --------------------------------------------------------------------

def openings_of_each_size():
    """Opens of 1 to 4 and of 64 transactions, with N, P and W at their edges."""
    for size in (1, 2, 3, 4):
        for P, W in ((1, 1), (1, 8), (8, 1), (8, 8)):
            yield case(fresh([adder(0)] * size, P=P, W=W), "open")
    for N in (1, 1024):
        yield case(fresh([adder(N - 1)], N=N, records=(0,) * (N - 1) + (9,)), "open")
    yield case(fresh([adder(i % 4) for i in range(64)]), "open")
    yield case(fresh([carrier(0, 1, 2, 3)] * 64, W=8, P=8), "open")


def filled_up(moment):
    """Every table full of numbers, every row and worker with something left over."""
    versions = tuple(Version(k, k + 1, 256 - k, k + 2, k % 2 == 0) for k in range(TABLE_LENGTH))
    crew = tuple(Worker(Idle(), k, (k,) * 4, (k + 1,) * 4, (True,) * 4) for k in range(8))
    rows = tuple((Complete(ABORTED), Executing(k), Complete(COMMITTED))[k % 3] for k in range(64))
    moment = with_tables(moment, versions=versions, results=tuple(range(TABLE_LENGTH)),
                         newest=tuple(range(moment.state.N)))
    return with_state(moment, crew=crew, rows=rows)


def openings_over_what_was_left():
    """Opens that empty full tables, rows and workers; and refused ones that leave them."""
    yield case(filled_up(fresh([adder(0)])), "open")
    yield case(replace(filled_up(fresh([])), log=bytes(87)), "open")
    for k in (0, 1, 62, 63):
        for row in (Executing(k % 8), Complete(COMMITTED), Complete(ABORTED)):
            yield case(with_row(fresh([reader()]), k, row), "open")
    for slot in (0, 1, 254, 255):
        for changes in ({"begin": 1}, {"end": 1}, {"previous": 0}, {"contents": 1},
                        {"produced": True}):
            yield case(with_version(fresh([reader()]), slot, **changes), "open")
    for w in range(8):
        stale = with_worker(fresh([reader()], W=4), w, transaction=w, carried=(True,) * 4)
        yield case(stale, "open")


# Place ----------------------------------------------------------------------

def places_of_0_to_4_writes():
    """Places of 0 to 4 writes, in the first and in a later transaction, none preceded."""
    for P in (1, 2, 3, 4):
        for count in range(5):
            for first in (0, 1):
                records = tuple(range(first, first + count))
                moment = opened([writer(*records)], N=5, P=P)
                for p in range(P):
                    yield case(moment, "place", p)


def places_after_others():
    """Places of 0 to 4 writes after entries of the same records, produced or not."""
    for count in range(5):
        log = [writer(0, 1, 2, 3), writer(2, 3), writer(*range(count))]
        for P in (1, 2):
            moment = opened(log, P=P)
            for p in range(P):
                moment = after(moment, ("place", p), ("place", p))
                yield case(moment, "place", p)
        odd = with_version(with_version(moment, 0, produced=True, contents=5, end=77), 5, begin=99)
        yield case(odd, "place", 0)


def places_over_what_was_left():
    """Places keep an entry's contents, whatever else stands in it."""
    moment = opened([reader(), writer(0, 1, 2, 3)], P=1)
    moment = after(moment, ("place", 0))
    for slot in (4, 5, 7):
        for left in (Version(9, 8, 7, 6, True), Version(0, 0, 0, LARGEST_NUMBER, False)):
            versions = moment.tables.versions[:slot] + (left,) + moment.tables.versions[slot + 1 :]
            yield case(with_tables(moment, versions=versions), "place", 0)
    yield case(filled_up_but_newest(moment), "place", 0)


def filled_up_but_newest(moment):
    return with_tables(filled_up(moment), newest=moment.tables.newest)


def slots_met_in_placing():
    """15 of place: slots met that are not below the write's own, at each write; and those below."""
    log = [writer(0, 1, 2, 3)] * 3
    moment = with_state(opened(log, P=1), placed=(1,) + (0,) * 7)
    for j in range(4):
        own = 4 + j
        for met in (0, 3, 4, own - 1, own, own + 1, 8, 11, 12, 255, 256, 65_534):
            yield case(with_newest(moment, j, met), "place", 0)


def slots_met_in_other_places():
    """15 of place: among several writes; and bad slots of records that the step does not place."""
    log = [writer(0, 1, 2, 3)] * 3
    for p in (0, 1):
        moment = with_state(opened(log, P=2), placed=(1, 1) + (0,) * 6)
        for record in range(4):
            yield case(with_newest(moment, record, 65_534), "place", p)
            yield case(with_newest(moment, record, 4 + record), "place", p)
    moment = opened([writer(1, 3)], P=2)
    for record in range(4):
        yield case(with_newest(moment, record, 12), "place", 1)
        yield case(with_newest(moment, record, 0), "place", 1)


def links_within_one_transaction():
    """Places where the slot met is an earlier one of the same transaction."""
    moment = opened([writer(0, 1, 2, 3)] * 2, P=1)
    for j, met in ((1, 0), (2, 0), (2, 1), (3, 0), (3, 2)):
        yield case(with_newest(moment, j, met), "place", 0)
    both = with_newest(with_newest(with_newest(moment, 1, 0), 2, 0), 3, 0)
    yield case(both, "place", 0)
    yield case(with_newest(with_newest(opened([writer(0, 1, 2, 3)], P=2), 2, 1), 3, 1), "place", 0)


def places_of_the_last_of_64():
    """Places at transaction 63: slots 252 to 255, and the last count before planning ends."""
    moment = opened([reader()] * 63 + [writer(0, 1, 2, 3)], P=1)
    moment = with_placed(moment, 0, 63)
    yield case(moment, "place", 0)
    for record, met in ((3, 254), (3, 255), (0, 252), (0, 251), (1, 256)):
        yield case(with_newest(moment, record, met), "place", 0)


def places_at_the_last_positions():
    """Places whose positions are the largest there are."""
    for start in (LARGEST_NUMBER - 2, 2**63 - 1, 2**32 - 1, 2**16 - 1):
        moment = after(opened([writer(0), writer(0, 1)], P=1, start=start), ("place", 0))
        yield case(moment, "place", 0)


# Claim ----------------------------------------------------------------------

def claims_of_each():
    """Claims by each of 8 workers, of each transaction, with the others free or taken."""
    moment = planned([adder(0)] * 3, W=8)
    for w in range(8):
        yield case(moment, "claim", w, w % 3)
    for i in range(3):
        others = [k for k in range(3) if k != i]
        taken = after(moment, ("claim", 7, others[0]), ("claim", 0, others[1]))
        yield case(taken, "claim", 3, i)
    last = planned([reader()] * 64, W=8, P=8)
    yield case(last, "claim", 7, 63)


# Reads and carries: the walk ------------------------------------------------

WALKER = 2              # the transaction that walks, at position F + 2 = 3
LATER = (20, 16, 12)    # slots of transactions 5, 4 and 3, begun after it
EARLIER = 4             # a slot of transaction 1, begun before it


def six_with(walking, **store):
    """Six transactions, the third of them claimed by worker 0, and no version in the tables."""
    log = [reader()] * 6
    log[WALKER] = walking
    moment = after(planned(log, P=1, **store), ("claim", 0, WALKER))
    return with_tables(moment, newest=(NO_SLOT,) * moment.state.N,
                       versions=(EMPTY,) * TABLE_LENGTH)


def reading_at(k, **store):
    """A worker about to read record k, its k-th read of four."""
    moment = six_with(reader(0, 1, 2, 3), **store)
    return with_worker(moment, 0, phase=Reading(k), values=(91, 92, 93, 94))


def carrying_at(j, carried=(True,) * 4, **store):
    """A worker about to carry record j, its j-th write of four."""
    moment = six_with(transaction((), (0, 1, 2, 3), ()), **store)
    phase = Decided(OUTCOMES[j % 2], 0, sum(carried[:j]), 0)
    return with_worker(moment, 0, phase=phase, contents=(81, 82, 83, 84), carried=carried)


def chains(moment, record):
    """The record's version at depth 1 to 4, found or not yet produced; or the stored one."""
    for depth in range(1, 5):
        later = list(LATER[4 - depth :])
        found = with_chain(moment, record, later + [EARLIER])
        yield found
        yield with_version(found, EARLIER, produced=False)
        if later:
            yield with_chain(moment, record, later)
    yield moment


def walks_of_each_depth():
    """Reads and carries at each place: stored, found and waiting at depth 1 to 4."""
    for place in range(4):
        for walking in (reading_at(place), carrying_at(place)):
            for moment in chains(walking, place):
                yield case(moment, "advance", 0)


def carries_among_fills():
    """Carries of some writes only: the next marked one takes the value."""
    for marks in range(1, 16):
        carried = tuple(bool(marks >> place & 1) for place in range(4))
        for j in range(4):
            if carried[j]:
                yield case(carrying_at(j, carried), "advance", 0)


def begins_around_the_position():
    """The version met begins just before, at and after the position, and at the edges."""
    for start in (1, LARGEST_NUMBER - 6):
        t = start + WALKER
        for begin in sorted({0, start, t - 1, t, t + 1, LARGEST_NUMBER}):
            for walking in (reading_at(1, start=start), carrying_at(1, start=start)):
                for produced in (True, False):
                    moment = with_chain(walking, 1, [8])
                    yield case(with_version(moment, 8, begin=begin, produced=produced),
                               "advance", 0)


def newest_slots_that_are_bad():
    """15 of advance: a newest slot that is neither 65,535 nor below 4n, and the last below."""
    for walking in (reading_at(1), carrying_at(1)):
        for slot in (0, 8, 23, 24, 25, 255, 256, 32_768, 65_534):
            yield case(with_newest(walking, 1, slot), "advance", 0)
            yield case(with_newest(walking, 2, slot), "advance", 0)      # not the record it reads


def chains_that_do_not_fall():
    """15 of advance: at each depth a previous slot that stays, rises, loops or is too large."""
    for walking in (reading_at(1), carrying_at(2)):
        record = 1 if isinstance(walking.state.crew[0].phase, Reading) else 2
        for depth in (2, 3, 4):
            later = list(LATER[4 - depth :])
            for previous in (11, 12, 13, 16, 20, 23, 24, 256, 65_534):
                yield case(with_chain(walking, record, later, last=previous), "advance", 0)


def links_that_are_not_followed():
    """No 15: bad links behind the version that is found or waited for."""
    for walking in (reading_at(0), carrying_at(0)):
        for previous in (EARLIER, 5, 24, 65_534):
            for produced in (True, False):
                moment = with_chain(walking, 0, [12, EARLIER], last=previous)
                yield case(with_version(moment, EARLIER, produced=produced), "advance", 0)


def chains_that_fall_by_one():
    """Chains through neighbouring slots, down to slot 0."""
    for walking in (reading_at(1), carrying_at(1)):
        for slots in ([11, 10, 9, 8, 7], [1, 0], [23, 22, 21, 20, 19, 18, 0], [9, 8]):
            yield case(with_chain(walking, 1, slots), "advance", 0)


def chains_of_64():
    """Walks along 63 versions of one record, to the stored one, and to a bad last link."""
    log = [adder(0)] + [writer(0)] * 63
    moment = after(planned(log, P=1, N=1), ("claim", 0, 0))
    yield case(moment, "advance", 0)
    for previous in (4, 256, 0):
        yield case(with_version(moment, 4, previous=previous), "advance", 0)


def walks_at_record_1023():
    """Reads and carries of the first and the last record of 1,024, stored and found."""
    for record in (0, 1023):
        for meaning, phase in ((reader(record), Reading(0)),
                               (writer(record), Decided(COMMITTED, 0, 0, 0))):
            moment = planned([writer(record), meaning], N=1024, P=7,
                             records=(5,) + (0,) * 1022 + (9,))
            moment = with_worker(after(run_through(moment, 0, 0), ("claim", 1, 1)), 1, phase=phase,
                                 carried=(isinstance(phase, Decided),) + (False,) * 3)
            yield case(moment, "advance", 1)
            yield case(with_newest(moment, record, NO_SLOT), "advance", 1)


def reads_of_a_run():
    """Reads one after the other, of what earlier transactions wrote, carried or have not done."""
    log = [writer(0, 1), transaction((), (1, 2), ()), reader(0, 1, 2, 3)]
    moment = planned(log)
    for complete in (0, 1, 2):
        if complete:
            moment = run_through(moment, 0, complete - 1)
        reading = after(moment, ("claim", 1, 2))
        for _ in range(5):
            yield case(reading, "advance", 1)
            _, reading = answered(reading, "advance", 1)
            if is_idle(reading.state.crew[1]):
                break


# Deciding -------------------------------------------------------------------

def about_to_decide(meaning, values, i=1):
    """Worker 1 holds transaction i of two and has read all."""
    log = [reader(), meaning] if i else [meaning, reader()]
    moment = after(planned(log, P=1, N=5), ("claim", 1, i))
    return with_worker(moment, 1, phase=Reading(meaning.read_count), values=tuple(values))


def decisions_of_each_sort():
    """Decisions committed and aborted, of 0 to 4 writes, with values past the read count."""
    for count in range(5):
        records = tuple(range(count))
        for i in (0, 1):
            for value in (4, 5):
                meaning = transaction((3,), records, [floor(3, 5)])
                yield case(about_to_decide(meaning, (value, 7, 8, 9), i), "advance", 1)
            meaning = transaction(records, records, [add(record, 5) for record in records])
            yield case(about_to_decide(meaning, (1, 2, 3, LARGEST_NUMBER), i), "advance", 1)


def decisions_of_each_kind():
    """Each kind decided, with stale contents and marks in the worker."""
    for action in (set_(1, 9), add(1, LARGEST_NUMBER), take(1, 6), take(1, 5), copy(1, 2),
                   move(1, 2), move(1, 1), floor(1, 5), floor(1, 6)):
        moment = about_to_decide(transaction((1, 2), (1, 2, 4), [action]), (5, 7, 1, 1))
        yield case(with_worker(moment, 1, contents=(1, 2, 3, 4), carried=(False, True, True, True)),
                   "advance", 1)


def decisions_without_writes():
    """A decision with no writes completes: results of 0 to 4 values, then zeros, whatever stood."""
    for count in range(5):
        for outcome in OUTCOMES:
            records = tuple(range(count))
            actions = [floor(0, 100)] if count and outcome == ABORTED else []
            for i in (0, 1):
                moment = about_to_decide(transaction(records, (), actions), (11, 12, 13, 14), i)
                results = tuple(range(100, 116)) + (0,) * 240
                yield case(with_tables(moment, results=results), "advance", 1)


def random_decisions():
    """Proper transactions decided on values at random."""
    chance = random.Random(15)
    for numbers in (SMALL_NUMBERS, EDGE_NUMBERS):
        for _ in range(25):
            meaning = random_transaction(chance, range(5), numbers)
            values = [chance.choice(numbers) for _ in range(4)]
            yield case(about_to_decide(meaning, values), "advance", 1)


# Filling, and workers that do not fit ---------------------------------------

def decided(reads, writes, phase, carried=(False,) * 4):
    """Worker 0 decided, at transaction 1 of two, with so many reads and writes."""
    log = [reader(), transaction(tuple(range(reads)), tuple(range(writes)), ())]
    moment = after(planned(log, P=1), ("claim", 0, 1))
    return with_worker(moment, 0, phase=phase, values=(21, 22, 23, 24), contents=(31, 32, 33, 34),
                       carried=carried)


def fills_of_each_write():
    """Fills of each write of 1 to 4, the last of which completes, with both outcomes."""
    for writes in range(1, 5):
        for fills in range(writes):
            for outcome in OUTCOMES:
                for reads in (0, writes):
                    phase = Decided(outcome, reads, 0, fills)
                    yield case(decided(reads, writes, phase), "advance", 0)


def fills_after_carries():
    """Fills once all marked writes are carried."""
    for writes in (1, 2, 4):
        for marked in (1, writes):
            carried = (True,) * marked + (False,) * (4 - marked)
            for fills in range(writes):
                phase = Decided(ABORTED, 1, marked, fills)
                yield case(decided(1, writes, phase, carried), "advance", 0)


def fills_over_what_was_left():
    """Fills change contents and the mark alone; the last one writes four results alone."""
    for fills in (0, 1):
        moment = decided(2, 2, Decided(COMMITTED, 2, 0, fills))
        for changes in ({"begin": 9, "end": 8, "previous": 65_534},
                        {"produced": True, "contents": 5}, {"begin": 0, "previous": 0}):
            for slot in (4, 5, 6):
                yield case(with_version(moment, slot, **changes), "advance", 0)
        yield case(with_tables(moment, results=tuple(range(50, 50 + TABLE_LENGTH))), "advance", 0)


def completions_of_the_last_of_64():
    """The last fill and a decision without writes at transaction 63: results 252 to 255."""
    for last, phase in ((carrier(0, 1, 2, 3), Decided(ABORTED, 4, 0, 3)),
                        (reader(0, 1, 2), Reading(3))):
        moment = after(planned([reader()] * 63 + [last], W=8), ("claim", 7, 63))
        yield case(with_worker(moment, 7, phase=phase, values=(21, 22, 23, 24)), "advance", 7)


def fewer_values_than_reads():
    """A decided worker with fewer values than declared reads goes on (reading 4)."""
    for reads in range(1, 5):
        for values in range(reads):
            yield case(decided(reads, 1, Decided(COMMITTED, values, 0, 0)), "advance", 0)
            yield case(decided(reads, 2, Decided(ABORTED, values, 1, 0),
                               (True, True, False, False)), "advance", 0)


def more_values_than_reads():
    """15: a reading and a decided worker with more values than declared reads, and as many."""
    for reads in range(4):
        for values in range(reads, 5):
            for phase in (Reading(values), Decided(COMMITTED, values, 0, 0)):
                yield case(decided(reads, 2, phase), "advance", 0)


def marks_past_the_count():
    """15: a carry mark past the write count, at a carry, a fill and when none is left."""
    for writes in range(4):
        for place in range(writes, 4):
            carried = tuple(k == place for k in range(4))
            for carries, fills in ((0, 0), (1, 0), (1, writes)):
                yield case(decided(1, writes, Decided(COMMITTED, 1, carries, fills), carried),
                           "advance", 0)


def marks_of_a_reading_worker():
    """No 15: marks past the write count of a worker that has not decided."""
    for writes in (0, 2):
        for values in (0, 1):
            yield case(decided(1, writes, Reading(values), (True,) * 4), "advance", 0)


def more_carries_than_marks():
    """15: more carries done than marks."""
    for marked in range(5):
        carried = (False,) * (4 - marked) + (True,) * marked
        for carries in range(marked, 5):
            yield case(decided(0, 4, Decided(ABORTED, 0, carries, 0), carried), "advance", 0)


def fills_before_the_last_carry():
    """15: a fill done before the last carry."""
    for marked in range(1, 5):
        carried = (True,) * marked + (False,) * (4 - marked)
        for carries in range(marked):
            for fills in (0, 1, 4):
                yield case(decided(0, 4, Decided(ABORTED, 0, carries, fills), carried),
                           "advance", 0)


def no_fill_left():
    """15: a decided worker that has filled all its writes, or has none."""
    for writes in range(5):
        for fills in range(writes, 5):
            for marked in sorted({0, writes}):
                carried = (True,) * marked + (False,) * (4 - marked)
                phase = Decided(COMMITTED, 1, marked, fills)
                yield case(decided(1, writes, phase, carried), "advance", 0)


def workers_at_random():
    """15 or not: decided workers with counts and marks at random."""
    chance = random.Random(4)
    for _ in range(70):
        reads, writes = chance.randint(0, 4), chance.randint(0, 4)
        carried = tuple(place < writes and chance.random() < 0.5 for place in range(4))
        carries = chance.choice((sum(carried), sum(carried), chance.randint(0, 4)))
        phase = Decided(chance.choice(OUTCOMES), chance.randint(0, reads), carries,
                        chance.choice((0, 0, chance.randint(0, 4))))
        yield case(decided(reads, writes, phase, carried), "advance", 0)


# Seal -----------------------------------------------------------------------

def seals_of_each_size():
    """Seals of 1, 3 and 64 transactions, with N of 1 and of 1,024."""
    for N in (1, 2, 1024):
        records = (5,) + (0,) * (N - 1)
        for log in ([adder(0)], [reader()], [adder(0), writer(N - 1), carrier(0)]):
            yield case(done(log, N=N, records=records), "seal")
    moment = planned([writer(k % 4) for k in range(64)], P=3, W=8)
    moment = with_state(moment, rows=(Complete(COMMITTED),) * 64)
    yield case(moment, "seal")
    versions = tuple(replace(entry, produced=True, contents=slot)
                     for slot, entry in enumerate(moment.tables.versions))
    yield case(with_tables(moment, versions=versions), "seal")
    everything = [writer(*range(4 * k, 4 * k + 4)) for k in range(64)]
    yield case(done(everything, N=256, records=(0,) * 256, P=8), "seal")
    moment = with_state(planned([reader()] * 64), rows=(Complete(ABORTED),) * 64)
    for produced in (True, False):
        yield case(with_version(with_newest(moment, 3, 255), 255, produced=produced), "seal")


def seals_over_what_was_left():
    """Seals keep results, rows and workers, and empty every version, also past 4n."""
    moment = done(BATCH)
    stale = with_worker(moment, 5, transaction=9, values=(1, 2, 3, 4))
    yield case(with_row(with_row(stale, 3, Executing(200)), 63, Complete(ABORTED)), "seal")
    for slot in (0, 3, 11, 12, 254, 255):
        for changes in ({"begin": 9}, {"end": 9}, {"previous": 9}, {"contents": 9}):
            yield case(with_version(moment, slot, **changes), "seal")
    yield case(with_version(moment, 255, begin=1, end=2, previous=3, contents=4), "seal")
    yield case(with_tables(moment, results=tuple(range(TABLE_LENGTH))), "seal")
    yield case(with_state(moment, next=LARGEST_NUMBER - 3, batch=LARGEST_NUMBER - 4), "seal")


def newest_slots_at_the_seal():
    """15 of seal: a newest slot not below 4n, or a version not produced, at each record."""
    moment = done(BATCH)
    for record in range(4):
        for slot in (NO_SLOT, 0, 3, 5, 11, 12, 13, 255, 256, 65_534):
            yield case(with_newest(moment, record, slot), "seal")
        yield case(with_version(with_newest(moment, record, 12), 12, produced=True), "seal")
        yield case(with_version(with_newest(moment, record, 11), 11, produced=True, contents=6),
                   "seal")
    for slot in (0, 1, 4, 8, 9):
        yield case(with_version(moment, slot, produced=False), "seal")


# States that no run reaches, at random --------------------------------------

def random_worker(chance, phase, i):
    def four():
        return tuple(chance.choice(EDGE_NUMBERS) for _ in range(4))

    carried = tuple(chance.random() < 0.3 for _ in range(4))
    return Worker(phase, i, four(), four(), carried)


def random_phase(chance):
    counts = [chance.choice((0, 0, 1, 1, 2, 3, 4)) for _ in range(3)]
    if chance.random() < 0.5:
        return Reading(counts[0])
    return Decided(chance.choice(OUTCOMES), chance.choice((0, counts[0])), counts[1],
                   chance.choice((0, counts[2])))


def random_rows(chance, n):
    """Rows with no transaction Executing below n; anything past it."""
    outcomes = [Complete(COMMITTED), Complete(ABORTED)]
    often = chance.choice(([Unprocessed()], outcomes, [Unprocessed()] + outcomes))
    rows = [chance.choice(often) for _ in range(n)] + [Unprocessed()] * (64 - n)
    if chance.random() < 0.5:
        rows[chance.randint(n, 63)] = chance.choice(outcomes + [Executing(0), Executing(255)])
    return rows


def random_state(chance, N):
    """A state that check 14 lets pass, whatever else may be wrong with it."""
    P, W, n = chance.randint(1, 8), chance.randint(1, 8), chance.choice((0, 1, 2, 2, 3))
    start = chance.choice((1, 2, 50, 2**63, LARGEST_NUMBER - n))
    batch = chance.choice((0, start // 2, start - 1))
    planning = chance.random() < 0.25
    placed = [chance.randint(0, n) if planning else n for _ in range(P)] + [0] * (8 - P)
    rows, crew = random_rows(chance, n), []
    free = chance.sample(range(n), n)
    for w in range(8):
        if w < W and free and chance.random() < 0.4:
            i = free.pop()
            rows[i] = Executing(w)
            crew.append(random_worker(chance, random_phase(chance), i))
        elif chance.random() < 0.05:
            crew.append(random_worker(chance, Idle(), chance.choice((0, 1, 64, 255))))
        else:
            crew.append(Worker(Idle(), 0, (0,) * 4, (0,) * 4, (False,) * 4))
    return State(N, P, W, start, n, batch, tuple(placed), tuple(rows), tuple(crew))


def random_version(chance, state, slots):
    """Any entry; its begin is mostly a position of the batch."""
    positions = [state.next + k for k in range(state.size)] or [1]
    begin = chance.choice((chance.choice(positions), chance.choice(positions), 0, LARGEST_NUMBER))
    return Version(begin, chance.choice((begin, 0, LARGEST_NUMBER)), chance.choice(slots),
                   chance.choice((3, 4, LARGEST_NUMBER)), chance.random() < 0.6)


def random_tables(chance, state):
    below = list(range(4 * state.size)) or [0]
    slots = below + [NO_SLOT] * len(below) + [4 * state.size, 65_534]
    newest = tuple(chance.choice(slots) for _ in range(state.N))
    versions = [EMPTY] * TABLE_LENGTH
    for slot in below:
        if chance.random() < 0.6:
            versions[slot] = random_version(chance, state, slots[: slot] + slots[-5:])
    results = tuple(chance.choice((0, 0, 9)) for _ in range(8)) + (0,) * 248
    return Tables(tens(state.N), newest, tuple(versions), results)


def random_call(chance, state):
    """A step that checks 9 to 13 let pass if there is one, sometimes any."""
    sensible = useful_steps(state) if state.size else [("open",)]
    if sensible and chance.random() < 0.9:
        return chance.choice(sensible)
    return any_step(chance, state)


def random_moment(chance):
    state = random_state(chance, chance.randint(1, 5))
    size = state.size or chance.randint(1, 3)
    log = [random_transaction(chance, range(state.N), SMALL_NUMBERS) for _ in range(size)]
    return Moment(state, random_tables(chance, state), log_of(log))


def states_no_run_reaches():
    """States and tables at random that check 14 lets pass, with a step at random."""
    chance = random.Random(2015)
    for _ in range(220):
        moment = random_moment(chance)
        yield case(moment, *random_call(chance, moment.state))


# One number of a state, changed to any that its type can hold.
ANY_CHANGES = (
    lambda chance, moment: with_state(moment, P=chance.randint(0, 255)),
    lambda chance, moment: with_state(moment, W=chance.randint(0, 255)),
    lambda chance, moment: with_state(moment, size=chance.randint(0, 70)),
    lambda chance, moment: with_state(moment, next=chance.choice(EDGE_NUMBERS)),
    lambda chance, moment: with_state(moment, batch=chance.choice(EDGE_NUMBERS)),
    lambda chance, moment: with_placed(moment, chance.randint(0, 7), chance.randint(0, 5)),
    lambda chance, moment: with_row(moment, chance.randint(0, 4), Executing(chance.randint(0, 9))),
    lambda chance, moment: with_row(moment, chance.randint(0, 4), Unprocessed()),
    lambda chance, moment: with_worker(moment, chance.randint(0, 7), phase=random_phase(chance)),
    lambda chance, moment: with_worker(moment, chance.randint(0, 7),
                                       transaction=chance.randint(0, 5)),
    lambda chance, moment: with_worker(moment, chance.randint(0, 7), phase=Idle()),
)


def states_with_one_number_changed():
    """14 or not: such states with one or two numbers changed."""
    chance = random.Random(8)
    for _ in range(90):
        moment = random_moment(chance)
        call = random_call(chance, moment.state)
        for _ in range(chance.randint(1, 2)):
            moment = chance.choice(ANY_CHANGES)(chance, moment)
        yield case(moment, *call)


def bytes_at_random():
    """Logs with one byte changed, for each call that is lent one."""
    chance = random.Random(88)
    for _ in range(50):
        moment = random_moment(chance)
        call = random_call(chance, moment.state)
        log = bytearray(moment.log)
        log[chance.randrange(len(log))] = chance.choice((0, 1, 2, 5, 255))
        yield case(replace(moment, log=bytes(log)), *call)


# Whole runs -----------------------------------------------------------------

def run_cases(chance, moment, batches, N):
    """Each step of several batches: sensible ones in random order, and others between."""
    for _ in range(batches):
        log = [random_transaction(chance, range(N), SMALL_NUMBERS)
               for _ in range(chance.randint(1, 3))]
        moment = replace(moment, log=log_of(log))
        step, sealed = ("open",), moment.state.batch + 1
        while moment.state.batch < sealed:
            yield case(moment, *step)
            _, moment = answered(moment, *step)
            step = (any_step(chance, moment.state) if chance.random() < 0.2
                    else chance.choice(useful_steps(moment.state) or [("open",)]))


def runs_of_several_batches():
    """Whole runs: every step of several batches is a case, the next one goes on from it."""
    for seed, (N, P, W) in enumerate(((3, 1, 1), (4, 2, 2), (5, 3, 2), (2, 2, 4), (4, 4, 8))):
        chance = random.Random(seed)
        moment = fresh([], N=N, P=P, W=W, start=chance.choice((1, 7, 2**40)))
        yield from run_cases(chance, moment, 2, N)


# "place partition 0 four times, partition 1 four times; claim 0 of 3, advance 0 twice; claim 1 of
# 1, advance 1 (waits for 1); claim 0 of 0, advance 0 three times; claim 1 of 1, advance 1 three
# times; claim 0 of 2, advance 0 six times; seal"
LISTING_STEPS = (
    [("place", 0)] * 4 + [("place", 1)] * 4
    + [("claim", 0, 3)] + [("advance", 0)] * 2
    + [("claim", 1, 1), ("advance", 1)]
    + [("claim", 0, 0)] + [("advance", 0)] * 3
    + [("claim", 1, 1)] + [("advance", 1)] * 3
    + [("claim", 0, 2)] + [("advance", 0)] * 6
    + [("seal",)])


def the_listing():
    """Document 01's listing: its opening and its 29 steps."""
    moment = fresh([adder(0), transaction((0,), (1,), [copy(1, 0)]),
                    transaction((1,), (1, 2), [take(1, 100)]), writer(0)])
    for step in [("open",), *LISTING_STEPS]:
        yield case(moment, *step)
        _, moment = answered(moment, *step)


GENERATORS = (
    openings_of_each_size, openings_over_what_was_left,
    places_of_0_to_4_writes, places_after_others, places_over_what_was_left, slots_met_in_placing,
    slots_met_in_other_places, links_within_one_transaction, places_of_the_last_of_64,
    places_at_the_last_positions,
    claims_of_each,
    walks_of_each_depth, carries_among_fills, begins_around_the_position,
    newest_slots_that_are_bad, chains_that_do_not_fall, links_that_are_not_followed,
    chains_that_fall_by_one, chains_of_64, walks_at_record_1023, reads_of_a_run,
    decisions_of_each_sort, decisions_of_each_kind, decisions_without_writes, random_decisions,
    fills_of_each_write, fills_after_carries, fills_over_what_was_left,
    completions_of_the_last_of_64, fewer_values_than_reads,
    more_values_than_reads, marks_past_the_count, marks_of_a_reading_worker,
    more_carries_than_marks, fills_before_the_last_carry, no_fill_left, workers_at_random,
    seals_of_each_size, seals_over_what_was_left, newest_slots_at_the_seal,
    states_no_run_reaches, states_with_one_number_changed, bytes_at_random,
    runs_of_several_batches, the_listing,
)
