// Sentences in quotation marks are document 01's. A check stands where that document's order has it.
#include "engine.h"
#include <string.h>

static struct answer accepted(void) { return (struct answer){ACCEPTED, 0, 0}; }
static struct answer waits_for(uint64_t position) { return (struct answer){WAITS, 0, position}; }
static struct answer refused(int number) { return (struct answer){REFUSED, (uint8_t)number, 0}; }
static struct answer refused_at(int number, size_t i) { return (struct answer){REFUSED, (uint8_t)number, i}; }

// ---- A packed transaction: checks 4 to 8 and its meaning ----

static uint16_t word(const uint8_t *b) { return (uint16_t)(b[0] | b[1] << 8); }
static uint32_t half(const uint8_t *b) { return b[0] | b[1] << 8 | b[2] << 16 | (uint32_t)b[3] << 24; }
static uint64_t full(const uint8_t *b) { return half(b) | (uint64_t)half(b + 4) << 32; }

static int index_of(const uint16_t *set, int count, uint16_t r) {
    for (int i = 0; i < count; i++) if (set[i] == r) return i;
    return -1;
}

static bool reads(const struct transaction *t, uint16_t r) { return index_of(t->reads, t->readcount, r) >= 0; }
static bool writes(const struct transaction *t, uint16_t r) { return index_of(t->writes, t->writecount, r) >= 0; }
static bool has_two_records(const struct action *a) { return a->kind == 4 || a->kind == 5; }

// 4, and the meaning: "a count above 4, a kind outside 1-6 within the count, or a byte that must be zero is not"
static bool decode(const uint8_t *b, struct transaction *t) {
    t->readcount = b[0]; t->writecount = b[1]; t->actioncount = b[2];
    if (t->readcount > 4 || t->writecount > 4 || t->actioncount > 4 || b[3]) return false;
    if (half(b + 20)) return false;
    for (int i = 0; i < 4; i++) { t->reads[i] = word(b + 4 + 2 * i); t->writes[i] = word(b + 12 + 2 * i); }
    for (int i = t->readcount; i < 4; i++) if (t->reads[i]) return false;
    for (int i = t->writecount; i < 4; i++) if (t->writes[i]) return false;
    for (int i = 0; i < 4; i++) {
        const uint8_t *from = b + 24 + 16 * i;
        struct action *a = &t->actions[i];
        a->kind = from[0]; a->r = word(from + 2); a->s = word(from + 4); a->c = full(from + 8);
        if (from[1] || word(from + 6)) return false;
        if (i < t->actioncount) {
            if (a->kind < 1 || a->kind > 6) return false;
            if (has_two_records(a) ? a->c != 0 : a->s != 0) return false;
        } else if (a->kind || a->r || a->s || a->c) return false;
    }
    return true;
}

// 5: "a record number, in a set or used by an action, is N or more"
static bool is_within(const struct transaction *t, uint64_t n) {
    for (int i = 0; i < t->readcount; i++) if (t->reads[i] >= n) return false;
    for (int i = 0; i < t->writecount; i++) if (t->writes[i] >= n) return false;
    for (int i = 0; i < t->actioncount; i++) {
        const struct action *a = &t->actions[i];
        if (a->r >= n || (has_two_records(a) && a->s >= n)) return false;
    }
    return true;
}

// 6: "a set does not ascend strictly"
static bool ascends(const uint16_t *set, int count) {
    for (int i = 1; i < count; i++) if (set[i - 1] >= set[i]) return false;
    return true;
}

// 7: "an action reads an undeclared record"
static bool reads_declared(const struct transaction *t) {
    for (int i = 0; i < t->actioncount; i++) {
        const struct action *a = &t->actions[i];
        switch (a->kind) {
        case 1: break;
        case 4: if (!reads(t, a->s)) return false; break;
        case 5: if (!reads(t, a->s)) return false; /* fall through */
        default: if (!reads(t, a->r)) return false;
        }
    }
    return true;
}

// 8: "an action writes an undeclared record"
static bool writes_declared(const struct transaction *t) {
    for (int i = 0; i < t->actioncount; i++) {
        const struct action *a = &t->actions[i];
        switch (a->kind) {
        case 6: break;
        case 5: if (!writes(t, a->s)) return false; /* fall through */
        default: if (!writes(t, a->r)) return false;
        }
    }
    return true;
}

// Entry and meaning: 0, or the first of 4 to 8 that there is.
int unpack(const uint8_t *entry, uint64_t n, struct transaction *t) {
    if (!decode(entry, t)) return 4;
    if (!is_within(t, n)) return 5;
    if (!ascends(t->reads, t->readcount) || !ascends(t->writes, t->writecount)) return 6;
    if (!reads_declared(t)) return 7;
    if (!writes_declared(t)) return 8;
    return 0;
}

// ---- 14, 9: what every call asks of the state ----

static bool executes(const struct state *s, size_t i, size_t w) {
    return s->rows[i].progress == EXECUTING && s->rows[i].of == w;
}

static bool holds(const struct state *s, size_t w, size_t i) {
    return w < MOST_PARTIES && s->crew[w].phase != IDLE && s->crew[w].transaction == i;
}

static bool is_sound(const struct state *s, size_t w) {
    const struct worker *one = &s->crew[w];
    if (one->phase == IDLE) return true;
    if (w >= s->workers || one->transaction >= s->size || one->valuecount > 4) return false;
    if (one->phase == DECIDED && (one->carries > 4 || one->fills > 4)) return false;
    return executes(s, one->transaction, w);
}

// 14: "the state has a number out of range"
static bool is_out_of_range(const struct state *s) {
    if (s->records < 1 || s->records > MOST_RECORDS) return true;
    if (s->partitions < 1 || s->partitions > MOST_PARTIES || s->workers < 1 || s->workers > MOST_PARTIES) return true;
    if (s->size > MOST_TRANSACTIONS || s->next == 0 || s->next > NO_END - s->size || s->batch >= s->next) return true;
    for (int p = 0; p < s->partitions; p++) if (s->placed[p] > s->size) return true;
    for (int p = s->partitions; p < MOST_PARTIES; p++) if (s->placed[p]) return true;
    for (size_t w = 0; w < MOST_PARTIES; w++) if (!is_sound(s, w)) return true;
    for (size_t i = 0; i < s->size; i++)
        if (s->rows[i].progress == EXECUTING && !holds(s, s->rows[i].of, i)) return true;
    return false;
}

static bool has_placed_all(const struct state *s) {
    for (int p = 0; p < s->partitions; p++) if (s->placed[p] < s->size) return false;
    return true;
}

static bool is_planning(const struct state *s) { return s->size > 0 && !has_placed_all(s); }
static bool is_running(const struct state *s) { return s->size > 0 && has_placed_all(s); }

static bool is_complete(const struct state *s) {
    for (int i = 0; i < s->size; i++) if (s->rows[i].progress != COMPLETE) return false;
    return true;
}

// ---- Making and opening ----

struct answer make(struct state *s, uint64_t records, uint64_t partitions, uint64_t workers, uint64_t next) {
    memset(s, 0, sizeof *s);
    if (records < 1 || records > MOST_RECORDS || next == 0) return refused(1);
    if (partitions < 1 || partitions > MOST_PARTIES || workers < 1 || workers > MOST_PARTIES) return refused(1);
    s->records = (uint16_t)records;
    s->partitions = (uint8_t)partitions;
    s->workers = (uint8_t)workers;
    s->next = next;
    return accepted();
}

static void empty(struct slots newest, struct versions versions) {
    for (size_t r = 0; r < newest.length; r++) newest.at[r] = NO_SLOT;
    for (size_t i = 0; i < versions.length; i++) versions.at[i] = (struct version){.previous = NO_SLOT};
}

struct answer open_batch(struct state *s, struct bytes log, struct slots newest, struct versions versions,
                         struct numbers results) {
    if (newest.length != s->records || versions.length != SLOTS || results.length != SLOTS) return refused(1);
    if (is_out_of_range(s)) return refused(14);
    if (s->size) return refused(9);
    if (!log.length || log.length > ENTRY * MOST_TRANSACTIONS || log.length % ENTRY) return refused(2);
    size_t size = log.length / ENTRY;
    if (s->next > NO_END - size) return refused(3);
    for (size_t i = 0; i < size; i++) {
        struct transaction t;
        int number = unpack(log.at + ENTRY * i, s->records, &t);
        if (number) return refused_at(number, i);
    }
    s->size = (uint8_t)size;
    memset(s->rows, 0, sizeof s->rows);
    memset(s->crew, 0, sizeof s->crew);
    empty(newest, versions);
    memset(results.at, 0, SLOTS * sizeof *results.at);
    return accepted();
}

// ---- Place ----

static bool is_placed_by(const struct state *s, uint16_t record, size_t p) { return record % s->partitions == p; }

// 15: "a slot met in placing is not below its own"; own slots are below 4n.
static bool meets_bad_slot(const struct state *s, size_t p, const struct transaction *t, size_t own,
                           const uint16_t *newest) {
    for (size_t j = 0; j < t->writecount; j++) {
        uint16_t met = newest[t->writes[j]];
        if (is_placed_by(s, t->writes[j], p) && met != NO_SLOT && met >= own + j) return true;
    }
    return false;
}

static void link(struct version *table, uint16_t *newest, size_t slot, uint64_t position) {
    struct version *v = &table[slot];
    v->begin = position;
    v->end = NO_END;
    v->previous = *newest;
    v->produced = false;
    if (*newest != NO_SLOT) table[*newest].end = position;
    *newest = (uint16_t)slot;
}

struct answer place(struct state *s, size_t p, struct bytes log, struct slots newest, struct versions versions) {
    if (newest.length != s->records || versions.length != SLOTS) return refused(1);
    if (is_out_of_range(s)) return refused(14);
    if (!is_planning(s)) return refused(9);
    if (p >= s->partitions) return refused(10);
    size_t i = s->placed[p];
    if (i == s->size) return refused(11);
    if (log.length != ENTRY * (size_t)s->size) return refused(2);
    struct transaction t;
    int number = unpack(log.at + ENTRY * i, s->records, &t);
    if (number) return refused_at(number, i);
    if (meets_bad_slot(s, p, &t, 4 * i, newest.at)) return refused(15);
    for (size_t j = 0; j < t.writecount; j++)
        if (is_placed_by(s, t.writes[j], p)) link(versions.at, &newest.at[t.writes[j]], 4 * i + j, s->next + i);
    s->placed[p]++;
    return accepted();
}

// ---- Claim ----

struct answer claim(struct state *s, size_t w, size_t i) {
    if (is_out_of_range(s)) return refused(14);
    if (!is_running(s)) return refused(9);
    if (w >= s->workers || i >= s->size) return refused(10);
    if (s->crew[w].phase != IDLE) return refused(12);
    if (s->rows[i].progress != UNPROCESSED) return refused(13);
    s->rows[i] = (struct row){EXECUTING, (uint8_t)w};
    s->crew[w] = (struct worker){.phase = READING, .transaction = (uint8_t)i};
    return accepted();
}

// ---- Advance ----

// "walks from the newest slot back to the first version with begin < t; past the last one lies the stored record"
static struct answer walk(const struct state *s, const struct version *table, unsigned slot, uint64_t t,
                          uint64_t stored, uint64_t *contents) {
    unsigned limit = 4u * s->size;
    for (; slot != NO_SLOT; slot = table[slot].previous) {
        if (slot >= limit) return refused(15);
        const struct version *v = &table[slot];
        if (v->begin < t) {
            if (!v->produced) return waits_for(v->begin);
            *contents = v->contents;
            return accepted();
        }
        limit = slot;
    }
    *contents = stored;
    return accepted();
}

// "the worker drops all it read and becomes idle, the transaction becomes Unprocessed"
static void drop(struct state *s, struct worker *me) {
    s->rows[me->transaction] = (struct row){UNPROCESSED, 0};
    *me = (struct worker){0};
}

static struct answer complete(struct state *s, struct worker *me, uint64_t *results) {
    uint64_t *mine = results + 4 * me->transaction;
    for (int k = 0; k < 4; k++) mine[k] = k < me->valuecount ? me->values[k] : 0;
    s->rows[me->transaction] = (struct row){COMPLETE, me->outcome};
    *me = (struct worker){0};
    return accepted();
}

// Actions "see earlier writes of their own transaction"; a write that none has reached yet is still marked carried.
static uint64_t seen(const struct transaction *t, const struct worker *me, uint16_t r) {
    int j = index_of(t->writes, t->writecount, r);
    if (j >= 0 && !me->carried[j]) return me->contents[j];
    return me->values[index_of(t->reads, t->readcount, r)];
}

static void put(const struct transaction *t, struct worker *me, uint16_t r, uint64_t value) {
    int j = index_of(t->writes, t->writecount, r);
    me->contents[j] = value;
    me->carried[j] = false;
}

// Nothing is reached: all declared writes are carried, with contents 0 until then.
static void reach_none(const struct transaction *t, struct worker *me) {
    for (int j = 0; j < 4; j++) { me->contents[j] = 0; me->carried[j] = j < t->writecount; }
}

static bool act(const struct transaction *t, const struct action *a, struct worker *me) {
    switch (a->kind) {
    case 1: put(t, me, a->r, a->c); break;
    case 2: put(t, me, a->r, seen(t, me, a->r) + a->c); break;
    case 3: {
        uint64_t have = seen(t, me, a->r);
        if (have < a->c) return false;
        put(t, me, a->r, have - a->c);
        break;
    }
    case 4: put(t, me, a->r, seen(t, me, a->s)); break;
    case 5:
        put(t, me, a->r, seen(t, me, a->r) + seen(t, me, a->s));
        put(t, me, a->s, 0);
        break;
    case 6: return seen(t, me, a->r) >= a->c;
    }
    return true;
}

static struct answer decide(struct state *s, struct worker *me, const struct transaction *t, uint64_t *results) {
    me->phase = DECIDED;
    me->outcome = COMMITTED;
    me->carries = me->fills = 0;
    reach_none(t, me);
    for (int k = 0; k < t->actioncount; k++) {
        if (act(t, &t->actions[k], me)) continue;
        me->outcome = ABORTED;
        reach_none(t, me);
        break;
    }
    return t->writecount ? accepted() : complete(s, me, results);
}

static struct answer read_or_decide(struct state *s, struct worker *me, const struct transaction *t,
                                    const uint64_t *records, const uint16_t *newest, const struct version *versions,
                                    uint64_t *results) {
    if (me->valuecount > t->readcount) return refused(15);
    if (me->valuecount == t->readcount) return decide(s, me, t, results);
    uint16_t r = t->reads[me->valuecount];
    uint64_t position = s->next + me->transaction;
    struct answer got = walk(s, versions, newest[r], position, records[r], &me->values[me->valuecount]);
    if (got.result == ACCEPTED) me->valuecount++;
    if (got.result == WAITS) drop(s, me);
    return got;
}

// The caller knows that fewer carries are done than there are marks.
static int next_carried(const struct worker *me) {
    int done = me->carries;
    for (int j = 0;; j++) if (me->carried[j] && done-- == 0) return j;
}

static struct answer carry(struct state *s, struct worker *me, const struct transaction *t, const uint64_t *records,
                           const uint16_t *newest, const struct version *versions) {
    int j = next_carried(me);
    uint16_t r = t->writes[j];
    struct answer got = walk(s, versions, newest[r], s->next + me->transaction, records[r], &me->contents[j]);
    if (got.result == ACCEPTED) me->carries++;
    if (got.result == WAITS) drop(s, me);
    return got;
}

static struct answer fill(struct state *s, struct worker *me, const struct transaction *t, struct version *versions,
                          uint64_t *results) {
    struct version *v = &versions[4 * me->transaction + me->fills];
    v->contents = me->contents[me->fills];
    v->produced = true;
    me->fills++;
    return me->fills == t->writecount ? complete(s, me, results) : accepted();
}

static struct answer carry_or_fill(struct state *s, struct worker *me, const struct transaction *t,
                                   const uint64_t *records, const uint16_t *newest, struct version *versions,
                                   uint64_t *results) {
    int marks = 0;
    for (int j = 0; j < t->writecount; j++) marks += me->carried[j];
    for (int j = t->writecount; j < 4; j++) if (me->carried[j]) return refused(15);
    if (me->valuecount > t->readcount || me->carries > marks || me->fills >= t->writecount) return refused(15);
    if (me->carries == marks) return fill(s, me, t, versions, results);
    if (me->fills) return refused(15);
    return carry(s, me, t, records, newest, versions);
}

struct answer advance(struct state *s, size_t w, struct bytes log, struct numbers records, struct slots newest,
                      struct versions versions, struct numbers results) {
    if (records.length != s->records || newest.length != s->records) return refused(1);
    if (versions.length != SLOTS || results.length != SLOTS) return refused(1);
    if (is_out_of_range(s)) return refused(14);
    if (!is_running(s)) return refused(9);
    if (w >= s->workers) return refused(10);
    struct worker *me = &s->crew[w];
    if (me->phase == IDLE) return refused(12);
    if (log.length != ENTRY * (size_t)s->size) return refused(2);
    struct transaction t;
    int number = unpack(log.at + ENTRY * me->transaction, s->records, &t);
    if (number) return refused_at(number, me->transaction);
    if (me->phase == READING) return read_or_decide(s, me, &t, records.at, newest.at, versions.at, results.at);
    return carry_or_fill(s, me, &t, records.at, newest.at, versions.at, results.at);
}

// ---- Seal ----

// 15: "a followed slot is neither 65,535 nor below 4n"; "at the seal, a newest version is not produced"
static bool has_bad_newest(const struct state *s, const uint16_t *newest, const struct version *versions) {
    for (size_t r = 0; r < s->records; r++)
        if (newest[r] != NO_SLOT && (newest[r] >= 4 * s->size || !versions[newest[r]].produced)) return true;
    return false;
}

struct answer seal(struct state *s, struct numbers records, struct slots newest, struct versions versions) {
    if (records.length != s->records || newest.length != s->records || versions.length != SLOTS) return refused(1);
    if (is_out_of_range(s)) return refused(14);
    if (!s->size || !is_complete(s)) return refused(9);
    if (has_bad_newest(s, newest.at, versions.at)) return refused(15);
    for (size_t r = 0; r < s->records; r++)
        if (newest.at[r] != NO_SLOT) records.at[r] = versions.at[newest.at[r]].contents;
    empty(newest, versions);
    s->next += s->size;
    s->batch++;
    s->size = 0;
    memset(s->placed, 0, sizeof s->placed);
    return accepted();
}
