// The work of crates/unpack_cost in plain C: the same checks in the same order, and the same sum over the meanings.
#include <fcntl.h>
#include <stddef.h>
#include <stdint.h>
#include <stdio.h>
#include <string.h>
#include <unistd.h>

struct action { uint8_t kind; uint16_t r, s; uint64_t c; };
struct transaction {
    uint8_t readcount, writecount, actioncount;
    uint16_t reads[4], writes[4];
    struct action actions[4];
};

static uint16_t word(const uint8_t *b) { return (uint16_t)(b[0] | b[1] << 8); }
static uint32_t half(const uint8_t *b) { return b[0] | b[1] << 8 | b[2] << 16 | (uint32_t)b[3] << 24; }
static uint64_t full(const uint8_t *b) { return half(b) | (uint64_t)half(b + 4) << 32; }

static int listed(const uint16_t *set, int count, uint16_t r) {
    for (int i = 0; i < count; i++) if (set[i] == r) return 1;
    return 0;
}

static int has_two_records(const struct action *a) { return a->kind == 4 || a->kind == 5; }

static int refusal(const uint8_t *b, size_t length, uint64_t n, struct transaction *t) {
    if (n < 1 || n > 1024) return 1;
    if (length != 88) return 2;
    t->readcount = b[0]; t->writecount = b[1]; t->actioncount = b[2];
    for (int i = 0; i < 4; i++) { t->reads[i] = word(b + 4 + 2 * i); t->writes[i] = word(b + 12 + 2 * i); }
    if (t->readcount > 4 || t->writecount > 4 || t->actioncount > 4 || b[3]) return 4;
    if (b[20] | b[21] | b[22] | b[23]) return 4;
    for (int i = t->readcount; i < 4; i++) if (t->reads[i]) return 4;
    for (int i = t->writecount; i < 4; i++) if (t->writes[i]) return 4;
    for (int i = 0; i < 4; i++) {
        const uint8_t *from = b + 24 + 16 * i;
        struct action *a = &t->actions[i];
        a->kind = from[0]; a->r = word(from + 2); a->s = word(from + 4); a->c = full(from + 8);
        if (from[1] | from[6] | from[7]) return 4;
        if (i < t->actioncount) {
            if (a->kind < 1 || a->kind > 6) return 4;
            if (has_two_records(a) ? a->c != 0 : a->s != 0) return 4;
        } else if (a->kind || a->r || a->s || a->c) return 4;
    }
    for (int i = 0; i < t->readcount; i++) if (t->reads[i] >= n) return 5;
    for (int i = 0; i < t->writecount; i++) if (t->writes[i] >= n) return 5;
    for (int i = 0; i < t->actioncount; i++) {
        const struct action *a = &t->actions[i];
        if (a->r >= n || (has_two_records(a) && a->s >= n)) return 5;
    }
    for (int i = 1; i < t->readcount; i++) if (t->reads[i - 1] >= t->reads[i]) return 6;
    for (int i = 1; i < t->writecount; i++) if (t->writes[i - 1] >= t->writes[i]) return 6;
    for (int i = 0; i < t->actioncount; i++) {
        const struct action *a = &t->actions[i];
        switch (a->kind) {
        case 1: break;
        case 4: if (!listed(t->reads, t->readcount, a->s)) return 7; break;
        case 5: if (!listed(t->reads, t->readcount, a->s)) return 7; /* fall through */
        default: if (!listed(t->reads, t->readcount, a->r)) return 7;
        }
    }
    for (int i = 0; i < t->actioncount; i++) {
        const struct action *a = &t->actions[i];
        switch (a->kind) {
        case 6: break;
        case 5: if (!listed(t->writes, t->writecount, a->s)) return 8; /* fall through */
        default: if (!listed(t->writes, t->writecount, a->r)) return 8;
        }
    }
    return 0;
}

__attribute__((noinline)) static int unpack(const uint8_t *b, size_t length, uint64_t n, struct transaction *t) {
    int number = refusal(b, length, n, t);
    if (number) memset(t, 0, sizeof *t);
    return number;
}

static uint64_t tally(const struct transaction *t) {
    uint64_t sum = t->readcount + t->writecount + t->actioncount;
    for (int i = 0; i < 4; i++)
        sum += t->reads[i] + t->writes[i] + t->actions[i].r + t->actions[i].s + t->actions[i].c;
    return sum;
}

static uint8_t space[65536];

int main(void) {
    int file = open("entries.bin", O_RDONLY);
    long got = file < 0 ? 0 : read(file, space, sizeof space);
    uint64_t total = 0;
    for (long at = 0; at + 88 <= got; at += 88) {
        struct transaction t;
        total += unpack(space + at, 88, 1024, &t) == 0 ? tally(&t) : 1;
    }
    printf("%lu\n", total);
}
