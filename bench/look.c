/* Times looks through 0, 10, 100 and S + T - 1 moves beside compare, on a ladder of sizes, at Z = 1, 7 and 31, and
 * under rule 2, with just the words and the space that each size needs. The sheets are the same, so that a look goes
 * through all plays of so many moves; the five calls are made in turn. Processor time, the least of some runs. */
#include <stdio.h>
#include <stdlib.h>

#include "negyvosal.h"
#include "sheets.h"
#include "timing.h"

#define RUNS 51
#define LOOKS 4

static uint32_t words[NEGYVOSAL_COMPARE_WORDS(31, 4096, 4096)];
static uint8_t space[NEGYVOSAL_COMPARE_SPACE(4096, 4096)];
static uint32_t out[NEGYVOSAL_WORDS];

/* Two sheets, and what the library is lent for them. */
struct pair {
    struct sheet old, new;
    size_t words, space;
};

static double compare(const struct pair *p) {
    double start = now();
    negyvosal_compare(p->old.bytes, p->old.length, p->new.bytes, p->new.length, words, p->words, space, p->space, out,
                      NEGYVOSAL_WORDS);
    return now() - start;
}

static double look(const struct pair *p, uint64_t limit) {
    double start = now();
    negyvosal_look(p->old.bytes, p->old.length, p->new.bytes, p->new.length, limit, words, p->words, space, p->space,
                   out, NEGYVOSAL_WORDS);
    return now() - start;
}

/* Times two sheets that are the same, `whole` moves deep; whether every answer is right. */
static int time_pair(const struct pair *p, uint64_t whole) {
    const uint64_t limits[LOOKS] = {0, 10, 100, whole};
    double compared = NEVER, looked[LOOKS] = {NEVER, NEVER, NEVER, NEVER};
    for (int run = 0; run < RUNS; run++) {
        keep_least(&compared, compare(p));
        if (out[0] != NEGYVOSAL_SAME) return 0;
        for (int l = 0; l < LOOKS; l++) {
            keep_least(&looked[l], look(p, limits[l]));
            if (out[0] != (limits[l] < whole ? NEGYVOSAL_SO_FAR : NEGYVOSAL_SAME)) return 0;
            if (NEGYVOSAL_WHOLE(out[2], out[3]) != limits[l]) return 0;
        }
    }
    printf("compare %7.3f ms  look", compared);
    for (int l = 0; l < LOOKS; l++) printf("  %llu: %7.3f", (unsigned long long)limits[l], looked[l]);
    printf(" ms\n");
    return 1;
}

/* Times sheets of at most that size; whether every answer is right. */
static int time_size(struct range r, int size) {
    struct pair p = {loops(r, size, 1), loops(r, size, 5), 0, 0};
    size_t s = size_of(&p.old), t = size_of(&p.new);
    if (!s || !t) return 0;
    p.words = NEGYVOSAL_COMPARE_WORDS(r.z, s, t);
    p.space = NEGYVOSAL_COMPARE_SPACE(s, t);
    printf("Z %2d rule %d size %4zu  ", r.z, r.rule, s);
    return time_pair(&p, s + t - 1);
}

int main(void) {
    warm_up();
    for (size_t i = 0; i < RANGES; i++) {
        for (int size = 510; size <= 4080; size *= 2) {
            if (!time_size(ranges[i], size)) {
                fprintf(stderr, "the answer is of kind %u\n", (unsigned)out[0]);
                return 1;
            }
        }
    }
    return 0;
}
