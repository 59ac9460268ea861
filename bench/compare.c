/* Times the services compare and follow on a ladder of sizes, at Z = 1, 7 and 31, and under rule 2, with just the words
 * and the space that each size needs. Processor time, the least of some runs; in brackets how many times that of half
 * the size it is. */
#include <stdio.h>
#include <stdlib.h>

#include "negyvosal.h"
#include "sheets.h"
#include "timing.h"

#define RUNS 51

static uint32_t words[NEGYVOSAL_COMPARE_WORDS(31, 4096, 4096)];
static uint8_t space[NEGYVOSAL_COMPARE_SPACE(4096, 4096)];
static uint32_t out[NEGYVOSAL_WORDS];

/* Compare and follow on sheets of one size. */
struct step {
    struct point compare, follow;
};

static void expect(int right) {
    if (right) return;
    fprintf(stderr, "the answer is of kind %u\n", (unsigned)out[0]);
    exit(1);
}

static double compare(const struct sheet *old, const struct sheet *new, size_t s, size_t t) {
    double start = now();
    negyvosal_compare(old->bytes, old->length, new->bytes, new->length, words,
                      NEGYVOSAL_COMPARE_WORDS(old->bytes[0], s, t), space, NEGYVOSAL_COMPARE_SPACE(s, t), out,
                      NEGYVOSAL_WORDS);
    double time = now() - start;
    expect(out[0] == NEGYVOSAL_SAME);
    return time;
}

/* Follows a play of seven moves. */
static double follow(const struct sheet *sheet, size_t s) {
    static const uint8_t play[] = {0, 255, 0, 2, 9, 0, 5, 9, 0, 0, 2, 9, 0, 5, 9, 0, 0, 0, 8, 0, 1, 8, 0};
    double start = now();
    negyvosal_follow(sheet->bytes, sheet->length, play, sizeof play, words,
                     NEGYVOSAL_FOLLOW_WORDS(sheet->bytes[0], s), out, NEGYVOSAL_WORDS);
    double time = now() - start;
    expect(out[0] == NEGYVOSAL_FOLLOWS && NEGYVOSAL_WHOLE(out[2], out[3]) == 7);
    return time;
}

/* Times the services on sheets of at most that size. */
static struct step time_size(struct range r, int size, struct step before) {
    struct sheet old = loops(r, size, 1), new = loops(r, size, 5);
    size_t s = size_of(&old), t = size_of(&new);
    struct step least = {{(double)s, NEVER}, {(double)s, NEVER}};
    expect(s && t);
    for (int run = 0; run < RUNS; run++) {
        keep_least(&least.compare.time, compare(&old, &new, s, t));
        keep_least(&least.follow.time, follow(&old, s));
    }
    printf("Z %2d rule %d size %4zu", r.z, r.rule, s);
    print_point("compare", before.compare, least.compare);
    print_point("follow", before.follow, least.follow);
    printf("\n");
    return least;
}

int main(void) {
    warm_up();
    for (size_t i = 0; i < RANGES; i++) {
        struct step step = {{0, 0}, {0, 0}};
        for (int size = 510; size <= 4080; size *= 2) step = time_size(ranges[i], size, step);
    }
    return 0;
}
