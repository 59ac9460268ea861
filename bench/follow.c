/* Times the service follow on long plays, at Z = 1, 7 and 31, and under rule 2: complete plays of up to a million
 * moves; the same with one move halfway that no play has there; and plays that go on just as long where no complete
 * play goes. With just the words that each sheet needs; processor time, the least of some runs. */
#include <stdio.h>
#include <stdlib.h>

#include "negyvosal.h"
#include "sheets.h"
#include "timing.h"

#define RUNS 5
#define MOST_MOVES 1000000
#define SIZE 4080

enum { RUN = 0, DONE = 1, ASK = 2, VALUE = 5, WHOLE = 255, NOBODY = 77 };
enum { SKIP = 16, DIVERGE = 17, IF = 25 };

struct play {
    uint8_t *bytes;
    size_t length, moves;
};

static uint32_t words[NEGYVOSAL_FOLLOW_WORDS(31, 4096)];

/* if b then skip else (the statements; diverge): no complete play goes into the statements. */
static struct sheet dead_end(struct range r, int size) {
    struct sheet s = headed(r);
    put(&s, IF);
    put(&s, USE);
    put(&s, B);
    put(&s, SKIP);
    put(&s, SEQUENCE);
    statements(&s, loops_of(r, size) - 3, 1);
    put(&s, DIVERGE);
    put(&s, 0);
    return s;
}

static void move(struct play *p, int kind, int id) {
    p->bytes[p->length++] = (uint8_t)kind;
    p->bytes[p->length++] = (uint8_t)id;
    p->bytes[p->length++] = 0;
    p->moves++;
}

static void answer(struct play *p, int id, int value) {
    move(p, VALUE, id);
    p->bytes[p->length++] = (uint8_t)value;
}

/* The test of one statement: e is asked twice. */
static void test(struct play *p, int left, int right) {
    move(p, ASK, E);
    answer(p, E, left);
    move(p, ASK, E);
    answer(p, E, right);
}

/* Rounds of the first statement up to that many moves. */
static void rounds(struct play *p, size_t most) {
    while (p->moves + 6 <= most) {
        test(p, 0, 0);
        move(p, RUN, C);
        move(p, DONE, C);
    }
}

static struct play begun(size_t most) {
    struct play p = {malloc(4 * most), 0, 0};
    if (!p.bytes) exit(1);
    move(&p, RUN, WHOLE);
    return p;
}

/* A complete play of at most `most` moves: rounds of the first statement, then through all statements. */
static struct play complete(size_t statements, size_t most) {
    struct play p = begun(most);
    rounds(&p, most - 4 * statements - 1);
    for (size_t i = 0; i < statements; i++) test(&p, 0, 1);
    move(&p, DONE, WHOLE);
    return p;
}

/* A play of the dead end of at most `most` moves, two of which begin a complete play. */
static struct play lost(size_t most) {
    struct play p = begun(most);
    move(&p, ASK, B);
    answer(&p, B, 0);
    rounds(&p, most);
    return p;
}

/* Puts a name that nobody has into the move halfway; the number of moves before it. */
static size_t spoil(struct play *p) {
    size_t at = 0, moves = 0;
    while (moves < p->moves / 2) {
        at += p->bytes[at] < VALUE ? 3 : 4;
        moves++;
    }
    p->bytes[at + 1] = NOBODY;
    return moves;
}

static void expect(const uint32_t *out, size_t count, uint32_t whole) {
    if (out[0] == NEGYVOSAL_FOLLOWS && out[1] == whole && NEGYVOSAL_WHOLE(out[2], out[3]) == count) return;
    fprintf(stderr, "follow answers %u %u %u %u\n", (unsigned)out[0], (unsigned)out[1], (unsigned)out[2],
            (unsigned)out[3]);
    exit(1);
}

/* The least time of some runs, all of which have to give that answer. */
static double timed(const struct sheet *s, const struct play *p, size_t count, uint32_t whole) {
    double least = NEVER;
    size_t lent = NEGYVOSAL_FOLLOW_WORDS(s->bytes[0], size_of(s));
    for (int run = 0; run < RUNS; run++) {
        uint32_t out[NEGYVOSAL_WORDS];
        double start = now();
        negyvosal_follow(s->bytes, s->length, p->bytes, p->length, words, lent, out, NEGYVOSAL_WORDS);
        keep_least(&least, now() - start);
        expect(out, count, whole);
    }
    return least;
}

static void time_plays(struct range r, size_t most) {
    struct sheet through = loops(r, SIZE, 1), dead = dead_end(r, SIZE);
    struct play p = complete((size_t)loops_of(r, SIZE), most), astray = lost(most);
    printf("Z %2d rule %d size %u  follow %7zu moves", r.z, r.rule, (unsigned)size_of(&through), p.moves);
    printf("  complete %8.3f ms", timed(&through, &p, p.moves, 1));
    size_t before = spoil(&p);
    printf("  wrong halfway %8.3f ms", timed(&through, &p, before, 0));
    printf("  astray from the third %8.3f ms\n", timed(&dead, &astray, 2, 0));
    free(p.bytes);
    free(astray.bytes);
}

int main(void) {
    warm_up();
    for (size_t r = 0; r < RANGES; r++)
        for (size_t most = MOST_MOVES / 4; most <= MOST_MOVES; most *= 2) time_plays(ranges[r], most);
    return 0;
}
