/* Times the service card beside follow with an empty play, which reads the sheet, builds its automaton and marks the
 * live states: on statements `while e = e do c`, on a ladder of sizes; on chains `c; c; .. ; c`, in which each state is
 * told from the next only by how far the end is, alone and after sums, which have many edges; on escapes `if b then ..
 * else skip`, one inside the other; on sums side by side, of which many states lead to one by letters of their own; and
 * on assignments of sums, of which many states lead to the same many.
 * `card FILE...` times the sheets of the files instead, all together. */
#include <stdio.h>
#include <stdlib.h>

#include "negyvosal.h"
#include "sheets.h"
#include "timing.h"

#define RUNS 9
#define LARGEST 4096

enum { V = 11, X = 50, FIRST = 100 };
enum { SKIP = 16, NUMBER = 19, ASSIGN = 23, IF = 25, PROCEDURE = 28, PLUS = 0, UNUSED = 255 };

static uint32_t words[NEGYVOSAL_FOLLOW_WORDS(31, LARGEST)];
static uint8_t space[NEGYVOSAL_CARD_SPACE(31, LARGEST)];

static void use(struct sheet *s, int id) {
    put(s, USE);
    put(s, id);
}

/* `count` uses of c in sequence, halved. */
static void uses(struct sheet *s, int count) {
    if (count == 1) {
        use(s, C);
        return;
    }
    put(s, SEQUENCE);
    uses(s, count / 2);
    uses(s, count - count / 2);
}

/* e + (e + ..), with so many e. */
static void added(struct sheet *s, int terms) {
    for (int i = 1; i < terms; i++) {
        put(s, OPERATE);
        put(s, PLUS);
        use(s, E);
    }
    use(s, E);
}

/* if e + (e + ..) = k then c else skip, with so many e. */
static void sum(struct sheet *s, int terms, int k) {
    put(s, IF);
    put(s, OPERATE);
    put(s, EQUAL);
    added(s, terms);
    put(s, NUMBER);
    put(s, k);
    use(s, C);
    put(s, SKIP);
}

/* So many sums, each of so many e, and then a chain. */
static struct sheet chain(struct range r, int sums, int terms, int count) {
    struct sheet s = headed(r);
    for (int i = 0; i < sums; i++) {
        put(&s, SEQUENCE);
        sum(&s, terms, 0);
    }
    uses(&s, count);
    return s;
}

/* `count` sums e + e = k, k going through all numbers again and again, of which b decides which one is played. */
static void branches(struct sheet *s, int z, int first, int count) {
    if (count == 1) {
        sum(s, 2, first % (2 * z + 1) - z);
        return;
    }
    put(s, IF);
    use(s, B);
    branches(s, z, first, count / 2);
    branches(s, z, first + count / 2, count - count / 2);
}

static struct sheet side_by_side(struct range r, int count) {
    struct sheet s = headed(r);
    branches(&s, r.z, 0, count);
    return s;
}

/* `count` assignments v := e + (e + ..), all the same, of which b decides which one is played. */
static void assignments(struct sheet *s, int terms, int count) {
    if (count == 1) {
        put(s, ASSIGN);
        use(s, V);
        added(s, terms);
        return;
    }
    put(s, IF);
    use(s, B);
    assignments(s, terms, count / 2);
    assignments(s, terms, count - count / 2);
}

static struct sheet assigned(struct range r, int terms, int count) {
    struct sheet s = headed(r);
    declare(&s, V, 4);
    assignments(&s, terms, count);
    return s;
}

/* The head of the procedure p, a command with the parameter x, a command. */
static void procedure(struct sheet *s, int p) {
    int record[] = {PROCEDURE, p, 0, 1, X, 0, UNUSED, UNUSED, UNUSED, UNUSED, UNUSED, UNUSED};
    for (int i = 0; i < 12; i++) put(s, record[i]);
}

/* 2^n escapes around c: p(x) is `if b then x else skip`, and each further procedure is the last one twice. */
static struct sheet escapes(int n) {
    struct sheet s = headed((struct range){1, 0});
    for (int p = FIRST; p <= FIRST + n; p++) {
        procedure(&s, p);
        if (p == FIRST) {
            put(&s, IF);
            use(&s, B);
            use(&s, X);
            put(&s, SKIP);
        } else {
            use(&s, p - 1);
            use(&s, p - 1);
            use(&s, X);
        }
    }
    use(&s, FIRST + n);
    use(&s, C);
    return s;
}

/* The size of a sheet that must be accepted. */
static unsigned accepted_size(const struct sheet *s) {
    unsigned size = size_of(s);
    if (size == 0) {
        fprintf(stderr, "a sheet is refused\n");
        exit(1);
    }
    return size;
}

/* Makes the card, or follows an empty play, with just what is needed; the time in milliseconds. */
static double call(const struct sheet *s, unsigned size, int card, uint32_t *out) {
    int z = s->bytes[0];
    size_t lent = NEGYVOSAL_FOLLOW_WORDS(z, size);
    double start = now();
    if (card)
        negyvosal_card(s->bytes, s->length, words, lent, space, NEGYVOSAL_CARD_SPACE(z, size), out, NEGYVOSAL_WORDS);
    else
        negyvosal_follow(s->bytes, s->length, space, 0, words, lent, out, NEGYVOSAL_WORDS);
    return now() - start;
}

/* Of a sheet: the least times of card and follow in turn, and the length of the card. */
struct times {
    double card, follow;
    size_t length;
};

static void expect(const uint32_t *out, uint32_t kind) {
    if (out[0] != kind) {
        fprintf(stderr, "the answer is of kind %u\n", (unsigned)out[0]);
        exit(1);
    }
}

static struct times timed(const struct sheet *s) {
    struct times least = {NEVER, NEVER, 0};
    unsigned size = accepted_size(s);
    for (int run = 0; run < RUNS; run++) {
        uint32_t out[NEGYVOSAL_WORDS];
        double follow = call(s, size, 0, out);
        expect(out, NEGYVOSAL_FOLLOWS);
        double card = call(s, size, 1, out);
        expect(out, NEGYVOSAL_CARD);
        keep_least(&least.card, card);
        keep_least(&least.follow, follow);
        least.length = NEGYVOSAL_WHOLE(out[2], out[3]);
    }
    return least;
}

static void print(struct times t) {
    double times = t.card / t.follow;
    printf("  card %7.3f ms, %7zu bytes  follow %7.3f ms  times %4.1f\n", t.card, t.length, t.follow, times);
}

static void time_sheet(const char *what, struct range r, struct sheet s) {
    printf("%-16s Z %2d rule %d size %4u", what, r.z, r.rule, accepted_size(&s));
    print(timed(&s));
}

/* The sheets of the files: the sums of all, the sheet whose card takes longest, and that which takes longest beside
 * follow. */
static void time_files(int count, char **names) {
    struct times sum = {0, 0, 0}, longest = {0, 1, 0}, worst = {0, 1, 0};
    const char *longest_name = "", *worst_name = "";
    for (int i = 0; i < count; i++) {
        struct sheet s = read_sheet(names[i]);
        struct times t = timed(&s);
        sum = (struct times){sum.card + t.card, sum.follow + t.follow, sum.length + t.length};
        if (t.card > longest.card) longest = t, longest_name = names[i];
        if (t.card / t.follow > worst.card / worst.follow) worst = t, worst_name = names[i];
    }
    printf("%3d sheets%27s", count, "");
    print(sum);
    printf("%-37s", longest_name);
    print(longest);
    printf("%-37s", worst_name);
    print(worst);
}

static void time_all(void) {
    static const struct range around[] = {{31, 1}, {21, 1}};
    for (size_t r = 0; r < RANGES; r++)
        for (int size = LARGEST / 4; size <= LARGEST; size *= 2)
            time_sheet("loops", ranges[r], loops(ranges[r], size - 16, 1));
    for (int count = 300; count <= 1200; count *= 2) time_sheet("chain", ranges[0], chain(ranges[0], 0, 0, count));
    time_sheet("sums, then chain", ranges[1], chain(ranges[1], 4, 3, 900));
    time_sheet("sums, then chain", ranges[2], chain(ranges[2], 4, 3, 500));
    time_sheet("sums, then chain", ranges[3], chain(ranges[3], 10, 2, 700));
    time_sheet("sums, then chain", ranges[4], chain(ranges[4], 10, 2, 300));
    for (int n = 8; n <= 10; n++) time_sheet("escapes", ranges[0], escapes(n));
    time_sheet("sums in branches", ranges[1], side_by_side(ranges[1], 60));
    time_sheet("sums in branches", ranges[3], side_by_side(ranges[3], 20));
    time_sheet("sums assigned", around[0], assigned(around[0], 2, 15));
    time_sheet("sums assigned", around[1], assigned(around[1], 3, 1));
}

int main(int count, char **arguments) {
    warm_up();
    if (count > 1)
        time_files(count - 1, arguments + 1);
    else
        time_all();
    return 0;
}
