/* Times the service check on sheets of 1,024, 2,048 and 4,096 bytes, of shapes that keep it busy to the last byte.
 * Processor time, the least of some runs; and how many times that of 1,024 bytes that of 4,096 is. */
#include <stdio.h>
#include <stdlib.h>

#include "negyvosal.h"
#include "sheets.h"
#include "timing.h"

#define RUNS 501
#define SHORTEST 1024
#define LONGEST 4096

enum { SKIP = 16, DIVERGE = 17, TRUTH = 18, NUMBER = 19, IF = 25, NEW = 27 };

/* Name `id`: a command with `count` commands as arguments. */
static void declare_commands(struct sheet *s, int id, int count) {
    put(s, DECLARE);
    put(s, id);
    put(s, 0);
    put(s, count);
    for (int i = 0; i < 4; i++) put(s, i < count ? 0 : 255);
}

/* A command of `bytes` bytes, one at least: skips in sequences; an if or a diverge where the bytes are even. */
static void skips(struct sheet *s, size_t bytes) {
    if (bytes == 1) {
        put(s, SKIP);
    } else if (bytes == 2) {
        put(s, DIVERGE);
        put(s, 0);
    } else if (bytes % 2 == 1 || bytes == 4) {
        size_t left = (bytes - 3) / 4 * 2 + 1;
        put(s, SEQUENCE);
        skips(s, left);
        skips(s, bytes - 1 - left);
    } else {
        size_t left = (bytes - 3) / 4 * 2 + 1;
        put(s, IF);
        put(s, TRUTH);
        put(s, 1);
        skips(s, left);
        skips(s, bytes - 3 - left);
    }
}

/* A command of `bytes` bytes: ifs wherever there is room. */
static void ifs(struct sheet *s, size_t bytes) {
    if (bytes < 5) {
        skips(s, bytes);
    } else {
        size_t left = (bytes - 3) / 2;
        put(s, IF);
        put(s, TRUTH);
        put(s, 1);
        ifs(s, left);
        ifs(s, bytes - 3 - left);
    }
}

/* A command of `bytes` bytes: uses of name 0 with four arguments; below `leaf` bytes, sequences of diverge. */
static void uses(struct sheet *s, size_t bytes, size_t leaf) {
    if (bytes < 6 || bytes < leaf) {
        if (bytes < 5) {
            skips(s, bytes);
        } else {
            put(s, SEQUENCE);
            uses(s, 2, leaf);
            uses(s, bytes - 3, leaf);
        }
    } else {
        size_t rest = bytes - 2;
        put(s, USE);
        put(s, 0);
        for (size_t left = 4; left > 0; left--) {
            size_t part = rest / left;
            rest -= part;
            uses(s, part, leaf);
        }
    }
}

/* A command of `bytes` bytes: blocks of `depth` news, one inside the other, side by side in sequences. */
static void news(struct sheet *s, size_t bytes, size_t depth) {
    if (bytes <= 3 * depth + 3) {
        size_t inside = bytes < 4 ? 0 : (bytes - 1) / 3;
        for (size_t i = 0; i < inside; i++) {
            put(s, NEW);
            put(s, (int)i);
            put(s, 1);
        }
        skips(s, bytes - 3 * inside);
    } else {
        size_t left = (bytes - 1) / 2;
        put(s, SEQUENCE);
        news(s, left, depth);
        news(s, bytes - 1 - left, depth);
    }
}

/* A number of `bytes` bytes, an even number: sums. */
static void sums(struct sheet *s, size_t bytes) {
    if (bytes < 6) {
        put(s, bytes == 2 ? NUMBER : OPERATE);
        put(s, 0);
        if (bytes > 2) sums(s, 2);
        if (bytes > 4) sums(s, bytes - 4);
    } else {
        size_t left = (bytes - 2) / 4 * 2;
        put(s, OPERATE);
        put(s, 0);
        sums(s, left);
        sums(s, bytes - 2 - left);
    }
}

static void shape_skips(struct sheet *s, size_t bytes) { skips(s, bytes - s->length); }

static void shape_ifs(struct sheet *s, size_t bytes) { ifs(s, bytes - s->length); }

static void shape_uses(struct sheet *s, size_t bytes) {
    declare_commands(s, 0, 4);
    uses(s, bytes - s->length, 16);
}

static void shape_uses_over(struct sheet *s, size_t bytes) {
    declare_commands(s, 0, 4);
    uses(s, bytes - s->length, 0);
}

static void shape_names(struct sheet *s, size_t bytes) {
    for (int i = 0; i < 32; i++) declare_commands(s, i, 4);
    uses(s, bytes - s->length, 16);
}

static void shape_news(struct sheet *s, size_t bytes) { news(s, bytes - s->length, 3); }

static void shape_news_over(struct sheet *s, size_t bytes) { news(s, bytes - s->length, 20); }

static void shape_sums_over(struct sheet *s, size_t bytes) { sums(s, bytes - s->length); }

static void shape_last_byte(struct sheet *s, size_t bytes) {
    skips(s, bytes - s->length);
    s->bytes[bytes - 1] = 255;
}

static void shape_bytes_after(struct sheet *s, size_t bytes) {
    skips(s, bytes - s->length - 1);
    put(s, SKIP);
}

struct shape {
    const char *name;
    void (*make)(struct sheet *, size_t bytes);
};

static const struct shape shapes[] = {
    {"skips in sequences", shape_skips},
    {"skips in ifs", shape_ifs},
    {"uses with four arguments", shape_uses},
    {"the same, over the size", shape_uses_over},
    {"32 names, then uses", shape_names},
    {"news three deep", shape_news},
    {"news twenty deep, over the size", shape_news_over},
    {"sums, over the size", shape_sums_over},
    {"last byte out of range", shape_last_byte},
    {"a byte after the term", shape_bytes_after},
};

static struct sheet made(const struct shape *shape, size_t bytes) {
    struct sheet s = {{0}, 0};
    put(&s, 1);
    put(&s, 0);
    shape->make(&s, bytes);
    if (s.length != bytes) {
        fprintf(stderr, "%s: %zu bytes\n", shape->name, s.length);
        exit(1);
    }
    return s;
}

/* The least time of checking a sheet; its answer in `out`. */
static double timed(const struct sheet *s, uint32_t *out) {
    double least = NEVER;
    for (int run = 0; run < RUNS; run++) {
        double start = now();
        negyvosal_check(s->bytes, s->length, out, NEGYVOSAL_WORDS);
        keep_least(&least, now() - start);
    }
    return least;
}

static void print_answer(const char *name, const uint32_t *out) {
    char answer[64];
    if (out[0] == NEGYVOSAL_ACCEPTED)
        snprintf(answer, sizeof answer, "accepted, size %u", (unsigned)out[2]);
    else
        snprintf(answer, sizeof answer, "refused %u at %u", (unsigned)out[1], (unsigned)out[3]);
    printf("  %-34s%s\n", name, answer);
}

static void time_shape(const struct shape *shape) {
    double first = 0, last = 0;
    uint32_t out[NEGYVOSAL_WORDS];
    for (size_t bytes = SHORTEST; bytes <= LONGEST; bytes *= 2) {
        struct sheet s = made(shape, bytes);
        last = timed(&s, out);
        if (bytes == SHORTEST) first = last;
        printf("%12.1f", last * 1e3);
    }
    printf("%14.2f", last / first);
    print_answer(shape->name, out);
}

int main(void) {
    warm_up();
    for (size_t bytes = SHORTEST; bytes <= LONGEST; bytes *= 2) printf("%6zu bytes", bytes);
    printf("%14s  %-34s%s\n", "last : first", "check, us", "last answer");
    for (size_t i = 0; i < sizeof shapes / sizeof *shapes; i++) time_shape(&shapes[i]);
    return 0;
}
