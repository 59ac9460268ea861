/* What the timing programs share: a clock, the least of several times, a sheet read from a file, and its size. */
#ifndef TIMING_H
#define TIMING_H

#include <stdio.h>
#include <stdlib.h>
#include <time.h>

#include "negyvosal.h"
#include "sheets.h"

/* More than any time. */
#define NEVER 1e18

/* The processor time of this thread in milliseconds. What else the machine does is not in it. */
static inline double now(void) {
    struct timespec t;
    clock_gettime(CLOCK_THREAD_CPUTIME_ID, &t);
    return (double)t.tv_sec * 1e3 + (double)t.tv_nsec / 1e6;
}

/* Keeps the least of the times that are given one after the other; it begins as NEVER. */
static inline void keep_least(double *least, double time) {
    if (time < *least) *least = time;
}

/* A time on a sheet of some size. */
struct point {
    double size, time;
};

/* How many times that of half the size the time is. Where the sizes are not one the double of the other, the lesser
 * time is first brought to half the greater size in proportion. */
static inline double growth(struct point less, struct point more) {
    return more.time / (less.time * (more.size / 2) / less.size);
}

/* Prints a time of a service with its growth from the point before, if there is one. */
static inline void print_point(const char *service, struct point before, struct point p) {
    printf("  %s %7.3f ms", service, p.time);
    if (before.size > 0) printf(" (%.2f)", growth(before, p));
    else printf("       ");
}

/* Keeps the processor busy first: on some machines a process is slow in its first tens of milliseconds. */
static inline void warm_up(void) {
    double start = now();
    while (now() - start < 300) {
    }
}

/* The reckoned size of a sheet, or 0 where it is refused. */
static inline uint32_t size_of(const struct sheet *s) {
    uint32_t out[NEGYVOSAL_WORDS];
    negyvosal_check(s->bytes, s->length, out, NEGYVOSAL_WORDS);
    return out[0] == NEGYVOSAL_ACCEPTED ? out[2] : 0;
}

/* The sheet of a file. */
static inline struct sheet read_sheet(const char *name) {
    struct sheet s = {{0}, 0};
    FILE *file = fopen(name, "rb");
    if (!file) {
        perror(name);
        exit(1);
    }
    s.length = fread(s.bytes, 1, sizeof s.bytes, file);
    fclose(file);
    return s;
}

#endif
