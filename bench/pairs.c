/* `pairs FOLDER [RUNS [CLASS]]`: compares the pairs of sheets of a folder such as bench/pairs with the library alone,
 * or only those of a class. Prints the least processor time of RUNS a pair, summed by class, in microseconds, and a
 * hash of all answers and play spaces, by which two builds of the library are held to each other. */
#include <stdio.h>
#include <stdlib.h>
#include <string.h>

#include "negyvosal.h"
#include "sheets.h"
#include "timing.h"

#define NAME 64

static uint32_t words[NEGYVOSAL_COMPARE_WORDS(31, 4096, 4096)];
static uint8_t space[NEGYVOSAL_COMPARE_SPACE(4096, 4096)];
static uint64_t hash = 14695981039346656037u;

/* A pair, and what the library is lent for it. */
struct pair {
    struct sheet old, new;
    size_t words, space;
};

/* A step of the hash FNV-1a. */
static void mix(uint64_t x) { hash = (hash ^ x) * 1099511628211u; }

static struct sheet part_of(const char *folder, const char *pair, const char *file) {
    char path[4096];
    snprintf(path, sizeof path, "%s/%s/%s", folder, pair, file);
    return read_sheet(path);
}

static struct pair read_pair(const char *folder, const char *name) {
    struct pair p = {part_of(folder, name, "old.sheet"), part_of(folder, name, "new.sheet"), 0, 0};
    size_t s = size_of(&p.old), t = size_of(&p.new);
    if (!s || !t) {
        fprintf(stderr, "pair %s is refused\n", name);
        exit(1);
    }
    p.words = NEGYVOSAL_COMPARE_WORDS(p.old.bytes[0], s, t);
    p.space = NEGYVOSAL_COMPARE_SPACE(s, t);
    return p;
}

/* One comparison, from cleared play space; its time. */
static double compare(const struct pair *p, uint32_t *out) {
    memset(space, 0, sizeof space);
    double start = now();
    negyvosal_compare(p->old.bytes, p->old.length, p->new.bytes, p->new.length, words, p->words, space, p->space, out,
                      NEGYVOSAL_WORDS);
    return now() - start;
}

/* Mixes in what a comparison left; every working word has to be 0. */
static void mix_answer(const struct pair *p, const uint32_t *out) {
    for (int i = 0; i < NEGYVOSAL_WORDS; i++) mix(out[i]);
    for (size_t i = 0; i < p->space; i++) mix(space[i]);
    for (size_t i = 0; i < p->words; i++) {
        if (words[i]) {
            fprintf(stderr, "working word %zu is not 0\n", i);
            exit(1);
        }
    }
}

static double time_pair(const struct pair *p, int runs) {
    double least = NEVER;
    uint32_t out[NEGYVOSAL_WORDS];
    for (int run = 0; run < runs; run++) keep_least(&least, compare(p, out));
    mix_answer(p, out);
    return least;
}

static void print_sum(const char *class, double milliseconds) {
    if (class[0]) printf("%-16s%8.0f us\n", class, milliseconds * 1e3);
}

/* Times the pairs of the index, which stand class by class; the sum of all times, 0 where there is no pair. */
static double time_index(FILE *index, const char *folder, int runs, const char *only) {
    char line[512], pair[NAME], class[NAME], last[NAME] = "";
    double sum = 0, all = 0;
    while (fgets(line, sizeof line, index)) {
        if (line[0] == '#' || sscanf(line, "%63s %63s", pair, class) != 2 || (only && strcmp(only, class))) continue;
        if (strcmp(last, class)) {
            print_sum(last, sum);
            strcpy(last, class);
            sum = 0;
        }
        struct pair p = read_pair(folder, pair);
        double least = time_pair(&p, runs);
        sum += least;
        all += least;
    }
    print_sum(last, sum);
    return all;
}

int main(int count, char **arguments) {
    char path[4096];
    int runs = count > 2 ? atoi(arguments[2]) : 1;
    if (count < 2 || count > 4 || runs < 1) {
        fprintf(stderr, "usage: pairs FOLDER [RUNS [CLASS]]\n");
        return 2;
    }
    snprintf(path, sizeof path, "%s/index.txt", arguments[1]);
    FILE *index = fopen(path, "r");
    if (!index) {
        perror(path);
        return 1;
    }
    double all = time_index(index, arguments[1], runs, count > 3 ? arguments[3] : NULL);
    fclose(index);
    if (all == 0) {
        fprintf(stderr, "%s has no such pair\n", path);
        return 1;
    }
    print_sum("all", all);
    printf("answers %016llx\n", (unsigned long long)hash);
    return 0;
}
