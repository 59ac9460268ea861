/* Sheets for timing: so many statements `while e = e do c` in sequence. Each weighs 2 K + 4 and has on average
 * (1 + K) / 2 edges a state in its tests, which is the most that a sheet can have. */
#ifndef SHEETS_H
#define SHEETS_H

#include <stddef.h>
#include <stdint.h>

enum { DECLARE = 1, USE = 20, OPERATE = 22, SEQUENCE = 24, WHILE = 26, EQUAL = 4, C = 8, E = 9, B = 10 };

enum { INFINITIES = 2 };

/* Z and the overflow rule. */
struct range {
    int z, rule;
};

/* The ranges on which services are timed. */
static const struct range ranges[] = {{1, 0}, {7, 0}, {7, INFINITIES}, {31, 0}, {31, INFINITIES}};
#define RANGES (sizeof ranges / sizeof *ranges)

struct sheet {
    uint8_t bytes[4096];
    size_t length;
};

static inline void put(struct sheet *s, int byte) { s->bytes[s->length++] = (uint8_t)byte; }

static inline void declare(struct sheet *s, int id, int type) {
    int record[] = {DECLARE, id, type, 0, 255, 255, 255, 255};
    for (int i = 0; i < 8; i++) put(s, record[i]);
}

/* The heading of a sheet with the names b, c and e. */
static inline struct sheet headed(struct range r) {
    struct sheet s = {{0}, 0};
    put(&s, r.z);
    put(&s, r.rule);
    declare(&s, B, 1);
    declare(&s, C, 0);
    declare(&s, E, 2);
    return s;
}

/* `count` statements, halved as long as there are more than `group`, then one after the other. */
static inline void statements(struct sheet *s, int count, int group) {
    static const int loop[] = {WHILE, OPERATE, EQUAL, USE, E, USE, E, USE, C};
    if (count == 1) {
        for (int i = 0; i < 9; i++) put(s, loop[i]);
        return;
    }
    int left = count > group ? count / 2 : 1;
    put(s, SEQUENCE);
    statements(s, left, group);
    statements(s, count - left, group);
}

/* How many numbers there are. */
static inline int numbers_of(struct range r) { return 2 * r.z + (r.rule == INFINITIES ? 4 : 1); }

/* How many statements a sheet of at most `size` states has. */
static inline int loops_of(struct range r, int size) { return (size - 3) / (2 * numbers_of(r) + 4); }

/* The sheet of at most `size` states; sheets with other groups have the same plays. */
static inline struct sheet loops(struct range r, int size, int group) {
    struct sheet s = {{0}, 0};
    put(&s, r.z);
    put(&s, r.rule);
    declare(&s, C, 0);
    declare(&s, E, 2);
    statements(&s, loops_of(r, size), group);
    return s;
}

#endif
