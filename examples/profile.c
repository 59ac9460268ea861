/* Holds two routines to the profile of quiet expressions: 1 + d(!x), and x := 1 before it. */
#include <stdio.h>

#include "negyvosal.h"

/* Z = 1, rule 0; name 15 takes a number and is a number, name 10 is a number variable. */
#define HEADING 1, 0, 1, 15, 2, 1, 2, 255, 255, 255, 1, 10, 4, 0, 255, 255, 255, 255
#define TERM 22, 0, 19, 1, 20, 15, 21, 20, 10

static void profile(const char *name, const uint8_t *sheet, size_t length) {
    uint32_t out[NEGYVOSAL_WORDS];
    negyvosal_profile(sheet, length, out, NEGYVOSAL_WORDS);
    if (out[0] == NEGYVOSAL_ACCEPTED)
        printf("%s: type %u size %u\n", name, (unsigned)out[1], (unsigned)out[2]);
    else
        printf("%s: refused %u at %llu\n", name, (unsigned)out[1], (unsigned long long)NEGYVOSAL_WHOLE(out[3], out[4]));
}

int main(void) {
    static const uint8_t quiet[] = {HEADING, TERM};                      /* 1 + d(!x) */
    static const uint8_t loud[] = {HEADING, 24, 23, 20, 10, 19, 1, TERM}; /* x := 1; 1 + d(!x) */
    profile("quiet", quiet, sizeof quiet);
    profile("loud", loud, sizeof loud);
    return 0;
}
