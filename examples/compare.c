/* Compares two routines, f(skip) and f(diverge), where f may or may not call its argument: looks through four moves
 * first, then compares them whole, then follows the play shown. Lends just what is needed, by Z and the sizes. */
#include <stdio.h>
#include <stdlib.h>

#include "negyvosal.h"

/* Z = 31, rule 0; name 7 takes a command and is a command. */
#define HEADING 31, 0, 1, 7, 0, 1, 0, 255, 255, 255

/* The size of a sheet; 0 where it is refused. */
static size_t size_of(const uint8_t *sheet, size_t length) {
    uint32_t out[NEGYVOSAL_WORDS];
    negyvosal_check(sheet, length, out, NEGYVOSAL_WORDS);
    return out[0] == NEGYVOSAL_ACCEPTED ? out[2] : 0;
}

int main(void) {
    static const uint8_t old_sheet[] = {HEADING, 20, 7, 16};      /* f(skip) */
    static const uint8_t new_sheet[] = {HEADING, 20, 7, 17, 0};   /* f(diverge) */
    size_t s = size_of(old_sheet, sizeof old_sheet), t = size_of(new_sheet, sizeof new_sheet);
    if (!s || !t) return 1;
    size_t words_length = NEGYVOSAL_COMPARE_WORDS(old_sheet[0], s, t), space_length = NEGYVOSAL_COMPARE_SPACE(s, t);
    uint32_t *words = malloc(words_length * sizeof *words);
    uint8_t *space = malloc(space_length);
    if (!words || !space) return 1;
    uint32_t out[NEGYVOSAL_WORDS];
    size_t bytes = 0;

    negyvosal_look(old_sheet, sizeof old_sheet, new_sheet, sizeof new_sheet, 4, words, words_length, space,
                   space_length, out, NEGYVOSAL_WORDS);
    if (out[0] != NEGYVOSAL_SO_FAR) return 1;
    printf("same so far %llu\n", (unsigned long long)NEGYVOSAL_WHOLE(out[2], out[3]));

    negyvosal_compare(old_sheet, sizeof old_sheet, new_sheet, sizeof new_sheet, words, words_length, space, space_length,
                      out, NEGYVOSAL_WORDS);
    if (out[0] != NEGYVOSAL_APART) return 1;
    printf("apart in %s %u\n", out[1] == NEGYVOSAL_OLD ? "old" : "new", (unsigned)out[2]);
    for (uint32_t i = 0; i < out[2]; i++) bytes += space[bytes] < 5 ? 3 : 4;

    negyvosal_follow(new_sheet, sizeof new_sheet, space, bytes, words, NEGYVOSAL_FOLLOW_WORDS(new_sheet[0], t), out,
                     NEGYVOSAL_WORDS);
    if (out[0] != NEGYVOSAL_FOLLOWS) return 1;
    printf("new follows %llu complete %s\n", (unsigned long long)NEGYVOSAL_WHOLE(out[2], out[3]), out[1] ? "yes" : "no");
    free(words);
    free(space);
    return 0;
}
