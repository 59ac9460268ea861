/* sheets Z RULE SIZE: writes two sheets of that size with the same plays, each with its length in three bytes before
 * it. */
#include <stdio.h>
#include <stdlib.h>

#include "sheets.h"

static void write(struct sheet s) {
    putchar((int)(s.length >> 16 & 255));
    putchar((int)(s.length >> 8 & 255));
    putchar((int)(s.length & 255));
    fwrite(s.bytes, 1, s.length, stdout);
}

int main(int argc, char **argv) {
    if (argc != 4) return 2;
    struct range r = {atoi(argv[1]), atoi(argv[2])};
    write(loops(r, atoi(argv[3]), 1));
    write(loops(r, atoi(argv[3]), 5));
    return 0;
}
