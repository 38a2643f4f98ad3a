/*
 * A harness: one input after the other from afl-fuzz, or the files that are named,
 * or standard input once.
 */
#include <stdio.h>
#include <unistd.h>

#include "cover.h"
#include "one.h"

/* Inputs of one child, and the longest one. */
#define INPUTS 20000
#define MOST_BYTES (1 << 20)

static uint8_t bytes[MOST_BYTES];

int main(int words, char **word)
{
    size_t i;

    begin();
    for (i = 1; i < (size_t)words; i++) {
        FILE *file = fopen(word[i], "rb");

        if (file == NULL) {
            perror(word[i]);
            return 2;
        }
        one(bytes, fread(bytes, 1, MOST_BYTES, file));
        fclose(file);
    }
    if (words > 1)
        return 0;
    cover_start(INPUTS);
    while (cover_next()) {
        size_t len = 0;
        ssize_t got;

        while (len < MOST_BYTES &&
               (got = read(0, bytes + len, MOST_BYTES - len)) > 0)
            len += (size_t)got;
        one(bytes, len);
    }
    return 0;
}
