/* A word and numbers in a line, for the programs beside this header. */
#ifndef PRINT_H
#define PRINT_H

#include <inttypes.h>
#include <stdio.h>

#define COUNT(array) (sizeof(array) / sizeof((array)[0]))

static void print(const char *word, const uint64_t *numbers, size_t count)
{
    fputs(word, stdout);
    for (size_t i = 0; i < count; i++) {
        printf(" %" PRIu64, numbers[i]);
    }
    putchar('\n');
}

#endif
