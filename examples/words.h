/*
 * What the example programs that take nodes share: the number that a word is.
 */
#ifndef WORDS_H
#define WORDS_H

#include <stdint.h>

/* The number that a word is; -1 where it is none, or too large for a node. */
static long number_of(const char *word)
{
    long number = 0;
    if (*word == '\0')
        return -1;
    for (; *word != '\0'; word++) {
        if (*word < '0' || *word > '9')
            return -1;
        number = number * 10 + (*word - '0');
        if (number > UINT16_MAX)
            return -1;
    }
    return number;
}

#endif
