/*
 * What the programs here stop with: a reply other than 0, or something that does not
 * hold.
 */
#ifndef CHECK_H
#define CHECK_H

#include <stdio.h>
#include <stdlib.h>
#include <string.h>

#include "clockivy.h"

/* Stops where something that has to hold does not. */
CLOCKIVY_INLINE void check(int holds, const char *otherwise)
{
    if (!holds) {
        fprintf(stderr, "%s\n", otherwise);
        exit(EXIT_FAILURE);
    }
}

/* Stops at a reply other than 0. */
CLOCKIVY_INLINE void done(uint64_t reply, const char *call)
{
    if (reply != CLOCKIVY_DONE) {
        fprintf(stderr, "%s: %s\n", call, clockivy_refusal_text(reply));
        exit(EXIT_FAILURE);
    }
}

#endif /* CHECK_H */
