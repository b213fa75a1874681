/* What a program of checks counts, and prints of each that fails. */
#ifndef COUNTS_H
#define COUNTS_H

#include <stdint.h>
#include <stdio.h>

static int passed, failed;

static void is(const char *what, uint32_t code, uint32_t wanted) {
    if (code == wanted) {
        passed++;
    } else {
        failed++;
        printf("FAILED %s: %u instead of %u\n", what, code, wanted);
    }
}

#endif
