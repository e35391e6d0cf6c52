/* Checks both C versions, and prints the time of a call of each. */
#include <stdio.h>
#include <string.h>
#include <time.h>

#include "minalpher.h"

typedef void (*Permutation)(uint8_t block[32]);

/* What 17 rounds make of the zero block. */
static const uint8_t OF_ZERO[32] = {
    0x1A, 0xF0, 0x6C, 0x27, 0x86, 0xE9, 0xA0, 0x8B, 0xF0, 0x1A, 0x27, 0x6C, 0xE9, 0x86, 0x8B, 0xA0,
    0x31, 0x4D, 0x42, 0x4B, 0xD5, 0x71, 0x7A, 0x71, 0x4D, 0x31, 0x4B, 0x42, 0x71, 0xD5, 0x71, 0x7A,
};

static int checked(const char *kind, Permutation forward, Permutation backward) {
    uint8_t block[32] = {0}, zero[32] = {0};
    forward(block);
    if (memcmp(block, OF_ZERO, 32) != 0) {
        fprintf(stderr, "driver: %s: the zero block goes elsewhere\n", kind);
        return 0;
    }
    backward(block);
    if (memcmp(block, zero, 32) != 0) {
        fprintf(stderr, "driver: %s: backward does not undo forward\n", kind);
        return 0;
    }
    return 1;
}

/* That both versions agree, on the blocks that a chain of calls comes to. */
static int agreed(void) {
    uint8_t x[32] = {1}, y[32] = {1};
    for (int n = 0; n < 10000; n++) {
        matrices_forward(x);
        rows_forward(y);
        if (memcmp(x, y, 32) != 0)
            return 0;
    }
    for (int n = 0; n < 20000; n++) {
        matrices_backward(x);
        rows_backward(y);
        if (memcmp(x, y, 32) != 0)
            return 0;
    }
    return 1;
}

static double now(void) {
    struct timespec t;
    clock_gettime(CLOCK_MONOTONIC, &t);
    return (double)t.tv_sec * 1e9 + (double)t.tv_nsec;
}

/* The shortest of many runs of 100 calls, each call on what the one before it came to, as in the crate bench. */
static void measured(const char *kind, const char *name, Permutation call) {
    uint8_t block[32] = {0};
    double start = now(), shortest = 1e18;
    while (now() - start < 1e8) {
        double begun = now();
        for (int n = 0; n < 100; n++)
            call(block);
        double spent = now() - begun;
        if (spent < shortest)
            shortest = spent;
    }
    printf("%s %s: %.1f ns a call\n", kind, name, shortest / 100);
}

int main(void) {
    if (!checked("matrices", matrices_forward, matrices_backward) ||
        !checked("rows", rows_forward, rows_backward))
        return 1;
    if (!agreed()) {
        fprintf(stderr, "driver: the two versions disagree\n");
        return 1;
    }
    measured("matrices", "forward", matrices_forward);
    measured("matrices", "backward", matrices_backward);
    measured("rows", "forward", rows_forward);
    measured("rows", "backward", rows_backward);
    return 0;
}
