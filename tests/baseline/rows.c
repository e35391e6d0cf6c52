/* The state as eight words of 32 bits, a row in each with its first nibble highest: A in w[0] to w[3], B in w[4] to w[7].
   No table, and no branch on what a block holds. */
#include "minalpher.h"

#define ONES 0x11111111u

static uint32_t rotated_right(uint32_t w, int n) {
    return w >> n | w << (32 - n);
}

/* S by the four bit planes of the word. */
static uint32_t substituted(uint32_t a) {
    uint32_t b = a >> 1, c = a >> 2, d = a >> 3;
    uint32_t e = a ^ b;
    uint32_t f = c ^ (a & b);
    uint32_t s3 = e ^ (d | f) ^ ONES;
    uint32_t g = d ^ s3;
    uint32_t h = a | g;
    uint32_t s0 = (f & g) ^ h;
    uint32_t s1 = (c | s3) ^ (e & h);
    uint32_t s2 = c ^ h ^ (b | s1);
    return (s0 & ONES) | (s1 & ONES) << 1 | (s2 & ONES) << 2 | (s3 & ONES) << 3;
}

/* The lists of T. */
static uint32_t p1(uint32_t a) {
    uint32_t w = rotated_right(a, 8);
    return (w & 0xFF00FFFFu) | (w & 0x00F00000u) >> 4 | (w & 0x000F0000u) << 4;
}

static uint32_t p2(uint32_t a) {
    uint32_t w = rotated_right(a, 24);
    return (w & 0x00FFFFFFu) | (w & 0xF0000000u) >> 4 | (w & 0x0F000000u) << 4;
}

static uint32_t q1(uint32_t a) {
    uint32_t w = rotated_right(a, 16);
    return (w & 0xFF0000FFu) | (w & 0x0000FF00u) << 8 | (w & 0x00F00000u) >> 12 |
           (w & 0x000F0000u) >> 4;
}

static uint32_t q2(uint32_t a) {
    uint32_t w = rotated_right(a, 16);
    return (w & 0x00FFFF00u) | (w & 0x000000FFu) << 24 | (w & 0xF0000000u) >> 28 |
           (w & 0x0F000000u) >> 20;
}

static void substitute_and_shuffle(uint32_t w[8]) {
    uint32_t a0 = p1(substituted(w[0])), a1 = q1(substituted(w[1]));
    uint32_t a2 = p2(substituted(w[2])), a3 = q2(substituted(w[3]));
    w[0] = p2(substituted(w[4]));
    w[1] = q2(substituted(w[5]));
    w[2] = p1(substituted(w[6]));
    w[3] = q1(substituted(w[7]));
    w[4] = a0;
    w[5] = a1;
    w[6] = a2;
    w[7] = a3;
}

static void mix_columns(uint32_t w[4]) {
    uint32_t a = w[0], b = w[1], c = w[2], d = w[3];
    w[0] = a ^ b ^ d;
    w[1] = a ^ b ^ c;
    w[2] = b ^ c ^ d;
    w[3] = a ^ c ^ d;
}

static void mix(uint32_t w[8]) {
    for (int i = 0; i < 4; i++)
        w[4 + i] ^= w[i];
    mix_columns(w);
    mix_columns(w + 4);
}

static uint32_t constant_of(int k, int i) {
    return 0x11110000u * (uint32_t)((k % 16) ^ i) ^ 0x01230000u;
}

static void read_block(uint32_t w[8], const uint8_t block[32]) {
    for (int i = 0; i < 8; i++)
        w[i] = (uint32_t)block[4 * i] << 24 | (uint32_t)block[4 * i + 1] << 16 |
               (uint32_t)block[4 * i + 2] << 8 | block[4 * i + 3];
}

static void write_block(const uint32_t w[8], uint8_t block[32]) {
    for (int i = 0; i < 8; i++) {
        block[4 * i] = (uint8_t)(w[i] >> 24);
        block[4 * i + 1] = (uint8_t)(w[i] >> 16);
        block[4 * i + 2] = (uint8_t)(w[i] >> 8);
        block[4 * i + 3] = (uint8_t)w[i];
    }
}

void rows_forward(uint8_t block[32]) {
    uint32_t w[8];
    read_block(w, block);
    for (int k = 0; k < ROUNDS; k++) {
        substitute_and_shuffle(w);
        mix(w);
        for (int i = 0; i < 4; i++)
            w[4 + i] ^= constant_of(k, i);
    }
    substitute_and_shuffle(w);
    write_block(w, block);
}

void rows_backward(uint8_t block[32]) {
    uint32_t w[8];
    read_block(w, block);
    for (int k = ROUNDS - 1; k >= 0; k--) {
        substitute_and_shuffle(w);
        mix(w);
        /* M of the constant: A of it is zero, so only the columns of B are mixed. */
        uint32_t e[4];
        for (int i = 0; i < 4; i++)
            e[i] = constant_of(k, i);
        mix_columns(e);
        for (int i = 0; i < 4; i++)
            w[4 + i] ^= e[i];
    }
    substitute_and_shuffle(w);
    write_block(w, block);
}
