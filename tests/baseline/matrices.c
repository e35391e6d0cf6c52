/* The state as two matrices of four rows of eight nibbles: A in m[0], B in m[1]. */
#include "minalpher.h"

typedef struct {
    uint8_t m[2][4][8];
} State;

static const uint8_t SBOX[16] = {0xB, 0x3, 0x4, 0x1, 0x2, 0x8, 0xC, 0xF,
                                 0x5, 0xD, 0xE, 0x0, 0x6, 0x9, 0xA, 0x7};

/* Where each entry of a shuffled row comes from. P2 undoes P1, and Q2 undoes Q1. */
static const uint8_t P1[8] = {6, 7, 1, 0, 2, 3, 4, 5};
static const uint8_t Q1[8] = {4, 5, 0, 1, 7, 6, 2, 3};
static const uint8_t P2[8] = {3, 2, 4, 5, 6, 7, 0, 1};
static const uint8_t Q2[8] = {2, 3, 6, 7, 0, 1, 5, 4};

static void read_block(State *s, const uint8_t block[32]) {
    for (int x = 0; x < 2; x++)
        for (int i = 0; i < 4; i++)
            for (int j = 0; j < 8; j += 2) {
                uint8_t byte = block[16 * x + 4 * i + j / 2];
                s->m[x][i][j] = byte >> 4;
                s->m[x][i][j + 1] = byte & 15;
            }
}

static void write_block(const State *s, uint8_t block[32]) {
    for (int x = 0; x < 2; x++)
        for (int i = 0; i < 4; i++)
            for (int j = 0; j < 8; j += 2)
                block[16 * x + 4 * i + j / 2] =
                    (uint8_t)(s->m[x][i][j] << 4 | s->m[x][i][j + 1]);
}

static inline void put_row(uint8_t out[8], const uint8_t row[8], const uint8_t list[8]) {
    for (int j = 0; j < 8; j++)
        out[j] = SBOX[row[list[j]]];
}

/* S and T: each nibble through the S-box and to its place, and the matrices change places. */
static void substitute_and_shuffle(State *s) {
    State t;
    put_row(t.m[1][0], s->m[0][0], P1);
    put_row(t.m[1][1], s->m[0][1], Q1);
    put_row(t.m[1][2], s->m[0][2], P2);
    put_row(t.m[1][3], s->m[0][3], Q2);
    put_row(t.m[0][0], s->m[1][0], P2);
    put_row(t.m[0][1], s->m[1][1], Q2);
    put_row(t.m[0][2], s->m[1][2], P1);
    put_row(t.m[0][3], s->m[1][3], Q1);
    *s = t;
}

static void mix_columns(uint8_t m[4][8]) {
    for (int j = 0; j < 8; j++) {
        uint8_t w = m[0][j], x = m[1][j], y = m[2][j], z = m[3][j];
        m[0][j] = w ^ x ^ z;
        m[1][j] = w ^ x ^ y;
        m[2][j] = x ^ y ^ z;
        m[3][j] = w ^ y ^ z;
    }
}

static void mix(State *s) {
    for (int i = 0; i < 4; i++)
        for (int j = 0; j < 8; j++)
            s->m[1][i][j] ^= s->m[0][i][j];
    mix_columns(s->m[0]);
    mix_columns(s->m[1]);
}

static void constant_of(State *e, int k) {
    *e = (State){0};
    for (int i = 0; i < 4; i++)
        for (int j = 0; j < 4; j++)
            e->m[1][i][j] = (uint8_t)((k % 16) ^ i ^ j);
}

static void add(State *s, const State *e) {
    for (int x = 0; x < 2; x++)
        for (int i = 0; i < 4; i++)
            for (int j = 0; j < 8; j++)
                s->m[x][i][j] ^= e->m[x][i][j];
}

void matrices_forward(uint8_t block[32]) {
    State s, e;
    read_block(&s, block);
    for (int k = 0; k < ROUNDS; k++) {
        substitute_and_shuffle(&s);
        mix(&s);
        constant_of(&e, k);
        add(&s, &e);
    }
    substitute_and_shuffle(&s);
    write_block(&s, block);
}

void matrices_backward(uint8_t block[32]) {
    State s, e;
    read_block(&s, block);
    for (int k = ROUNDS - 1; k >= 0; k--) {
        substitute_and_shuffle(&s);
        mix(&s);
        constant_of(&e, k);
        mix(&e);
        add(&s, &e);
    }
    substitute_and_shuffle(&s);
    write_block(&s, block);
}
