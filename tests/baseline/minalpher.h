/* Minalpher-P in plain C, as a measure for the proved kinds: on two matrices of nibbles, and on eight words of 32 bits. */
#ifndef MINALPHER_H
#define MINALPHER_H

#include <stdint.h>

#define ROUNDS 17

void matrices_forward(uint8_t block[32]);
void matrices_backward(uint8_t block[32]);
void rows_forward(uint8_t block[32]);
void rows_backward(uint8_t block[32]);

#endif
