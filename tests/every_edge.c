/*
 * Every float below 16,777,216 in magnitude as an edge on the coarse panel,
 * against 'cast, rest, compare': make -C tests every-edge. It takes minutes and
 * is no part of the gate.
 *
 * every_edge [PART PARTS]: the bit patterns of one part of PARTS, from 0 on.
 */
#include <stdio.h>
#include <stdlib.h>
#include <string.h>

#include "mearrasot.h"

/* A root at 0, 0 and leaves whose x and y are the edges, two for each leaf. */
enum { LEAVES = 8, NODES = 1 + LEAVES, EDGES = 2 * LEAVES };
static const uint32_t below = 0x4b800000u; /* the bits of 16,777,216 */

static uint32_t words[MEARRASOT_WORDS * NODES], marks[MEARRASOT_MARKS * NODES];
static float rows[MEARRASOT_ROW * NODES];
static int32_t pixels[MEARRASOT_PIXEL_BOX * NODES];

/* Halves up: t drops the fraction, and e - t is exact. */
static int32_t nearest(float e) {
    const int32_t t = (int32_t)e;
    const float rest = e - (float)t;
    return rest >= 0.5f ? t + 1 : rest < -0.5f ? t - 1 : t;
}

static float of_bits(uint32_t bits) {
    float e;
    memcpy(&e, &bits, sizeof e);
    return e;
}

static float *edge(uint32_t k) {
    return rows + MEARRASOT_ROW * (1 + k / 2) + k % 2;
}

static void fill(void) {
    uint32_t i;
    for (i = 0; i < NODES; i++) {
        uint32_t *w = words + MEARRASOT_WORDS * i;
        w[0] = i == 0 ? NODES : 1;
        w[1] = i == 0 ? MEARRASOT_BLOCK : MEARRASOT_LEAF;
        w[2] = (uint32_t)(MEARRASOT_USUAL_UNITS & 0xffffffffu);
        w[3] = (uint32_t)(MEARRASOT_USUAL_UNITS >> 32);
        marks[MEARRASOT_MARKS * i + MEARRASOT_M_BITS] = MEARRASOT_LAID;
    }
}

int main(int argc, char **argv) {
    const uint32_t part = argc > 2 ? (uint32_t)strtoul(argv[1], NULL, 10) : 0;
    const uint32_t parts = argc > 2 ? (uint32_t)strtoul(argv[2], NULL, 10) : 1;
    const uint32_t first = (uint32_t)((uint64_t)below * part / parts / LEAVES * LEAVES);
    const uint32_t end = (uint32_t)((uint64_t)below * (part + 1) / parts / LEAVES * LEAVES);
    uint64_t run = 0, wrong = 0;
    uint32_t bits, k;
    fill();
    for (bits = first; bits < end; bits += LEAVES) {
        for (k = 0; k < LEAVES; k++) { /* across the number, down its negative */
            *edge(2 * k) = of_bits(bits + k);
            *edge(2 * k + 1) = of_bits((bits + k) | 0x80000000u);
        }
        if (mearrasot_coarse(words, MEARRASOT_WORDS * NODES, rows, MEARRASOT_ROW * NODES, marks,
                             MEARRASOT_MARKS * NODES, pixels, MEARRASOT_PIXEL_BOX * NODES) != MEARRASOT_DONE) {
            printf("refused at %08x\n", (unsigned)bits);
            return 1;
        }
        for (k = 0; k < EDGES; k++) {
            const int32_t *box = pixels + MEARRASOT_PIXEL_BOX * (1 + k / 2);
            run++;
            if (box[k % 2] != nearest(*edge(k)) || box[2 + k % 2] != 0) {
                wrong++;
                if (wrong <= 20) {
                    printf("%.9g: %d, size %d\n", *edge(k), (int)box[k % 2], (int)box[2 + k % 2]);
                }
            }
        }
    }
    printf("every_edge: %llu edges, %llu differ\n", (unsigned long long)run, (unsigned long long)wrong);
    return wrong != 0;
}
