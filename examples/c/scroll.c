/*
 * A page of 200 pixels behind a screen of 40: each press of the scroll key goes
 * one screen down, and the first row to draw is looked up in the index. The
 * seal is tall and drawn over by the rows after it, so tops are not sorted.
 */
#include <stdio.h>

#include "mearrasot.h"

enum { ROWS = 20, NODES = 2 + ROWS, SEAL = 7, SCREEN = 40 };

static uint32_t words[MEARRASOT_WORDS * NODES];
static float numbers[MEARRASOT_NUMBERS * NODES];
static float rows[MEARRASOT_ROW * NODES];
static uint32_t marks[MEARRASOT_MARKS * NODES];
static uint32_t pairs[MEARRASOT_PAIR];
static float triples[MEARRASOT_TRIPLE];

static uint32_t list[ROWS];
static float tops[ROWS], bottoms[ROWS], running[ROWS];

/* A page, a body in it, twenty rows in that; node 2 is the first row. */
static void fill_page(void) {
    uint32_t k;
    mearrasot_node(words, numbers, NODES, 0, NODES, MEARRASOT_BLOCK);
    mearrasot_node(words, numbers, NODES, 1, NODES - 1, MEARRASOT_BLOCK);
    for (k = 0; k < ROWS; k++) {
        list[k] = 2 + k;
        mearrasot_node(words, numbers, NODES, 2 + k, 1, MEARRASOT_LEAF);
        mearrasot_measure(numbers, NODES, 2 + k, 20, 100, k == SEAL ? 70 : 10);
    }
    mearrasot_set(words, numbers, NODES, 2 + SEAL, MEARRASOT_F_MARGIN + MEARRASOT_BOTTOM, MEARRASOT_PIXELS, -80);
    mearrasot_set(words, numbers, NODES, 2 + SEAL + 2, MEARRASOT_F_MARGIN + MEARRASOT_TOP, MEARRASOT_PIXELS, 20);
}

/* What the scroll key shows at y. */
static void show(float y) {
    uint64_t found[1], answer = mearrasot_scroll(running, ROWS, y, found);
    printf("at %5.1f: ", y);
    if (mearrasot_number(answer) != MEARRASOT_DONE) {
        printf("answer %u\n", (unsigned)mearrasot_number(answer));
    } else if (found[0] == MEARRASOT_NONE) {
        printf("past the last row\n");
    } else {
        printf("row %u, from %.1f to %.1f\n", (unsigned)found[0], tops[found[0]], bottoms[found[0]]);
    }
}

int main(void) {
    const struct mearrasot_page p = {NODES, words, numbers, rows, marks, 1, pairs, triples};
    const struct mearrasot_question q = {100, 0, 100, 100, MEARRASOT_KNOWN_WIDTH | MEARRASOT_DEFINITE};
    const struct mearrasot_leaves l = {ROWS, list, tops, bottoms, running};
    uint64_t answer;
    float y;

    fill_page();
    answer = mearrasot_layout_page(&p, q);
    printf("layout: answer %u, height %.1f\n", (unsigned)mearrasot_number(answer), rows[MEARRASOT_R_HEIGHT]);
    answer = mearrasot_index_page(&p, &l);
    printf("index: answer %u\n", (unsigned)mearrasot_number(answer));
    for (y = 0; y <= rows[MEARRASOT_R_HEIGHT]; y += SCREEN) {
        show(y);
    }

    mearrasot_measure(numbers, NODES, 2, 20, 100, 26); /* a taller first row: all below moves down */
    list[0] = 2;
    answer = mearrasot_relayout_page(&p, list, 1, q);
    printf("relayout: answer %u, height %.1f\n", (unsigned)mearrasot_number(answer), rows[MEARRASOT_R_HEIGHT]);
    answer = mearrasot_index_page(&p, &l);
    printf("index again: answer %u\n", (unsigned)mearrasot_number(answer));
    for (y = 0; y <= rows[MEARRASOT_R_HEIGHT]; y += SCREEN) {
        show(y);
    }
    show((float)1e38 * 10);

    list[5] = 6; /* twice in the list */
    answer = mearrasot_index_page(&p, &l);
    printf("with a row twice: answer %u, place %u\n", (unsigned)mearrasot_number(answer), (unsigned)mearrasot_place(answer));
    return 0;
}
