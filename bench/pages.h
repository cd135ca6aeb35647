/* Three shapes of page, of any size up to 1,024 nodes; `page_nodes` is how many this one has. */
#ifndef PAGES_H
#define PAGES_H

#include "../include/mearrasot.h"

static uint32_t words[MEARRASOT_WORDS * MEARRASOT_MAX_NODES];
static float numbers[MEARRASOT_NUMBERS * MEARRASOT_MAX_NODES];
static float rows[MEARRASOT_ROW * MEARRASOT_MAX_NODES];
static uint32_t marks[MEARRASOT_MARKS * MEARRASOT_MAX_NODES];
static uint32_t pairs[MEARRASOT_PAIR * MEARRASOT_MAX_NODES];
static float triples[MEARRASOT_TRIPLE * MEARRASOT_MAX_NODES];
static size_t page_nodes;

static inline void leaf(size_t i) {
    mearrasot_node(words, numbers, page_nodes, i, 1, MEARRASOT_LEAF);
    mearrasot_measure(numbers, page_nodes, i, 20, (float)(60 + i % 50), (float)(8 + i % 7));
}

static inline void block(size_t i, size_t size) {
    mearrasot_node(words, numbers, page_nodes, i, (uint32_t)size, MEARRASOT_BLOCK);
    mearrasot_set(words, numbers, page_nodes, i, MEARRASOT_F_MARGIN + MEARRASOT_TOP, MEARRASOT_PIXELS, (float)(i % 5));
    mearrasot_set(words, numbers, page_nodes, i, MEARRASOT_F_MARGIN + MEARRASOT_BOTTOM, MEARRASOT_PIXELS, (float)(i % 3));
}

/* A root and leaves. */
static inline void flat(size_t n) {
    size_t i;
    block(0, n);
    for (i = 1; i < n; i++) {
        leaf(i);
    }
}

/* A node inside a node inside a node, depth levels or as many as there are; a leaf last. */
static inline void chain(size_t at, size_t depth) {
    size_t i;
    for (i = 0; i + 1 < depth; i++) {
        block(at + i, depth - i);
    }
    leaf(at + depth - 1);
}

/* A root and chains that reach level 32. */
static inline void deep(size_t n) {
    size_t at = 1;
    block(0, n);
    while (at < n) {
        size_t depth = n - at < 31 ? n - at : 31;
        chain(at, depth);
        at += depth;
    }
}

/* Each block shares what is below it among four; padding and fractions here and there. */
static inline void mixed_below(size_t at, size_t n) {
    size_t left = n - 1, next = at + 1, child;
    if (n == 1) {
        leaf(at);
        return;
    }
    block(at, n);
    if (at % 3 == 1) {
        mearrasot_set(words, numbers, page_nodes, at, MEARRASOT_F_PADDING + MEARRASOT_LEFT, MEARRASOT_FRACTION, 0.03125f);
    }
    if (at % 4 == 2) {
        mearrasot_set(words, numbers, page_nodes, at, MEARRASOT_F_PADDING + MEARRASOT_TOP, MEARRASOT_PIXELS, 2);
    }
    for (child = 4; child > 0 && left > 0; child--) {
        size_t share = (left + child - 1) / child;
        mixed_below(next, share);
        next += share;
        left -= share;
    }
}

/* A page of that shape. It needs same of bare.h. */
static inline void fill(const char *shape, size_t n) {
    page_nodes = n;
    if (same(shape, "flat")) {
        flat(n);
    } else if (same(shape, "deep")) {
        deep(n);
    } else {
        mixed_below(0, n);
    }
}

/* The leaf that is edited: the first from the middle on. */
static inline size_t middle_leaf(size_t n) {
    size_t i = n / 2;
    while ((words[MEARRASOT_WORDS * i + 1] & 3u) != MEARRASOT_LEAF) {
        i++;
    }
    return i;
}

static struct mearrasot_page page_of(size_t n) {
    struct mearrasot_page p;
    p.nodes = n;
    p.words = words;
    p.numbers = numbers;
    p.rows = rows;
    p.marks = marks;
    p.records = n;
    p.pairs = pairs;
    p.triples = triples;
    return p;
}

/* A screen of 320 pixels, or a page as wide as its content up to 320. */
static struct mearrasot_question question(int known) {
    struct mearrasot_question q;
    q.known_width = 320;
    q.known_height = 0;
    q.parent_width = 320;
    q.available = 320;
    q.how = MEARRASOT_DEFINITE | (known ? MEARRASOT_KNOWN_WIDTH : 0u);
    return q;
}

#endif
