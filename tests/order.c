/*
 * Rows keep their order: each condition of mearrasot_keeps_order, by a page that
 * is out of order without it; and random pages, of which those that get a yes
 * are in order after a layout and after a relayout.
 */
#include <string.h>

#include "check.h"
#include "mearrasot_page.h"

enum { NODES = 12 };

static uint32_t words[MEARRASOT_WORDS * NODES];
static float numbers[MEARRASOT_NUMBERS * NODES];
static float rows[MEARRASOT_ROW * NODES];
static uint32_t marks[MEARRASOT_MARKS * NODES];
static uint32_t pairs[MEARRASOT_PAIR * NODES];
static float triples[MEARRASOT_TRIPLE * NODES];

static struct mearrasot_page page_of(uint32_t nodes) {
    struct mearrasot_page p;
    p.nodes = nodes;
    p.words = words;
    p.numbers = numbers;
    p.rows = rows;
    p.marks = marks;
    p.records = NODES;
    p.pairs = pairs;
    p.triples = triples;
    return p;
}

/* Of two laid children of one node, the later one is not above the other's bottom edge. */
static int in_order(const struct mearrasot_page *p) {
    uint32_t i, j;
    for (i = 0; i < p->nodes; i++) {
        const struct mearrasot_box a = mearrasot_box_of(p, i);
        const float bottom = a.y + a.height;
        if (!mearrasot_is_laid(p, i)) {
            continue;
        }
        for (j = mearrasot_next_sibling(p, i); j != MEARRASOT_NO_NODE; j = mearrasot_next_sibling(p, j)) {
            if (mearrasot_is_laid(p, j) && !(bottom <= mearrasot_box_of(p, j).y)) {
                return 0;
            }
        }
    }
    return 1;
}

/* A page of a root and boxes of these heights. */
static struct mearrasot_page boxes(uint32_t style, float a, float b, float c) {
    const float heights[3] = {a, b, c};
    uint32_t i;
    mearrasot_node(words, numbers, 4, 0, 4, style);
    for (i = 1; i < 4; i++) {
        mearrasot_node(words, numbers, 4, i, 1, MEARRASOT_BLOCK);
        mearrasot_set(words, numbers, 4, i, MEARRASOT_F_HEIGHT, MEARRASOT_PIXELS, heights[i - 1]);
    }
    return page_of(4);
}

static void expect(const struct mearrasot_page *p, uint64_t keeps, int ordered) {
    CHECK(mearrasot_keeps_order_page(p) == keeps);
    IS(mearrasot_layout_page(p, mearrasot_screen(100)), MEARRASOT_DONE, 0);
    CHECK(in_order(p) == ordered);
}

static void test_margin(void) {
    const struct mearrasot_page p = boxes(MEARRASOT_BLOCK, 10, 10, 10);
    const unsigned bottom = MEARRASOT_F_MARGIN + MEARRASOT_BOTTOM;
    expect(&p, 1, 1);
    mearrasot_set(words, numbers, 4, 1, bottom, MEARRASOT_PIXELS, -4);
    expect(&p, 0, 0);
    mearrasot_set(words, numbers, 4, 1, bottom, MEARRASOT_PIXELS, -0.0f); /* -0 is not negative */
    expect(&p, 1, 1);
    mearrasot_set(words, numbers, 4, 1, bottom, MEARRASOT_AUTO, -4); /* not used */
    expect(&p, 1, 1);
    mearrasot_set(words, numbers, 4, 1, bottom, MEARRASOT_FRACTION, 0.5f);
    expect(&p, 0, 1);
    mearrasot_set(words, numbers, 4, 1, bottom + 1, MEARRASOT_FRACTION, -0.5f); /* a side margin */
    mearrasot_set(words, numbers, 4, 1, bottom, MEARRASOT_PIXELS, 4);
    expect(&p, 1, 1);
}

static void test_relative(void) {
    const struct mearrasot_page p = boxes(MEARRASOT_BLOCK, 10, 10, 10);
    mearrasot_set(words, numbers, 4, 1, MEARRASOT_F_INSET + MEARRASOT_TOP, MEARRASOT_PIXELS, 5);
    expect(&p, 1, 1);
    words[MEARRASOT_WORDS + 1] = MEARRASOT_BLOCK | MEARRASOT_RELATIVE;
    expect(&p, 0, 0);
}

/* Boxes of 3.6, 0.7 and 1 in one of 20: a shift costs the last bit. */
static void test_align(void) {
    static const uint32_t in[4] = {MEARRASOT_ALIGN_NORMAL, MEARRASOT_ALIGN_START, MEARRASOT_ALIGN_SPACE_BETWEEN,
                                   MEARRASOT_ALIGN_STRETCH};
    static const uint32_t out[6] = {MEARRASOT_ALIGN_CENTER,       MEARRASOT_ALIGN_END,          MEARRASOT_ALIGN_SAFE_CENTER,
                                    MEARRASOT_ALIGN_SAFE_END,     MEARRASOT_ALIGN_SPACE_AROUND, MEARRASOT_ALIGN_SPACE_EVENLY};
    struct mearrasot_page p;
    unsigned k;
    for (k = 0; k < 10; k++) {
        p = boxes(MEARRASOT_BLOCK | (k < 4 ? in[k] : out[k - 4]), 3.6f, 0.7f, 1);
        mearrasot_set(words, numbers, 4, 0, MEARRASOT_F_HEIGHT, MEARRASOT_PIXELS, 20);
        expect(&p, k < 4, k < 4);
    }
}

/* A scrollbar of 115 in a width of 100: all of the inner width is -15. */
static void test_fraction(void) {
    static const unsigned fields[3] = {MEARRASOT_F_PADDING, MEARRASOT_F_BORDER, MEARRASOT_F_MARGIN};
    struct mearrasot_page p;
    unsigned k, side;
    for (k = 0; k < 3; k++) {
        p = boxes(MEARRASOT_BLOCK | MEARRASOT_Y_SCROLL, 10, 0, 10);
        words[2 * MEARRASOT_WORDS + 1] = MEARRASOT_BLOCK | MEARRASOT_CONTENT_BOX;
        numbers[MEARRASOT_NUMBER(4, 0, MEARRASOT_F_SCROLLBAR)] = 115;
        expect(&p, 1, 1);
        for (side = MEARRASOT_TOP; side <= MEARRASOT_BOTTOM; side += 2) {
            mearrasot_set(words, numbers, 4, 2, fields[k] + side, MEARRASOT_FRACTION, 1);
        }
        expect(&p, 0, 0);
    }
}

/* No node is not steady; what is not lent reads as 0. */
static void test_lengths(void) {
    struct mearrasot_page p = boxes(MEARRASOT_BLOCK, 10, 10, 10);
    mearrasot_set(words, numbers, 4, 3, MEARRASOT_F_MARGIN, MEARRASOT_PIXELS, -1);
    CHECK(mearrasot_keeps_order_page(&p) == 0);
    CHECK(mearrasot_keeps_order(words, 4 * MEARRASOT_WORDS - 1, numbers, 4 * MEARRASOT_NUMBERS) == 1);
    CHECK(mearrasot_keeps_order(words, 4 * MEARRASOT_WORDS, numbers, 0) == 1);
    p.nodes = 0;
    CHECK(mearrasot_keeps_order_page(&p) == 1);
    p.words = NULL;
    CHECK(mearrasot_keeps_order_page(&p) == 1);
}

static uint32_t seed = 1;

static uint32_t below(uint32_t n) {
    seed = seed * 1664525u + 1013904223u;
    return (seed >> 8) % n;
}

static float tenths(uint32_t n) {
    return (float)below(n) / 10.0f;
}

/* Nodes from `node` on, so many, all below one parent. */
static void fill(uint32_t node, uint32_t count, int odd) {
    while (count > 0) {
        const uint32_t size = 1 + below(count);
        uint32_t style = below(8) == 0 ? MEARRASOT_HIDDEN : below(8) == 0 ? MEARRASOT_OUT_OF_FLOW : 0u;
        unsigned side;
        if (odd && below(12) == 0) {
            style |= style == 0u ? MEARRASOT_RELATIVE : MEARRASOT_ALIGN_CENTER;
        }
        mearrasot_node(words, numbers, NODES, node, size, style);
        if (below(3) == 0) {
            mearrasot_set(words, numbers, NODES, node, MEARRASOT_F_HEIGHT, MEARRASOT_PIXELS, tenths(100));
        }
        mearrasot_set(words, numbers, NODES, node, MEARRASOT_F_INSET, MEARRASOT_PIXELS, tenths(50));
        for (side = MEARRASOT_TOP; side <= MEARRASOT_BOTTOM; side += 2) {
            const float margin = odd && below(12) == 0 ? -tenths(50) : tenths(50);
            mearrasot_set(words, numbers, NODES, node, MEARRASOT_F_MARGIN + side, MEARRASOT_PIXELS, margin);
            mearrasot_set(words, numbers, NODES, node, MEARRASOT_F_PADDING + side, MEARRASOT_PIXELS, below(3) ? 0 : tenths(20));
        }
        fill(node + 1, size - 1, odd);
        node += size;
        count -= size;
    }
}

static void test_random(void) {
    const struct mearrasot_page p = page_of(NODES);
    unsigned long kept = 0, broken = 0, laid = 0;
    uint32_t round, edits[1];
    for (round = 0; round < 20000; round++) {
        uint64_t keeps;
        mearrasot_node(words, numbers, NODES, 0, NODES, MEARRASOT_BLOCK);
        fill(1, NODES - 1, (int)(round & 1));
        keeps = mearrasot_keeps_order_page(&p);
        laid += mearrasot_number(mearrasot_layout_page(&p, mearrasot_screen(100))) == MEARRASOT_DONE;
        kept += keeps == 1;
        broken += !in_order(&p);
        CHECK(keeps == 0 || in_order(&p));
        edits[0] = 1 + below(NODES - 1);
        mearrasot_set(words, numbers, NODES, edits[0], MEARRASOT_F_HEIGHT, MEARRASOT_PIXELS, tenths(100));
        CHECK(mearrasot_keeps_order_page(&p) == keeps);
        laid += mearrasot_number(mearrasot_relayout_page(&p, edits, 1, mearrasot_screen(100))) == MEARRASOT_DONE;
        CHECK(keeps == 0 || in_order(&p));
    }
    CHECK(laid == 40000 && kept > 10000 && broken > 1000);
    printf("order: %lu of 20000 pages keep it, %lu of the others do not have it\n", kept, broken);
}

int main(void) {
    test_margin();
    test_relative();
    test_align();
    test_fraction();
    test_lengths();
    test_random();
    return report("order");
}
