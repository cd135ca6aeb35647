/*
 * Makes seeded pages and writes all that every call on them leaves to the file
 * 'results'. Compiled for x86-64 and for a microcontroller, the two files have to
 * be the same. No float is computed here, so the pages are the same everywhere.
 *
 * For each page: a layout over garbage, three relayouts with edits, each asked
 * as it likes, a relayout of garbage rows, two size questions, an index and
 * scroll keys, whole pixels of a page and of garbage rows, and a call with
 * damaged tables.
 */
#include <stdio.h>
#include <string.h>

#include "mearrasot.h"

#ifndef PAGES
#define PAGES 10000
#endif
#ifndef SEED
#define SEED 1
#endif

enum { N = 96 };

static uint32_t words[MEARRASOT_WORDS * N], kept_words[MEARRASOT_WORDS * N];
static float numbers[MEARRASOT_NUMBERS * N], kept_numbers[MEARRASOT_NUMBERS * N];
static float rows[MEARRASOT_ROW * N], triples[MEARRASOT_TRIPLE * N];
static uint32_t marks[MEARRASOT_MARKS * N], pairs[MEARRASOT_PAIR * N];
static uint32_t n;
static int vast; /* this page has numbers so large that a result may be refused with 8 */
static uint64_t state = SEED;
static unsigned long calls, by_answer[13];
static FILE *out;
static char room[1 << 16];

static uint32_t draw(void) {
    uint64_t z = (state += 0x9e3779b97f4a7c15u);
    z = (z ^ z >> 30) * 0xbf58476d1ce4e5b9u;
    z = (z ^ z >> 27) * 0x94d049bb133111ebu;
    return (uint32_t)(z ^ z >> 31);
}

static uint32_t below(uint32_t k) {
    return draw() % k;
}

static float of_bits(uint32_t bits) {
    float x;
    memcpy(&x, &bits, sizeof x);
    return x;
}

/* A number from 2^least to 2^most, of few bits or of all. */
static uint32_t between(uint32_t least, uint32_t most) {
    uint32_t fraction = below(3) ? draw() & 0x700000u : draw() & 0x7fffffu;
    return (127u + least + below(most - least)) << 23 | fraction;
}

static float pixels(int negative) {
    uint32_t sign = negative && below(3) == 0 ? 0x80000000u : 0u;
    return below(4) == 0 ? of_bits(sign) : of_bits(sign | between((uint32_t)-2, vast ? 16 : 7));
}

static float fraction(int negative) {
    uint32_t sign = negative && below(3) == 0 ? 0x80000000u : 0u;
    return below(8) == 0 ? of_bits(sign | 0x3f800000u) : of_bits(sign | between((uint32_t)-6, 0));
}

static uint32_t unit_for(unsigned f) {
    if (f < 6) {
        return below(3) ? MEARRASOT_AUTO : 1 + below(2);
    }
    if (f >= MEARRASOT_F_PADDING && f < MEARRASOT_F_INSET) {
        return below(5) ? MEARRASOT_PIXELS : MEARRASOT_FRACTION;
    }
    return below(2) ? MEARRASOT_PIXELS : below(3);
}

static float *number(uint32_t i, unsigned f) {
    return &numbers[MEARRASOT_NUMBER(n, i, f)];
}

/* Everything of a node but its size. */
static void dress(uint32_t i) {
    uint32_t size = words[MEARRASOT_WORDS * i], style = draw() & 0x1fccu;
    unsigned f, tall = 0;
    style &= draw() | 0x8u; /* one draw in a statement: C leaves the order of two open */
    style |= below(4) == 0 ? (1 + below(2)) << 4 : 0;
    style |= i == 0 ? 0u : below(16) == 0 ? MEARRASOT_HIDDEN : size == 1 && below(8) ? MEARRASOT_LEAF : MEARRASOT_BLOCK;
    mearrasot_node(words, numbers, n, i, size, style);
    for (f = 0; f < 22; f++) {
        const int signs = (f >= MEARRASOT_F_MARGIN && f < MEARRASOT_F_PADDING) || f >= MEARRASOT_F_INSET;
        uint32_t unit = unit_for(f);
        if (f < 14 && f >= 6 && below(2)) {
            continue;
        }
        mearrasot_set(words, numbers, n, i, f, unit, unit == MEARRASOT_FRACTION ? fraction(signs) : pixels(signs));
        tall |= unit == MEARRASOT_FRACTION && (f == 1 || f == 3 || f == 5);
    }
    *number(i, MEARRASOT_F_RATIO) = tall || below(4) ? of_bits(0) : of_bits(between((uint32_t)-(vast ? 6 : 3), 3));
    *number(i, MEARRASOT_F_SCROLLBAR) = below(2) ? of_bits(0) : of_bits(between(1, 4));
    *number(i, MEARRASOT_F_LEAF_MIN) = pixels(0);
    *number(i, MEARRASOT_F_LEAF_MAX) = below(4) && !vast ? of_bits(between(7, 9)) : *number(i, MEARRASOT_F_LEAF_MIN);
    *number(i, MEARRASOT_F_LEAF_HEIGHT) = pixels(0);
    if (vast && i > 0 && below(3)) { /* 64 times as tall as wide */
        mearrasot_node(words, numbers, n, i, size, size == 1 ? MEARRASOT_LEAF : MEARRASOT_BLOCK);
        mearrasot_set(words, numbers, n, i, MEARRASOT_F_WIDTH, MEARRASOT_PIXELS, of_bits(between(14, 16)));
        *number(i, MEARRASOT_F_RATIO) = of_bits(0x3c800000u);
    }
}

/* A tree of size nodes from node i on, by words alone. */
static void grow(uint32_t i, uint32_t size, uint32_t level) {
    uint32_t left = size - 1, next = i + 1;
    words[MEARRASOT_WORDS * i] = size;
    while (left > 0) {
        uint32_t share = level + 1 >= MEARRASOT_MAX_DEPTH ? 1 : below(3) == 0 ? left : 1 + below(left);
        grow(next, share, level + 1);
        next += share;
        left -= share;
    }
}

static void make_page(void) {
    uint32_t i;
    vast = below(32) == 0;
    n = vast ? 9 + below(8) : below(16) == 0 ? 1 + below(N) : 1 + below(16);
    grow(0, n, vast ? MEARRASOT_MAX_DEPTH - 1 : 1); /* a root and leaves if vast */
    for (i = 0; i < n; i++) {
        dress(i);
    }
}

static struct mearrasot_question ask(void) {
    struct mearrasot_question q;
    q.known_width = of_bits(between(4, vast ? 16 : 9));
    q.known_height = of_bits(between(4, 9));
    q.parent_width = of_bits(between(4, 9));
    q.available = of_bits(between(4, 9));
    q.how = draw() & 0xffu & ~(uint32_t)MEARRASOT_WIDTH_ONLY;
    return q;
}

/* Any bits at all; a float among them as likely as not. */
static void garbage(void *at, uint32_t count) {
    uint32_t k, bits;
    for (k = 0; k < count; k++) {
        bits = below(2) ? draw() : between((uint32_t)-2, 9);
        memcpy((char *)at + 4 * k, &bits, 4);
    }
}

static void put(const void *from, uint32_t count) {
    fwrite(from, 4, count, out);
}

/* NaNs are one value. */
static void put_numbers(const float *from, uint32_t count) {
    uint32_t k, bits;
    for (k = 0; k < count; k++) {
        memcpy(&bits, from + k, 4);
        bits = (bits & 0x7fffffffu) > 0x7f800000u ? 0x7fc00000u : bits;
        put(&bits, 1);
    }
}

static void put_answer(uint64_t answer) {
    uint32_t halves[2];
    halves[0] = mearrasot_number(answer);
    halves[1] = mearrasot_place(answer);
    put(halves, 2);
    calls++;
    by_answer[halves[0] <= 12 ? halves[0] : 12]++;
}

static void put_all(uint64_t answer) {
    put_answer(answer);
    put_numbers(rows, MEARRASOT_ROW * n);
    put(marks, MEARRASOT_MARKS * n);
    put(pairs, MEARRASOT_PAIR * n);
    put_numbers(triples, MEARRASOT_TRIPLE * n);
}

static void size_of_page(const struct mearrasot_page *p) {
    struct mearrasot_question q = ask();
    float size[2];
    q.how |= below(2) ? MEARRASOT_WIDTH_ONLY : 0u;
    put_answer(mearrasot_size_page(p, size, q));
    put_numbers(size, 2);
}

static void index_of_page(const struct mearrasot_page *p) {
    static uint32_t list[N];
    static float edges[3][N];
    struct mearrasot_leaves l = {0, list, edges[0], edges[1], edges[2]};
    uint64_t found[1] = {0};
    uint32_t i;
    for (i = 0; i < n; i++) {
        if (mearrasot_is_laid(p, i) && (words[MEARRASOT_WORDS * i + 1] & 3u) == MEARRASOT_LEAF) {
            list[l.count++] = i;
        }
    }
    if (below(8) == 0) {
        list[l.count++ % N] = draw();
    }
    put_answer(mearrasot_index_page(p, &l));
    for (i = 0; i < 3; i++) {
        put_numbers(edges[i], (uint32_t)l.count);
    }
    put_answer(mearrasot_scroll(edges[2], l.count, below(16) ? pixels(1) : of_bits(draw() | 0x7f000000u), found));
    put(found, 2);
}

static void coarse_page(const struct mearrasot_page *p) {
    static int32_t boxes[MEARRASOT_PIXEL_BOX * N];
    put_answer(mearrasot_coarse_page(p, boxes));
    put(boxes, MEARRASOT_PIXEL_BOX * n);
}

static void damaged(const struct mearrasot_page *p) {
    const struct mearrasot_question q = ask();
    uint32_t bit, cut, count, change = below(3);
    float size[2];
    memcpy(kept_words, words, sizeof words);
    memcpy(kept_numbers, numbers, sizeof numbers);
    if (change == 0) {
        uint32_t at = below(MEARRASOT_WORDS * n);
        words[at] ^= 1u << below(32);
    } else {
        uint32_t at = below(MEARRASOT_NUMBERS * n);
        float *x = number(at / MEARRASOT_NUMBERS, at % MEARRASOT_NUMBERS);
        memcpy(&bit, x, 4);
        bit = change == 1 ? bit ^ 1u << below(32) : draw();
        memcpy(x, &bit, 4);
    }
    put_all(mearrasot_layout_page(p, q));
    cut = below(2);
    count = below(3);
    put_all(mearrasot_relayout(words, MEARRASOT_WORDS * n - cut, numbers, MEARRASOT_NUMBERS * n, rows,
                               MEARRASOT_ROW * n, marks, MEARRASOT_MARKS * n, pairs, MEARRASOT_PAIR * n, triples,
                               MEARRASOT_TRIPLE * n, words, count, q.known_width, q.known_height, q.parent_width,
                               q.available, q.how));
    put_answer(mearrasot_size_page(p, size, q));
    put_numbers(size, 2);
    memcpy(words, kept_words, sizeof words);
    memcpy(numbers, kept_numbers, sizeof numbers);
}

static void one_page(void) {
    struct mearrasot_page p = {0, words, numbers, rows, marks, 0, pairs, triples};
    uint32_t edits[4], k, count;
    int time;
    make_page();
    p.nodes = n;
    p.records = below(8) ? n : below(n);
    garbage(rows, MEARRASOT_ROW * n);
    garbage(marks, MEARRASOT_MARKS * n);
    put_all(mearrasot_layout_page(&p, ask()));
    index_of_page(&p);
    coarse_page(&p);
    for (time = 0; time < 3; time++) {
        count = below(5);
        for (k = 0; k < count; k++) {
            edits[k] = below(n);
            dress(edits[k]);
        }
        put_all(mearrasot_relayout_page(&p, edits, count, ask()));
    }
    size_of_page(&p);
    size_of_page(&p);
    damaged(&p);
    garbage(rows, MEARRASOT_ROW * n);
    garbage(marks, MEARRASOT_MARKS * n);
    marks[MEARRASOT_M_BITS] |= MEARRASOT_LAID;
    coarse_page(&p);
    put_all(mearrasot_relayout_page(&p, edits, 1 <= count ? 1 : 0, ask()));
}

int main(void) {
    unsigned long k;
    out = fopen("results", "wb");
    if (out == NULL || setvbuf(out, room, _IOFBF, sizeof room) != 0) {
        printf("pages: cannot write\n");
        return 1;
    }
    for (k = 0; k < PAGES; k++) {
        one_page();
    }
    k = (unsigned long)ftell(out);
    if (ferror(out) || fclose(out) != 0) {
        printf("pages: cannot write\n");
        return 1;
    }
    printf("pages: %lu pages, %lu calls, %lu bytes; answers", (unsigned long)PAGES, calls, k);
    for (k = 0; k <= 12; k++) {
        printf(" %lu:%lu", k, by_answer[k]);
    }
    printf("\n");
    return 0;
}
