/*
 * Helpers over the tables of mearrasot.h: nodes and fields by hand, the calls
 * with a struct for the tables, tables in flash, and reading a page that is laid
 * out. C99 and C++; nothing here is proved.
 */
#ifndef MEARRASOT_TABLES_H
#define MEARRASOT_TABLES_H

#include "mearrasot.h"

#ifdef __cplusplus
extern "C" {
#endif

/* ---- Bytes of n nodes, or of n records ---- */

#define MEARRASOT_WORDS_BYTES(n) (4u * MEARRASOT_WORDS * (n))
#define MEARRASOT_NUMBERS_BYTES(n) (4u * MEARRASOT_NUMBERS * (n))
#define MEARRASOT_ROWS_BYTES(n) (4u * MEARRASOT_ROW * (n))
#define MEARRASOT_MARKS_BYTES(n) (4u * MEARRASOT_MARKS * (n))
#define MEARRASOT_PAIRS_BYTES(n) (4u * MEARRASOT_PAIR * (n))
#define MEARRASOT_TRIPLES_BYTES(n) (4u * MEARRASOT_TRIPLE * (n))
#define MEARRASOT_PIXELS_BYTES(n) (4u * MEARRASOT_PIXEL_BOX * (n))
/* What a page takes in all, and how much of that has to be writable. */
#define MEARRASOT_PAGE_BYTES(nodes, records) \
    (MEARRASOT_WORDS_BYTES(nodes) + MEARRASOT_NUMBERS_BYTES(nodes) + MEARRASOT_WRITTEN_BYTES(nodes, records))
#define MEARRASOT_WRITTEN_BYTES(nodes, records) \
    (MEARRASOT_ROWS_BYTES(nodes) + MEARRASOT_MARKS_BYTES(nodes) + MEARRASOT_PAIRS_BYTES(records) + \
     MEARRASOT_TRIPLES_BYTES(records))

/* ---- Nodes by hand ---- */

/* Units of a node that has none of its own: margins, padding, border in pixels. */
#define MEARRASOT_USUAL_UNITS ((uint64_t)0x55u << 32 | 0x05555000u)
/* Where a field's unit stands in words 2 (lower half) and 3 (upper half). */
#define MEARRASOT_UNIT_AT(field) ((field) < 14 ? 2 * (field) : 4 + 2 * (field))

/* nodes is how many the page has: the numbers stand in planes of that many. */

/*
 * A node with size nodes in its subtree and that style. Sizes, limits and
 * insets are auto, margins, padding and border 0 pixels, all else is 0.
 */
static inline void mearrasot_node(uint32_t *words, float *numbers, size_t nodes,
                                  size_t node, uint32_t size, uint32_t style) {
    uint32_t *w = words + MEARRASOT_WORDS * node;
    size_t f;
    w[0] = size;
    w[1] = style;
    w[2] = (uint32_t)(MEARRASOT_USUAL_UNITS & 0xffffffffu);
    w[3] = (uint32_t)(MEARRASOT_USUAL_UNITS >> 32);
    for (f = 0; f < MEARRASOT_NUMBERS; f++) {
        numbers[MEARRASOT_NUMBER(nodes, node, f)] = 0.0f;
    }
}

/* One of the fields 0 to 21 with its unit. */
static inline void mearrasot_set(uint32_t *words, float *numbers, size_t nodes,
                                 size_t node, unsigned field, uint32_t unit,
                                 float value) {
    uint32_t *w = words + MEARRASOT_WORDS * node + (field < 14u ? 2 : 3);
    unsigned at = MEARRASOT_UNIT_AT(field) & 31u;
    *w = (*w & ~((uint32_t)3u << at)) | (unit << at);
    numbers[MEARRASOT_NUMBER(nodes, node, field)] = value;
}

/* What a leaf measures: narrowest and widest width, and height. */
static inline void mearrasot_measure(float *numbers, size_t nodes, size_t node,
                                     float least, float most, float height) {
    numbers[MEARRASOT_NUMBER(nodes, node, MEARRASOT_F_LEAF_MIN)] = least;
    numbers[MEARRASOT_NUMBER(nodes, node, MEARRASOT_F_LEAF_MAX)] = most;
    numbers[MEARRASOT_NUMBER(nodes, node, MEARRASOT_F_LEAF_HEIGHT)] = height;
}

/* A leaf's first baseline, from its top: not above its height. */
static inline void mearrasot_line(uint32_t *words, float *numbers, size_t nodes, size_t node, float baseline) {
    words[MEARRASOT_WORDS * node + 1] |= MEARRASOT_LINED;
    numbers[MEARRASOT_NUMBER(nodes, node, MEARRASOT_F_LEAF_BASELINE)] = baseline;
}

/* ---- Tables in flash ---- */

/*
 * static const uint32_t words[] = {
 *     MEARRASOT_WORDS_OF(2, MEARRASOT_BLOCK, MEARRASOT_UNIT(MEARRASOT_F_WIDTH, MEARRASOT_PIXELS)),
 *     MEARRASOT_WORDS_OF(1, MEARRASOT_LEAF, 0)
 * };
 * #define NUMBERS(node, f) \
 *     node(f, MEARRASOT_NUMBERS_OF(MEARRASOT_SIZES(240, 0, 0, 0, 0, 0), MEARRASOT_ALL(0), MEARRASOT_ALL(4), \
 *                                  MEARRASOT_ALL(0), MEARRASOT_ALL(0), 0, 0, MEARRASOT_LEAF_OF(0, 0, 0))) \
 *     node(f, MEARRASOT_NUMBERS_OF_LEAF(40, 120, 12))
 * static const float numbers[] = {MEARRASOT_PLANES(NUMBERS)};
 *
 * units joins, by |, a MEARRASOT_UNIT for each field whose unit is not the usual.
 * NUMBERS is written node by node and read 28 times, once for each plane.
 * A leaf with a baseline has MEARRASOT_LINED in its style and MEARRASOT_LEAF_LINED for its numbers.
 */
#define MEARRASOT_UNIT(field, unit) \
    (((MEARRASOT_USUAL_UNITS >> MEARRASOT_UNIT_AT(field) & 3u) ^ (uint64_t)(unit)) << MEARRASOT_UNIT_AT(field))
#define MEARRASOT_WORDS_OF(size, style, units) \
    (uint32_t)(size), (uint32_t)(style), (uint32_t)((MEARRASOT_USUAL_UNITS ^ (units)) & 0xffffffffu), \
        (uint32_t)((MEARRASOT_USUAL_UNITS ^ (units)) >> 32)
#define MEARRASOT_SIZES(width, height, min_width, min_height, max_width, max_height) \
    (float)(width), (float)(height), (float)(min_width), (float)(min_height), (float)(max_width), \
        (float)(max_height)
#define MEARRASOT_SIDES(top, right, bottom, left) (float)(top), (float)(right), (float)(bottom), (float)(left)
#define MEARRASOT_ALL(x) MEARRASOT_SIDES(x, x, x, x)
#define MEARRASOT_LEAF_OF(least, most, height) MEARRASOT_LEAF_LINED(least, most, height, 0)
#define MEARRASOT_LEAF_LINED(least, most, height, baseline) \
    (float)(least), (float)(most), (float)(height), (float)(baseline)
#define MEARRASOT_NUMBERS_OF(sizes, margin, padding, border, inset, ratio, scrollbar, leaf) \
    sizes, margin, padding, border, inset, (float)(ratio), (float)(scrollbar), leaf
#define MEARRASOT_NUMBERS_OF_LEAF(least, most, height) \
    MEARRASOT_NUMBERS_OF(MEARRASOT_SIZES(0, 0, 0, 0, 0, 0), MEARRASOT_ALL(0), MEARRASOT_ALL(0), \
                         MEARRASOT_ALL(0), MEARRASOT_ALL(0), 0, 0, MEARRASOT_LEAF_OF(least, most, height))
#define MEARRASOT_NUMBERS_OF_BLOCK MEARRASOT_NUMBERS_OF_LEAF(0, 0, 0)
#define MEARRASOT_PLANES(page) \
    page(MEARRASOT_NODE_, 0) page(MEARRASOT_NODE_, 1) page(MEARRASOT_NODE_, 2) \
    page(MEARRASOT_NODE_, 3) page(MEARRASOT_NODE_, 4) page(MEARRASOT_NODE_, 5) \
    page(MEARRASOT_NODE_, 6) page(MEARRASOT_NODE_, 7) page(MEARRASOT_NODE_, 8) \
    page(MEARRASOT_NODE_, 9) page(MEARRASOT_NODE_, 10) page(MEARRASOT_NODE_, 11) \
    page(MEARRASOT_NODE_, 12) page(MEARRASOT_NODE_, 13) page(MEARRASOT_NODE_, 14) \
    page(MEARRASOT_NODE_, 15) page(MEARRASOT_NODE_, 16) page(MEARRASOT_NODE_, 17) \
    page(MEARRASOT_NODE_, 18) page(MEARRASOT_NODE_, 19) page(MEARRASOT_NODE_, 20) \
    page(MEARRASOT_NODE_, 21) page(MEARRASOT_NODE_, 22) page(MEARRASOT_NODE_, 23) \
    page(MEARRASOT_NODE_, 24) page(MEARRASOT_NODE_, 25) page(MEARRASOT_NODE_, 26) \
    page(MEARRASOT_NODE_, 27)
/* Of a node's 28 numbers that of field f; the 0 is for C99, where dots stand for something. */
#define MEARRASOT_NODE_(f, ...) MEARRASOT_PICK_##f##_(__VA_ARGS__, 0)
#define MEARRASOT_PICK_0_(x, ...) x,
#define MEARRASOT_PICK_1_(x, ...) MEARRASOT_PICK_0_(__VA_ARGS__)
#define MEARRASOT_PICK_2_(x, ...) MEARRASOT_PICK_1_(__VA_ARGS__)
#define MEARRASOT_PICK_3_(x, ...) MEARRASOT_PICK_2_(__VA_ARGS__)
#define MEARRASOT_PICK_4_(x, ...) MEARRASOT_PICK_3_(__VA_ARGS__)
#define MEARRASOT_PICK_5_(x, ...) MEARRASOT_PICK_4_(__VA_ARGS__)
#define MEARRASOT_PICK_6_(x, ...) MEARRASOT_PICK_5_(__VA_ARGS__)
#define MEARRASOT_PICK_7_(x, ...) MEARRASOT_PICK_6_(__VA_ARGS__)
#define MEARRASOT_PICK_8_(x, ...) MEARRASOT_PICK_7_(__VA_ARGS__)
#define MEARRASOT_PICK_9_(x, ...) MEARRASOT_PICK_8_(__VA_ARGS__)
#define MEARRASOT_PICK_10_(x, ...) MEARRASOT_PICK_9_(__VA_ARGS__)
#define MEARRASOT_PICK_11_(x, ...) MEARRASOT_PICK_10_(__VA_ARGS__)
#define MEARRASOT_PICK_12_(x, ...) MEARRASOT_PICK_11_(__VA_ARGS__)
#define MEARRASOT_PICK_13_(x, ...) MEARRASOT_PICK_12_(__VA_ARGS__)
#define MEARRASOT_PICK_14_(x, ...) MEARRASOT_PICK_13_(__VA_ARGS__)
#define MEARRASOT_PICK_15_(x, ...) MEARRASOT_PICK_14_(__VA_ARGS__)
#define MEARRASOT_PICK_16_(x, ...) MEARRASOT_PICK_15_(__VA_ARGS__)
#define MEARRASOT_PICK_17_(x, ...) MEARRASOT_PICK_16_(__VA_ARGS__)
#define MEARRASOT_PICK_18_(x, ...) MEARRASOT_PICK_17_(__VA_ARGS__)
#define MEARRASOT_PICK_19_(x, ...) MEARRASOT_PICK_18_(__VA_ARGS__)
#define MEARRASOT_PICK_20_(x, ...) MEARRASOT_PICK_19_(__VA_ARGS__)
#define MEARRASOT_PICK_21_(x, ...) MEARRASOT_PICK_20_(__VA_ARGS__)
#define MEARRASOT_PICK_22_(x, ...) MEARRASOT_PICK_21_(__VA_ARGS__)
#define MEARRASOT_PICK_23_(x, ...) MEARRASOT_PICK_22_(__VA_ARGS__)
#define MEARRASOT_PICK_24_(x, ...) MEARRASOT_PICK_23_(__VA_ARGS__)
#define MEARRASOT_PICK_25_(x, ...) MEARRASOT_PICK_24_(__VA_ARGS__)
#define MEARRASOT_PICK_26_(x, ...) MEARRASOT_PICK_25_(__VA_ARGS__)
#define MEARRASOT_PICK_27_(x, ...) MEARRASOT_PICK_26_(__VA_ARGS__)

/* ---- The calls, with a struct for the tables ---- */

/* Lengths go by the number of nodes and of records. A null table has no entries. */
struct mearrasot_page {
    size_t nodes;
    const uint32_t *words;
    const float *numbers;
    float *rows;
    uint32_t *marks;
    size_t records;
    uint32_t *pairs;
    float *triples;
};

struct mearrasot_question {
    float known_width;
    float known_height;
    float parent_width;
    float available;
    uint32_t how;
};

/* An index of a page, with lengths by the number of its leaves. */
struct mearrasot_leaves {
    size_t count;
    const uint32_t *list;
    float *tops;
    float *bottoms;
    float *running;
};

/* A screen of that width, as tall as the page likes. */
static inline struct mearrasot_question mearrasot_screen(float width) {
    struct mearrasot_question q;
    q.known_width = q.parent_width = q.available = width;
    q.known_height = 0.0f;
    q.how = MEARRASOT_KNOWN_WIDTH | MEARRASOT_DEFINITE;
    return q;
}

/* A screen of that width and height; fractions of heights are parts of it. */
static inline struct mearrasot_question mearrasot_whole_screen(float width, float height) {
    struct mearrasot_question q = mearrasot_screen(width);
    q.known_height = height;
    q.how |= MEARRASOT_KNOWN_HEIGHT | MEARRASOT_DEFINITE_HEIGHT;
    return q;
}

/* A slice as a call takes it: what is null stands for no entries, at some address. */
#define MEARRASOT_SLICE(pointer, count, dummy) \
    ((pointer) != NULL ? (pointer) : (dummy)), ((pointer) != NULL ? (uint64_t)(count) : (uint64_t)0u)

static inline uint64_t mearrasot_layout_page(const struct mearrasot_page *p,
                                             struct mearrasot_question q) {
    uint32_t word[1] = {0};
    float number[1] = {0};
    return mearrasot_layout(
        MEARRASOT_SLICE(p->words, MEARRASOT_WORDS * p->nodes, word),
        MEARRASOT_SLICE(p->numbers, MEARRASOT_NUMBERS * p->nodes, number),
        MEARRASOT_SLICE(p->rows, MEARRASOT_ROW * p->nodes, number),
        MEARRASOT_SLICE(p->marks, MEARRASOT_MARKS * p->nodes, word),
        MEARRASOT_SLICE(p->pairs, MEARRASOT_PAIR * p->records, word),
        MEARRASOT_SLICE(p->triples, MEARRASOT_TRIPLE * p->records, number),
        q.known_width, q.known_height, q.parent_width, q.available, q.how);
}

static inline uint64_t mearrasot_relayout_page(const struct mearrasot_page *p,
                                               const uint32_t *edits,
                                               size_t edits_len,
                                               struct mearrasot_question q) {
    uint32_t word[1] = {0};
    float number[1] = {0};
    return mearrasot_relayout(
        MEARRASOT_SLICE(p->words, MEARRASOT_WORDS * p->nodes, word),
        MEARRASOT_SLICE(p->numbers, MEARRASOT_NUMBERS * p->nodes, number),
        MEARRASOT_SLICE(p->rows, MEARRASOT_ROW * p->nodes, number),
        MEARRASOT_SLICE(p->marks, MEARRASOT_MARKS * p->nodes, word),
        MEARRASOT_SLICE(p->pairs, MEARRASOT_PAIR * p->records, word),
        MEARRASOT_SLICE(p->triples, MEARRASOT_TRIPLE * p->records, number),
        MEARRASOT_SLICE(edits, edits_len, word),
        q.known_width, q.known_height, q.parent_width, q.available, q.how);
}

static inline uint64_t mearrasot_size_page(const struct mearrasot_page *p,
                                           float size[2],
                                           struct mearrasot_question q) {
    uint32_t word[1] = {0};
    float number[1] = {0};
    return mearrasot_size(
        MEARRASOT_SLICE(p->words, MEARRASOT_WORDS * p->nodes, word),
        MEARRASOT_SLICE(p->numbers, MEARRASOT_NUMBERS * p->nodes, number), size,
        q.known_width, q.known_height, q.parent_width, q.available, q.how);
}

static inline uint64_t mearrasot_index_page(const struct mearrasot_page *p,
                                            const struct mearrasot_leaves *l) {
    uint32_t word[1] = {0};
    float number[1] = {0};
    return mearrasot_index(
        MEARRASOT_SLICE(p->words, MEARRASOT_WORDS * p->nodes, word),
        MEARRASOT_SLICE(p->rows, MEARRASOT_ROW * p->nodes, number),
        MEARRASOT_SLICE(p->marks, MEARRASOT_MARKS * p->nodes, word),
        MEARRASOT_SLICE(l->list, l->count, word),
        MEARRASOT_SLICE(l->tops, l->count, number),
        MEARRASOT_SLICE(l->bottoms, l->count, number),
        MEARRASOT_SLICE(l->running, l->count, number));
}

/* pixels has four entries for each node of the page. */
static inline uint64_t mearrasot_coarse_page(const struct mearrasot_page *p, int32_t *pixels) {
    uint32_t word[1] = {0};
    float number[1] = {0};
    int32_t pixel[1] = {0};
    return mearrasot_coarse(
        MEARRASOT_SLICE(p->words, MEARRASOT_WORDS * p->nodes, word),
        MEARRASOT_SLICE(p->rows, MEARRASOT_ROW * p->nodes, number),
        MEARRASOT_SLICE(p->marks, MEARRASOT_MARKS * p->nodes, word),
        MEARRASOT_SLICE(pixels, MEARRASOT_PIXEL_BOX * p->nodes, pixel));
}

static inline uint64_t mearrasot_keeps_order_page(const struct mearrasot_page *p) {
    uint32_t word[1] = {0};
    float number[1] = {0};
    return mearrasot_keeps_order(MEARRASOT_SLICE(p->words, MEARRASOT_WORDS * p->nodes, word),
                                 MEARRASOT_SLICE(p->numbers, MEARRASOT_NUMBERS * p->nodes, number));
}

static inline uint64_t mearrasot_in_profile_page(const struct mearrasot_page *p, struct mearrasot_question q) {
    uint32_t word[1] = {0};
    float number[1] = {0};
    return mearrasot_in_profile(
        MEARRASOT_SLICE(p->words, MEARRASOT_WORDS * p->nodes, word),
        MEARRASOT_SLICE(p->numbers, MEARRASOT_NUMBERS * p->nodes, number),
        q.known_width, q.known_height, q.parent_width, q.available, q.how);
}

/* The same question, asked as profile. */
static inline struct mearrasot_question mearrasot_as_profile(struct mearrasot_question q) {
    q.how |= MEARRASOT_PROFILE;
    return q;
}

/* ---- A part of a page ---- */

/*
 * The numbers of a subtree of size nodes as a table of their own. Its words are
 * a run of the page's words, from the node on; its numbers are a run of each
 * plane, and have to be copied.
 */
static inline void mearrasot_cut_numbers(float *to, const struct mearrasot_page *p, size_t node, size_t size) {
    size_t f, i;
    for (f = 0; f < MEARRASOT_NUMBERS; f++) {
        for (i = 0; i < size; i++) {
            to[MEARRASOT_NUMBER(size, i, f)] = p->numbers[MEARRASOT_NUMBER(p->nodes, node + i, f)];
        }
    }
}

/* ---- Reading a page that is laid out ---- */

#define MEARRASOT_NO_NODE 0xffffffffu

static inline uint32_t mearrasot_size_of(const struct mearrasot_page *p, uint32_t node) {
    return node < p->nodes ? p->words[MEARRASOT_WORDS * node] : 0u;
}

static inline int mearrasot_is_laid(const struct mearrasot_page *p, uint32_t node) {
    return node < p->nodes && (p->marks[MEARRASOT_MARKS * node + MEARRASOT_M_BITS] & MEARRASOT_LAID) != 0u;
}

static inline uint32_t mearrasot_parent(const struct mearrasot_page *p, uint32_t node) {
    uint32_t j = node < p->nodes ? node : 0u;
    while (j > 0u) {
        j--;
        if (node - j < mearrasot_size_of(p, j)) {
            return j;
        }
    }
    return MEARRASOT_NO_NODE;
}

static inline uint32_t mearrasot_first_child(const struct mearrasot_page *p, uint32_t node) {
    return mearrasot_size_of(p, node) > 1u ? node + 1u : MEARRASOT_NO_NODE;
}

/* The child of parent after child. */
static inline uint32_t mearrasot_next_child(const struct mearrasot_page *p, uint32_t parent, uint32_t child) {
    uint32_t next = child + mearrasot_size_of(p, child);
    return next > child && next - parent < mearrasot_size_of(p, parent) ? next : MEARRASOT_NO_NODE;
}

static inline uint32_t mearrasot_next_sibling(const struct mearrasot_page *p, uint32_t node) {
    uint32_t parent = mearrasot_parent(p, node);
    return parent == MEARRASOT_NO_NODE ? parent : mearrasot_next_child(p, parent, node);
}

/*
 * The left edge (MEARRASOT_R_X) or top edge (MEARRASOT_R_Y) of a laid node on
 * the page. The places are added from the node outward, as mearrasot_index adds
 * them, so that both give the same bits.
 */
static inline float mearrasot_edge(const struct mearrasot_page *p, uint32_t node, unsigned which) {
    float edge = mearrasot_is_laid(p, node) ? p->rows[MEARRASOT_ROW * node + which] : 0.0f;
    uint32_t j = mearrasot_is_laid(p, node) ? node : 0u;
    while (j > 0u) {
        j--;
        if (node - j < mearrasot_size_of(p, j)) {
            edge += p->rows[MEARRASOT_ROW * j + which];
        }
    }
    return edge;
}

struct mearrasot_box {
    float x;
    float y;
    float width;
    float height;
};

/* Where a laid node stands on the page; all 0 if it is not laid. */
static inline struct mearrasot_box mearrasot_box_of(const struct mearrasot_page *p, uint32_t node) {
    const int laid = mearrasot_is_laid(p, node);
    struct mearrasot_box box;
    box.x = mearrasot_edge(p, node, MEARRASOT_R_X);
    box.y = mearrasot_edge(p, node, MEARRASOT_R_Y);
    box.width = laid ? p->rows[MEARRASOT_ROW * node + MEARRASOT_R_WIDTH] : 0.0f;
    box.height = laid ? p->rows[MEARRASOT_ROW * node + MEARRASOT_R_HEIGHT] : 0.0f;
    return box;
}

/* Has a node a first baseline? */
static inline int mearrasot_is_lined(const struct mearrasot_page *p, uint32_t node) {
    return mearrasot_is_laid(p, node) && (p->marks[MEARRASOT_MARKS * node + MEARRASOT_M_BITS] & MEARRASOT_BASELINE) != 0u;
}

/* Where on the page its line stands; 0 if it has none. */
static inline float mearrasot_line_of(const struct mearrasot_page *p, uint32_t node) {
    return mearrasot_is_lined(p, node)
        ? mearrasot_edge(p, node, MEARRASOT_R_Y) + p->rows[MEARRASOT_ROW * node + MEARRASOT_R_BASELINE]
        : 0.0f;
}

/* A box in whole pixels, as mearrasot_coarse gives it. */
struct mearrasot_pixels {
    int32_t x;
    int32_t y;
    int32_t width;
    int32_t height;
};

/* A node on the coarse panel, of pixels that are made; all 0 if it is not laid. */
static inline struct mearrasot_pixels mearrasot_pixels_of(const struct mearrasot_page *p, const int32_t *pixels,
                                                          uint32_t node) {
    struct mearrasot_pixels box = {0, 0, 0, 0};
    if (node < p->nodes) {
        const int32_t *at = pixels + MEARRASOT_PIXEL_BOX * node;
        box.x = at[MEARRASOT_B_X];
        box.y = at[MEARRASOT_B_Y];
        box.width = at[MEARRASOT_B_WIDTH];
        box.height = at[MEARRASOT_B_HEIGHT];
    }
    return box;
}

/*
 * The first box to draw from that node on: laid, and of some width and height.
 * for (n = mearrasot_drawn(p, 0); n != MEARRASOT_NO_NODE; n = mearrasot_drawn(p, n + 1))
 */
static inline uint32_t mearrasot_drawn(const struct mearrasot_page *p, uint32_t from) {
    uint32_t n;
    for (n = from; n < p->nodes; n++) {
        const float *row = p->rows + MEARRASOT_ROW * n;
        if (mearrasot_is_laid(p, n) && row[MEARRASOT_R_WIDTH] > 0.0f && row[MEARRASOT_R_HEIGHT] > 0.0f) {
            return n;
        }
    }
    return MEARRASOT_NO_NODE;
}

/* Likewise on the coarse panel: some pixels wide and high. A hairline may have none. */
static inline uint32_t mearrasot_drawn_coarse(const struct mearrasot_page *p, const int32_t *pixels, uint32_t from) {
    uint32_t n;
    for (n = from; n < p->nodes; n++) {
        const struct mearrasot_pixels box = mearrasot_pixels_of(p, pixels, n);
        if (box.width > 0 && box.height > 0) {
            return n;
        }
    }
    return MEARRASOT_NO_NODE;
}

/* The leaf to draw first at y, of an index that is made: a node, or none. */
static inline uint32_t mearrasot_first_below(const struct mearrasot_leaves *l, float y) {
    float number[1] = {0};
    uint64_t found[1] = {MEARRASOT_NONE};
    mearrasot_scroll(MEARRASOT_SLICE(l->running, l->count, number), y, found);
    return found[0] < l->count ? l->list[found[0]] : MEARRASOT_NO_NODE;
}

#ifdef __cplusplus
}
#endif

#endif
