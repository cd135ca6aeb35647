/*
 * Every refusal of every call, provoked; what a refusal leaves; null tables;
 * byte sizes; tables in flash; and reading a page that is laid out.
 */
#include <string.h>

#include "check.h"
#include "mearrasot_page.h"

enum { NODES = 6, RECORDS = 1, LAMP = 4 };

/* A root, a head with two leaves, a lamp out of the flow, a foot with fractions. */
static const uint32_t flash_words[] = {
    MEARRASOT_WORDS_OF(6, MEARRASOT_BLOCK, 0),
    MEARRASOT_WORDS_OF(3, MEARRASOT_BLOCK, 0),
    MEARRASOT_WORDS_OF(1, MEARRASOT_LEAF, 0),
    MEARRASOT_WORDS_OF(1, MEARRASOT_LEAF, 0),
    MEARRASOT_WORDS_OF(1, MEARRASOT_LEAF | MEARRASOT_OUT_OF_FLOW, 0),
    MEARRASOT_WORDS_OF(1, MEARRASOT_LEAF | MEARRASOT_RELATIVE | MEARRASOT_LINED,
                       MEARRASOT_UNIT(MEARRASOT_F_WIDTH, MEARRASOT_FRACTION) |
                           MEARRASOT_UNIT(MEARRASOT_F_MARGIN + MEARRASOT_LEFT, MEARRASOT_AUTO) |
                           MEARRASOT_UNIT(MEARRASOT_F_INSET + MEARRASOT_TOP, MEARRASOT_PIXELS))
};
#define FLASH(node, f) \
    node(f, MEARRASOT_NUMBERS_OF(MEARRASOT_SIZES(0, 0, 0, 0, 0, 0), MEARRASOT_ALL(0), MEARRASOT_SIDES(1, 2, 3, 4), \
                                 MEARRASOT_ALL(0), MEARRASOT_ALL(0), 0, 0, MEARRASOT_LEAF_OF(0, 0, 0))) \
    node(f, MEARRASOT_NUMBERS_OF_BLOCK) \
    node(f, MEARRASOT_NUMBERS_OF_LEAF(10, 50, 7)) \
    node(f, MEARRASOT_NUMBERS_OF_LEAF(10, 50, 0)) \
    node(f, MEARRASOT_NUMBERS_OF_LEAF(10, 50, 5)) \
    node(f, MEARRASOT_NUMBERS_OF(MEARRASOT_SIZES(0.5, 0, 0, 0, 0, 0), MEARRASOT_ALL(0), MEARRASOT_ALL(0), \
                                 MEARRASOT_ALL(0), MEARRASOT_SIDES(2, 0, 0, 0), 0, 0, MEARRASOT_LEAF_LINED(10, 50, 9, 6)))
static const float flash_numbers[] = {MEARRASOT_PLANES(FLASH)};

/* The same by hand, in memory that may be damaged. */
static uint32_t words[MEARRASOT_WORDS * NODES];
static float numbers[MEARRASOT_NUMBERS * NODES];

struct left {
    float rows[MEARRASOT_ROW * NODES];
    uint32_t marks[MEARRASOT_MARKS * NODES];
    uint32_t pairs[MEARRASOT_PAIR * RECORDS];
    float triples[MEARRASOT_TRIPLE * RECORDS];
};
static struct left now, before;

static struct mearrasot_page page_in(struct left *l) {
    struct mearrasot_page p;
    p.nodes = NODES;
    p.words = words;
    p.numbers = numbers;
    p.rows = l->rows;
    p.marks = l->marks;
    p.records = RECORDS;
    p.pairs = l->pairs;
    p.triples = l->triples;
    return p;
}

static void mend(void) {
    memcpy(words, flash_words, sizeof words);
    memcpy(numbers, flash_numbers, sizeof numbers);
}

static void lay(void) {
    struct mearrasot_page p = page_in(&now);
    mend();
    IS(mearrasot_layout_page(&p, mearrasot_screen(100)), MEARRASOT_DONE, 1);
    before = now;
}

static int untouched(void) {
    return memcmp(&now, &before, sizeof now) == 0;
}

/* A layout, a relayout and a size question are refused alike, and leave all as it was. */
static void refused(uint32_t number, uint32_t place, struct mearrasot_question q, int line) {
    const struct mearrasot_page p = page_in(&now);
    const uint64_t answer = (uint64_t)number << 32 | place;
    float size[2] = {7, 7};
    check(mearrasot_layout_page(&p, q) == answer, "layout refused", __FILE__, line);
    check(mearrasot_relayout_page(&p, NULL, 0, q) == answer, "relayout refused", __FILE__, line);
    check(mearrasot_size_page(&p, size, q) == answer, "size refused", __FILE__, line);
    check(size[0] == 0 && size[1] == 0 && untouched(), "refused, nothing written", __FILE__, line);
    mend();
}
#define REFUSED(number, place, q) refused((number), (place), (q), __LINE__)

static void test_tables_refused(void) {
    const struct mearrasot_question q = mearrasot_screen(100);
    struct mearrasot_question bad = q;
    struct mearrasot_page p = page_in(&now);
    float size[2];
    lay();
    p.nodes = 0;
    IS(mearrasot_layout_page(&p, q), MEARRASOT_LENGTHS, 0);
    IS(mearrasot_size_page(&p, size, q), MEARRASOT_LENGTHS, 0);
    p.nodes = 5; /* and tables of five: the root's run is too long */
    IS(mearrasot_layout_page(&p, q), MEARRASOT_TREE, 0);
    IS(mearrasot_layout(words, 24, numbers, 162, now.rows, 95, now.marks, 12, now.pairs, 2, now.triples, 3, 100, 0, 100,
                        100, q.how), MEARRASOT_LENGTHS, 0);
    words[MEARRASOT_WORDS * 1] = 6;
    REFUSED(MEARRASOT_TREE, 1, q); /* past the end of its parent's run */
    words[MEARRASOT_WORDS * 2] = 0;
    REFUSED(MEARRASOT_TREE, 2, q);
    words[1] = MEARRASOT_LEAF;
    REFUSED(MEARRASOT_TREE, 0, q);
    words[1] = MEARRASOT_HIDDEN;
    REFUSED(MEARRASOT_CODES, 0, q);
    words[MEARRASOT_WORDS * 3 + 1] |= 1u << 18;
    REFUSED(MEARRASOT_CODES, 3, q);
    mearrasot_set(words, numbers, NODES, 5, MEARRASOT_F_PADDING, MEARRASOT_AUTO, 0);
    REFUSED(MEARRASOT_CODES, 5, q);
    mearrasot_set(words, numbers, NODES, 5, MEARRASOT_F_HEIGHT, MEARRASOT_FRACTION, 0.5f);
    numbers[MEARRASOT_NUMBER(NODES, 5, MEARRASOT_F_RATIO)] = 1;
    REFUSED(MEARRASOT_CODES, 5, q);
    numbers[MEARRASOT_NUMBER(NODES, 2, MEARRASOT_F_LEAF_MAX)] = 5; /* below the narrowest */
    REFUSED(MEARRASOT_BAD_NUMBER, 2, q);
    bad.known_width = -1;
    REFUSED(MEARRASOT_BAD_NUMBER, NODES, bad);
}

static void test_calls_refused(void) {
    const struct mearrasot_question q = mearrasot_screen(100);
    struct mearrasot_page p = page_in(&now);
    uint32_t edits[65] = {0};
    lay();
    p.records = 0;
    IS(mearrasot_layout_page(&p, q), MEARRASOT_ROOM, 0);
    p.pairs = NULL;
    p.triples = NULL;
    IS(mearrasot_relayout_page(&p, edits, 1, q), MEARRASOT_ROOM, 0);
    p = page_in(&now);
    edits[1] = NODES;
    IS(mearrasot_relayout_page(&p, edits, 2, q), MEARRASOT_EDITS, 1);
    edits[1] = 0;
    IS(mearrasot_relayout_page(&p, edits, 65, q), MEARRASOT_EDITS, 64);
    CHECK(untouched());
    IS(mearrasot_relayout_page(&p, edits, 64, q), MEARRASOT_DONE, 1);
    CHECK(untouched()); /* the same page again */
    now.marks[MEARRASOT_M_BITS] = 0;
    IS(mearrasot_relayout_page(&p, edits, 1, q), MEARRASOT_NOT_LAID, 0);
    p.rows = NULL;
    IS(mearrasot_layout_page(&p, q), MEARRASOT_LENGTHS, 0);
}

static void test_too_large(void) {
    static float rows[MEARRASOT_ROW * 257];
    static uint32_t many[MEARRASOT_WORDS * 257], marks[MEARRASOT_MARKS * 257];
    static float tall[MEARRASOT_NUMBERS * 257];
    struct mearrasot_page p = {257, many, tall, rows, marks, 0, NULL, NULL};
    float size[2];
    size_t k;
    mearrasot_node(many, tall, 257, 0, 257, MEARRASOT_BLOCK);
    for (k = 1; k < 257; k++) {
        mearrasot_node(many, tall, 257, k, 1, MEARRASOT_LEAF);
        mearrasot_measure(tall, 257, k, 0, 0, 65536);
    }
    rows[5] = 5;
    marks[5] = 5;
    IS(mearrasot_layout_page(&p, mearrasot_screen(100)), MEARRASOT_TOO_LARGE, 0);
    CHECK(rows[5] == 0 && marks[5] == 0);
    IS(mearrasot_size_page(&p, size, mearrasot_screen(100)), MEARRASOT_TOO_LARGE, 0);
    IS(mearrasot_relayout_page(&p, NULL, 0, mearrasot_screen(100)), MEARRASOT_NOT_LAID, 0);
    tall[MEARRASOT_NUMBER(257, 256, MEARRASOT_F_LEAF_HEIGHT)] = 65535;
    IS(mearrasot_layout_page(&p, mearrasot_screen(100)), MEARRASOT_DONE, 0);
    CHECK(rows[MEARRASOT_R_HEIGHT] == 16777215.0f);
}

static void test_index(void) {
    struct mearrasot_page p = page_in(&now);
    uint32_t list[257] = {2, 3, 5};
    float tops[257], bottoms[257], running[257];
    struct mearrasot_leaves l = {3, list, tops, bottoms, running};
    uint64_t found[1] = {77};
    lay();
    IS(mearrasot_index_page(&p, &l), MEARRASOT_DONE, 0);
    CHECK(tops[0] == mearrasot_edge(&p, 2, MEARRASOT_R_Y) && tops[2] == mearrasot_edge(&p, 5, MEARRASOT_R_Y));
    CHECK(mearrasot_first_below(&l, 0) == 2 && mearrasot_first_below(&l, 8) == 5);
    CHECK(mearrasot_first_below(&l, 1000) == MEARRASOT_NO_NODE);
    list[1] = 1; /* not ascending, and no leaf */
    IS(mearrasot_index_page(&p, &l), MEARRASOT_BAD_LIST, 1);
    list[1] = LAMP; /* not laid */
    IS(mearrasot_index_page(&p, &l), MEARRASOT_BAD_LIST, 1);
    list[1] = 3;
    l.count = 257;
    IS(mearrasot_index_page(&p, &l), MEARRASOT_BAD_LIST, 3);
    l.count = 0;
    l.list = NULL;
    IS(mearrasot_index_page(&p, &l), MEARRASOT_DONE, 0);
    CHECK(mearrasot_first_below(&l, 0) == MEARRASOT_NO_NODE);
    words[0] = 5;
    IS(mearrasot_index_page(&p, &l), MEARRASOT_TREE, 0);
    mend();
    words[1] = 1u << 18;
    IS(mearrasot_index_page(&p, &l), MEARRASOT_CODES, 0);
    mend();
    p.nodes = 0;
    IS(mearrasot_index_page(&p, &l), MEARRASOT_LENGTHS, 0);
    p.nodes = NODES;
    now.marks[MEARRASOT_M_BITS] = 0;
    IS(mearrasot_index_page(&p, &l), MEARRASOT_NOT_LAID, 0);
    IS(mearrasot_scroll(running, 3, (float)1e38 * 10, found), MEARRASOT_NOT_FINITE, 0);
    CHECK(found[0] == 77 && mearrasot_first_below(&l, (float)1e38 * 10) == MEARRASOT_NO_NODE);
    IS(mearrasot_scroll(running, 3, 1000, found), MEARRASOT_DONE, 0);
    CHECK(found[0] == MEARRASOT_NONE);
}

/* Whole pixels: zeros where nothing is laid, halves up, common edges, and each refusal. */
static void test_coarse(void) {
    struct mearrasot_page p = page_in(&now);
    int32_t pixels[MEARRASOT_PIXEL_BOX * NODES + 1], lent[MEARRASOT_PIXEL_BOX * NODES + 1];
    struct mearrasot_pixels box;
    uint32_t n, seen = 0;
    memset(lent, 0x5a, sizeof lent);
    memcpy(pixels, lent, sizeof pixels);
    lay();
    IS(mearrasot_coarse_page(&p, pixels), MEARRASOT_DONE, 0);
    CHECK(untouched() && pixels[MEARRASOT_PIXEL_BOX * NODES] == lent[0]);
    box = mearrasot_pixels_of(&p, pixels, 5);
    CHECK(box.x == 51 && box.y == 10 && box.width == 47 && box.height == 9);
    box = mearrasot_pixels_of(&p, pixels, LAMP);
    CHECK(box.x == 0 && box.y == 0 && box.width == 0 && box.height == 0);
    box = mearrasot_pixels_of(&p, pixels, (uint32_t)p.nodes);
    CHECK(box.x == 0 && box.width == 0);
    for (n = mearrasot_drawn_coarse(&p, pixels, 0); n != MEARRASOT_NO_NODE; n = mearrasot_drawn_coarse(&p, pixels, n + 1)) {
        seen |= 1u << n;
    }
    CHECK(seen == (1u << 0 | 1u << 1 | 1u << 2 | 1u << 5));

    /* 2 from 1.5 to 2.5, 3 from there on: both go up, and they keep their edge. */
    now.rows[MEARRASOT_ROW * 2 + MEARRASOT_R_Y] = 0.5f;
    now.rows[MEARRASOT_ROW * 2 + MEARRASOT_R_HEIGHT] = 1;
    now.rows[MEARRASOT_ROW * 3 + MEARRASOT_R_Y] = 1.5f;
    now.rows[MEARRASOT_ROW * 3 + MEARRASOT_R_HEIGHT] = 1.25f;
    now.rows[MEARRASOT_ROW * 3 + MEARRASOT_R_X] = -9.5f; /* -5.5 on the page */
    IS(mearrasot_coarse_page(&p, pixels), MEARRASOT_DONE, 0);
    CHECK(mearrasot_pixels_of(&p, pixels, 2).y == 2 && mearrasot_pixels_of(&p, pixels, 2).height == 1);
    CHECK(mearrasot_pixels_of(&p, pixels, 3).y == 3 && mearrasot_pixels_of(&p, pixels, 3).height == 1);
    CHECK(mearrasot_pixels_of(&p, pixels, 3).x == -5);

    memcpy(pixels, lent, sizeof pixels);
    now.rows[MEARRASOT_ROW * 5 + MEARRASOT_R_WIDTH] = 16777216;
    now.rows[MEARRASOT_ROW * LAMP + MEARRASOT_R_WIDTH] = 16777216; /* not laid: not asked */
    IS(mearrasot_coarse_page(&p, pixels), MEARRASOT_TOO_FAR, 5);
    now.rows[MEARRASOT_ROW * 1 + MEARRASOT_R_Y] = -16777216.0f - 2;
    IS(mearrasot_coarse_page(&p, pixels), MEARRASOT_TOO_FAR, 1);
    IS(mearrasot_coarse(words, 24, now.rows, 96, now.marks, 12, pixels, 25), MEARRASOT_LENGTHS, 0);
    IS(mearrasot_coarse(words, 24, now.rows, 95, now.marks, 12, pixels, 24), MEARRASOT_LENGTHS, 0);
    IS(mearrasot_coarse_page(&p, NULL), MEARRASOT_LENGTHS, 0);
    words[0] = 5;
    IS(mearrasot_coarse_page(&p, pixels), MEARRASOT_TREE, 0);
    mend();
    words[1] = MEARRASOT_HIDDEN;
    IS(mearrasot_coarse_page(&p, pixels), MEARRASOT_CODES, 0);
    mend();
    now.marks[MEARRASOT_M_BITS] = 0;
    IS(mearrasot_coarse_page(&p, pixels), MEARRASOT_NOT_LAID, 0);
    CHECK(memcmp(pixels, lent, sizeof pixels) == 0);
    CHECK(MEARRASOT_PIXELS_BYTES(NODES) == sizeof pixels - sizeof pixels[0]);
}

/* Asked as profile: 11 after 4 and before 5, at the lowest node, or n for the question; else the plain call. */
static void test_profile(void) {
    const struct mearrasot_question plain = mearrasot_screen(100), q = mearrasot_as_profile(plain);
    struct mearrasot_question half = q;
    struct mearrasot_page p = page_in(&now);
    float size[2];
    lay();
    REFUSED(MEARRASOT_OUTSIDE, 5, q); /* half the width */
    IS(mearrasot_in_profile_page(&p, plain), MEARRASOT_OUTSIDE, 5);
    numbers[MEARRASOT_NUMBER(NODES, 2, MEARRASOT_F_LEAF_HEIGHT)] = 7.5f;
    REFUSED(MEARRASOT_OUTSIDE, 2, q);
    numbers[MEARRASOT_NUMBER(NODES, 4, MEARRASOT_F_LEAF_HEIGHT)] = -1;
    IS(mearrasot_in_profile_page(&p, plain), MEARRASOT_BAD_NUMBER, 4);
    REFUSED(MEARRASOT_BAD_NUMBER, 4, q);
    p.records = 0;
    IS(mearrasot_layout_page(&p, q), MEARRASOT_OUTSIDE, 5);
    mearrasot_set(words, numbers, NODES, 5, MEARRASOT_F_WIDTH, MEARRASOT_PIXELS, 50);
    IS(mearrasot_layout_page(&p, q), MEARRASOT_ROOM, 0);
    p.records = RECORDS;
    half.known_width = 100.5f;
    REFUSED(MEARRASOT_OUTSIDE, NODES, half);
    mearrasot_set(words, numbers, NODES, 5, MEARRASOT_F_WIDTH, MEARRASOT_PIXELS, 50);
    half.how &= ~MEARRASOT_KNOWN_WIDTH; /* it does not count */
    IS(mearrasot_in_profile_page(&p, half), MEARRASOT_DONE, 0);
    IS(mearrasot_in_profile_page(&p, q), MEARRASOT_DONE, 0);
    IS(mearrasot_in_profile(words, 24, numbers, 167, 100, 0, 100, 100, q.how), MEARRASOT_LENGTHS, 0);
    CHECK(untouched());

    IS(mearrasot_layout_page(&p, plain), MEARRASOT_DONE, 1);
    before = now;
    memset(&now, 0, sizeof now);
    IS(mearrasot_relayout_page(&p, NULL, 0, q), MEARRASOT_NOT_LAID, 0);
    IS(mearrasot_layout_page(&p, q), MEARRASOT_DONE, 1);
    CHECK(untouched());
    IS(mearrasot_relayout_page(&p, NULL, 0, q), MEARRASOT_DONE, 1);
    CHECK(untouched());
    IS(mearrasot_size_page(&p, size, q), MEARRASOT_DONE, 0);
    CHECK(size[0] == now.rows[MEARRASOT_R_WIDTH] && size[1] == now.rows[MEARRASOT_R_HEIGHT]);
    mend();
}

/* The tables in flash are those that the helpers make. */
static void test_flash(void) {
    struct mearrasot_page p = page_in(&now);
    mearrasot_node(words, numbers, NODES, 5, 1, MEARRASOT_LEAF | MEARRASOT_RELATIVE);
    mearrasot_measure(numbers, NODES, 5, 10, 50, 9);
    mearrasot_line(words, numbers, NODES, 5, 6);
    mearrasot_set(words, numbers, NODES, 5, MEARRASOT_F_WIDTH, MEARRASOT_FRACTION, 0.5f);
    mearrasot_set(words, numbers, NODES, 5, MEARRASOT_F_MARGIN + MEARRASOT_LEFT, MEARRASOT_AUTO, 0);
    mearrasot_set(words, numbers, NODES, 5, MEARRASOT_F_INSET + MEARRASOT_TOP, MEARRASOT_PIXELS, 2);
    CHECK(memcmp(words, flash_words, sizeof words) == 0 && memcmp(numbers, flash_numbers, sizeof numbers) == 0);
    CHECK(numbers[0] == 0 && numbers[5] == 0.5f && numbers[60] == 1 && numbers[66] == 2 && numbers[72] == 3);
    CHECK(numbers[113] == 2 && numbers[144] == 0 && numbers[146] == 10 && numbers[158] == 7 && numbers[161] == 9);
    CHECK(numbers[166] == 0 && numbers[167] == 6 && flash_words[21] == 0x10011);
    p.words = flash_words;
    p.numbers = flash_numbers;
    IS(mearrasot_layout_page(&p, mearrasot_screen(100)), MEARRASOT_DONE, 1);
    CHECK(untouched());
    CHECK(sizeof flash_words == MEARRASOT_WORDS_BYTES(NODES) && sizeof flash_numbers == MEARRASOT_NUMBERS_BYTES(NODES));
    CHECK(sizeof now.rows == MEARRASOT_ROWS_BYTES(NODES) && sizeof now.marks == MEARRASOT_MARKS_BYTES(NODES));
    CHECK(sizeof now.pairs == MEARRASOT_PAIRS_BYTES(RECORDS) && sizeof now.triples == MEARRASOT_TRIPLES_BYTES(RECORDS));
    CHECK(MEARRASOT_PAGE_BYTES(1024u, 0u) == 204800 && MEARRASOT_WRITTEN_BYTES(NODES, RECORDS) == sizeof now);
    CHECK(MEARRASOT_VERSION_MAJOR == 3);
}

/* The head is a page of its own: its numbers are a run of each plane. */
static void test_cut(void) {
    struct mearrasot_page p = page_in(&now);
    float cut[MEARRASOT_NUMBERS * 3];
    unsigned f;
    mearrasot_cut_numbers(cut, &p, 1, 3);
    for (f = 0; f < MEARRASOT_NUMBERS; f++) {
        CHECK(memcmp(cut + 3 * f, numbers + NODES * f + 1, sizeof cut / MEARRASOT_NUMBERS) == 0);
    }
    p.nodes = 3;
    p.words += MEARRASOT_WORDS;
    p.numbers = cut;
    IS(mearrasot_layout_page(&p, mearrasot_screen(100)), MEARRASOT_DONE, 0);
    CHECK(now.rows[MEARRASOT_R_HEIGHT] == 7);
}

static void test_reading(void) {
    const struct mearrasot_page p = page_in(&now);
    struct mearrasot_box box;
    uint32_t n, seen = 0;
    lay();
    CHECK(mearrasot_first_child(&p, 0) == 1 && mearrasot_first_child(&p, 1) == 2);
    CHECK(mearrasot_first_child(&p, 2) == MEARRASOT_NO_NODE && mearrasot_first_child(&p, 99) == MEARRASOT_NO_NODE);
    CHECK(mearrasot_next_sibling(&p, 2) == 3 && mearrasot_next_sibling(&p, 3) == MEARRASOT_NO_NODE);
    CHECK(mearrasot_next_sibling(&p, 1) == 4 && mearrasot_next_sibling(&p, 5) == MEARRASOT_NO_NODE);
    CHECK(mearrasot_next_sibling(&p, 0) == MEARRASOT_NO_NODE && mearrasot_next_child(&p, 0, 4) == 5);
    CHECK(mearrasot_parent(&p, 3) == 1 && mearrasot_parent(&p, 4) == 0 && mearrasot_parent(&p, 0) == MEARRASOT_NO_NODE);
    for (n = mearrasot_drawn(&p, 0); n != MEARRASOT_NO_NODE; n = mearrasot_drawn(&p, n + 1)) {
        seen |= 1u << n;
    }
    CHECK(seen == (1u << 0 | 1u << 1 | 1u << 2 | 1u << 5)); /* 3 has no height, 4 is not laid */
    box = mearrasot_box_of(&p, 2);
    CHECK(box.x == 4 && box.y == 1 && box.width == 94 && box.height == 7);
    box = mearrasot_box_of(&p, 5); /* at the right edge, moved down by 2 */
    CHECK(box.x == 51 && box.y == 10 && box.width == 47 && box.height == 9);
    box = mearrasot_box_of(&p, LAMP);
    CHECK(box.x == 0 && box.width == 0 && !mearrasot_is_laid(&p, LAMP));
    CHECK(now.pairs[MEARRASOT_P_NODE] == LAMP && now.pairs[MEARRASOT_P_ORDER] == 1);
    CHECK(now.triples[MEARRASOT_T_START] == 4 && now.triples[MEARRASOT_T_END] == 98 && now.triples[MEARRASOT_T_LINE] == 8);
    CHECK(mearrasot_whole_screen(9, 8).known_height == 8);
}

int main(void) {
    test_tables_refused();
    test_calls_refused();
    test_too_large();
    test_index();
    test_coarse();
    test_profile();
    lay();
    test_flash();
    test_cut();
    test_reading();
    return report("tables");
}
