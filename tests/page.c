/* The builder: what it builds, what it notes, when it relays out, its faults. */
#include <string.h>

#include "check.h"
#include "mearrasot_page.h"

MEARRASOT_PAGE(page, 16, 1);
MEARRASOT_PAGE(fresh, 16, 1);
MEARRASOT_PAGE(large, MEARRASOT_MAX_NODES, 0);

enum { HEAD = 1, NOTICE = 3, TEXT = 4, IMPORT = 6, EXPORT = 8, LAMP = 10, FOOT = 11 };

/* A meter's page of 16 nodes; the text is as tall as asked. */
static void build(struct mearrasot_builder *b, float tall) {
    uint32_t n;
    mearrasot_begin(b);
    mearrasot_padding_px(b, mearrasot_open(b, MEARRASOT_BLOCK), 4);
    n = mearrasot_open(b, MEARRASOT_BLOCK); /* head */
    mearrasot_border_bottom_px(b, n, 1);
    mearrasot_margin_bottom_px(b, n, 6);
    mearrasot_leaf(b, 40, 120, 12);
    mearrasot_close(b);
    n = mearrasot_open(b, MEARRASOT_BLOCK); /* notice */
    mearrasot_margin_px(b, n, 8);
    mearrasot_padding_px(b, n, 3);
    mearrasot_border_px(b, n, 1);
    mearrasot_leaf(b, 60, 200, tall);
    mearrasot_close(b);
    mearrasot_open(b, MEARRASOT_BLOCK); /* registers */
    for (n = 0; n < 2; n++) {
        mearrasot_margin_top_px(b, mearrasot_open(b, MEARRASOT_BLOCK), 5);
        mearrasot_leaf(b, 80, 160, 14);
        mearrasot_close(b);
    }
    mearrasot_position(b, mearrasot_leaf(b, 10, 10, 10), MEARRASOT_OUT_OF_FLOW);
    n = mearrasot_leaf(b, 50, 90, 10); /* foot */
    mearrasot_margin_left_auto(b, n);
    mearrasot_width_part(b, n, 0.5f);
    mearrasot_close(b);
    for (n = 0; n < 4; n++) {
        mearrasot_leaf(b, 5, 9, 3);
    }
    mearrasot_close(b);
}

/* All that both pages leave is the same. */
static int alike(void) {
    return memcmp(page_rows, fresh_rows, sizeof page_rows) == 0 &&
           memcmp(page_marks, fresh_marks, sizeof page_marks) == 0 &&
           memcmp(page_pairs, fresh_pairs, sizeof page_pairs) == 0 &&
           memcmp(page_triples, fresh_triples, sizeof page_triples) == 0;
}

static void copy_tables(void) {
    memcpy(fresh_words, page_words, sizeof page_words);
    memcpy(fresh_numbers, page_numbers, sizeof page_numbers);
}

static void test_coarse(void) {
    static int32_t pixels[MEARRASOT_PIXEL_BOX * 16];
    struct mearrasot_page p;
    struct mearrasot_pixels box;
    uint64_t answer;
    build(&page, 24.5f);
    answer = mearrasot_lay(&page, mearrasot_screen(240));
    CHECK(mearrasot_number(answer) == MEARRASOT_DONE);
    p = mearrasot_page_of(&page);
    IS(mearrasot_show_coarse(&page, pixels), MEARRASOT_DONE, 0);
    box = mearrasot_pixels_of(&p, pixels, TEXT);
    CHECK(mearrasot_box_of(&p, TEXT).height == 24.5f && box.height == 25);
    CHECK(box.y + box.height == (int32_t)(mearrasot_box_of(&p, TEXT).y + 25));
    CHECK(mearrasot_pixels_of(&p, pixels, LAMP).width == 0);
    CHECK(strcmp(mearrasot_text((uint64_t)MEARRASOT_TOO_FAR << 32), "edge too far for whole pixels") == 0);
}

/* Asked as profile: what is refused with 11 keeps rows and notes, and a later call goes on from there. */
static void test_profile(void) {
    const struct mearrasot_question q = mearrasot_screen(240), asked = mearrasot_as_profile(q);
    uint64_t answer;
    build(&page, 24);
    answer = mearrasot_lay(&page, q);
    CHECK(mearrasot_number(answer) == MEARRASOT_DONE);
    mearrasot_height_px(&page, TEXT, 24.5f);
    answer = mearrasot_lay(&page, asked);
    CHECK(mearrasot_number(answer) == MEARRASOT_OUTSIDE && page.relaid && page.laid && page.edited == 1);
    CHECK(strcmp(mearrasot_text(answer), "not of the whole-pixel profile") == 0);
    answer = mearrasot_lay(&page, q);
    CHECK(mearrasot_number(answer) == MEARRASOT_DONE && page.relaid && page.edited == 0);
}

static void test_building(void) {
    const struct mearrasot_question q = mearrasot_screen(240);
    uint64_t answer;
    build(&page, 24);
    CHECK(page.nodes == 16 && page.depth == 0 && page.fault == MEARRASOT_FAULT_NONE);
    CHECK(page_words[0] == 16 && page_words[4 * NOTICE] == 2 && page_words[4 * TEXT] == 1 && page_words[4 * 5] == 7);
    answer = mearrasot_lay(&page, q);
    IS(answer, MEARRASOT_DONE, 1);
    CHECK(!page.relaid && page.laid && strcmp(mearrasot_text(answer), "done") == 0);

    build(&fresh, 36);
    IS(mearrasot_lay(&fresh, q), MEARRASOT_DONE, 1);
    CHECK(!alike());
    mearrasot_measures(&page, TEXT, 60, 200, 36);
    CHECK(page.edited == 1 && page.edits[0] == TEXT);
    IS(mearrasot_lay(&page, q), MEARRASOT_DONE, 1);
    CHECK(page.relaid && page.edited == 0 && alike());
}

/* That setters of a field change its number and unit, and nothing else. */
static void field_is(unsigned field, uint32_t unit, float value, const char *name, int line) {
    uint32_t expected_words[MEARRASOT_WORDS];
    float expected[MEARRASOT_NUMBERS];
    mearrasot_node(expected_words, expected, 1, 0, 1, MEARRASOT_BLOCK);
    mearrasot_set(expected_words, expected, 1, 0, field, unit, value);
    check(memcmp(expected_words, page_words, sizeof expected_words) == 0 &&
          memcmp(expected, page_numbers, sizeof expected) == 0, name, __FILE__, line);
    mearrasot_node(page_words, page_numbers, 1, 0, 1, MEARRASOT_BLOCK);
}
#define FIELD(name, field) \
    mearrasot_##name##_px(&page, 0, 3); \
    field_is((field), MEARRASOT_PIXELS, 3, #name, __LINE__); \
    mearrasot_##name##_part(&page, 0, 0.5f); \
    field_is((field), MEARRASOT_FRACTION, 0.5f, #name, __LINE__)
#define AUTO(name, field) \
    FIELD(name, field); \
    mearrasot_##name##_px(&page, 0, 3); \
    mearrasot_##name##_auto(&page, 0); \
    field_is((field), MEARRASOT_AUTO, 0, #name, __LINE__)
#define SIDES(each, name, field) \
    each(name##_top, field); \
    each(name##_right, field + 1); \
    each(name##_bottom, field + 2); \
    each(name##_left, field + 3)

static void test_fields(void) {
    mearrasot_begin(&page);
    mearrasot_open(&page, MEARRASOT_BLOCK);
    mearrasot_close(&page);
    AUTO(width, 0);
    AUTO(height, 1);
    AUTO(min_width, 2);
    AUTO(min_height, 3);
    AUTO(max_width, 4);
    AUTO(max_height, 5);
    SIDES(AUTO, margin, 6);
    SIDES(FIELD, padding, 10);
    SIDES(FIELD, border, 14);
    SIDES(AUTO, inset, 18);
    CHECK(page.fault == MEARRASOT_FAULT_NONE);
}

static float number(uint32_t node, unsigned field) {
    return page_numbers[MEARRASOT_NUMBER(page.nodes, node, field)];
}

/* One setter of each kind does what its name says, and is noted once. */
static void test_setters(void) {
    const struct mearrasot_question q = mearrasot_screen(240);
    uint32_t k;
    mearrasot_measures(&page, TEXT, 60, 200, 36);
    CHECK(page.edited == 0); /* nothing changed */
    mearrasot_width_px(&page, TEXT, 50);
    mearrasot_width_px(&page, TEXT, 60);
    CHECK(page.edited == 1 && (page_words[4 * TEXT + 2] & 3u) == MEARRASOT_PIXELS);
    mearrasot_width_auto(&page, TEXT);
    CHECK((page_words[4 * TEXT + 2] & 3u) == MEARRASOT_AUTO && number(TEXT, 0) == 0);
    mearrasot_inset_left_part(&page, FOOT, -0.25f);
    CHECK(page_words[4 * FOOT + 3] == (0x55u | MEARRASOT_FRACTION << 14) && number(FOOT, 21) == -0.25f);
    mearrasot_border_px(&page, HEAD, 2);
    CHECK(page_words[4 * HEAD + 3] == 0x55u && number(HEAD, 14) == 2 && number(HEAD, 17) == 2);
    mearrasot_ratio(&page, IMPORT, 2);
    mearrasot_scrollbar(&page, IMPORT, 6);
    mearrasot_max_height_px(&page, EXPORT, 40);
    mearrasot_min_height_px(&page, EXPORT, 4);
    mearrasot_min_width_part(&page, EXPORT, 0.5f);
    mearrasot_max_width_px(&page, EXPORT, 200);
    mearrasot_height_px(&page, EXPORT, 12);
    CHECK(number(EXPORT, 1) == 12 && number(EXPORT, 3) == 4 && number(EXPORT, 5) == 40);
    CHECK(number(IMPORT, 22) == 2 && number(IMPORT, 23) == 6);
    mearrasot_overflow_x(&page, IMPORT, MEARRASOT_X_SCROLL);
    mearrasot_overflow_y(&page, IMPORT, MEARRASOT_Y_HIDDEN);
    mearrasot_direction(&page, IMPORT, MEARRASOT_RTL);
    mearrasot_box_sizing(&page, IMPORT, MEARRASOT_CONTENT_BOX);
    mearrasot_align(&page, IMPORT, MEARRASOT_ALIGN_CENTER);
    mearrasot_contained(&page, IMPORT, MEARRASOT_CONTAINED);
    CHECK(page_words[4 * IMPORT + 1] == (MEARRASOT_X_SCROLL | MEARRASOT_Y_HIDDEN | MEARRASOT_RTL | MEARRASOT_CONTENT_BOX |
                                         MEARRASOT_ALIGN_CENTER | MEARRASOT_CONTAINED));
    mearrasot_contained(&page, IMPORT, 0);
    CHECK((page_words[4 * IMPORT + 1] & MEARRASOT_CONTAINED) == 0);
    mearrasot_kind(&page, FOOT + 1, MEARRASOT_HIDDEN);
    CHECK(page.edited == 6);
    for (k = 0; k < page.edited; k++) {
        CHECK(page.edits[k] < page.nodes);
    }
    IS(mearrasot_lay(&page, q), MEARRASOT_DONE, 1);
    CHECK(page.relaid && page.edited == 0);
    copy_tables();
    mearrasot_forget(&fresh);
    IS(mearrasot_lay(&fresh, q), MEARRASOT_DONE, 1);
    CHECK(!fresh.relaid && alike());
    /* a refusal keeps the edits for the next time; zero's sign is an edit */
    mearrasot_measures(&page, TEXT, 60, 200, 70000);
    IS(mearrasot_lay(&page, q), MEARRASOT_BAD_NUMBER, TEXT);
    CHECK(page.edited == 1 && page.laid && alike());
    mearrasot_measures(&page, TEXT, 60, 200, 36);
    CHECK(page.edited == 1);
    IS(mearrasot_lay(&page, q), MEARRASOT_DONE, 1);
    CHECK(page.relaid && page.edited == 0);
    mearrasot_margin_top_px(&page, TEXT, 0);
    CHECK(page.edited == 0);
    mearrasot_margin_top_px(&page, TEXT, -0.0f);
    CHECK(page.edited == 1 && page.edits[0] == TEXT);
    mearrasot_margin_top_px(&page, TEXT, 0);
    page_marks[1] = 0; /* somebody wrote to the marks */
    IS(mearrasot_lay(&page, q), MEARRASOT_DONE, 1);
    CHECK(!page.relaid && page.laid && alike());
}

/* 64 edits are relaid, 65 are laid out afresh. */
static void test_many_edits(void) {
    const struct mearrasot_question q = mearrasot_screen(240);
    uint32_t n, count;
    mearrasot_begin(&large);
    mearrasot_open(&large, MEARRASOT_BLOCK);
    for (n = 1; n < 100; n++) {
        CHECK(mearrasot_leaf(&large, 1, 2, 3) == n);
    }
    mearrasot_close(&large);
    IS(mearrasot_lay(&large, q), MEARRASOT_DONE, 0);
    for (count = 64; count <= 65; count++) {
        for (n = 1; n <= count; n++) {
            mearrasot_measures(&large, n, 1, 2, (float)count);
        }
        CHECK(large.edited == 64 && large.overflowed == (count == 65));
        IS(mearrasot_lay(&large, q), MEARRASOT_DONE, 0);
        CHECK(large.relaid == (count == 64) && large.edited == 0 && !large.overflowed);
        CHECK(large_rows[MEARRASOT_R_HEIGHT] == (float)(count * count + 3 * (99 - count)));
    }
}

/* Fields set before the root is closed and after stand in planes of the page's own length. */
static void test_planes(void) {
    uint32_t n;
    mearrasot_begin(&large);
    mearrasot_open(&large, MEARRASOT_BLOCK);
    for (n = 1; n < 5; n++) {
        mearrasot_leaf(&large, (float)n, (float)(10 * n), 3);
        mearrasot_margin_top_px(&large, n - 1, (float)n);
    }
    CHECK(large_numbers[MEARRASOT_NUMBER(MEARRASOT_MAX_NODES, 4, 25)] == 40);
    mearrasot_close(&large);
    mearrasot_margin_left_px(&large, 4, 7);
    for (n = 1; n < 5; n++) {
        CHECK(large_numbers[5 * 24 + n] == (float)n && large_numbers[5 * 25 + n] == (float)(10 * n));
        CHECK(large_numbers[5 * 26 + n] == 3 && large_numbers[5 * 6 + n - 1] == (float)n);
        CHECK(large_numbers[5 * 9 + n] == (n == 4 ? 7 : 0) && large_numbers[n] == 0);
    }
}

/* After refusal 8 nothing is kept. */
static void test_too_large(void) {
    uint32_t n;
    mearrasot_begin(&large);
    mearrasot_open(&large, MEARRASOT_BLOCK);
    for (n = 0; n < 256; n++) {
        mearrasot_leaf(&large, 1, 2, 65535);
    }
    mearrasot_close(&large);
    IS(mearrasot_lay(&large, mearrasot_screen(240)), MEARRASOT_DONE, 0);
    for (n = 1; n <= 256; n++) {
        mearrasot_measures(&large, n, 1, 2, 65536);
    }
    IS(mearrasot_lay(&large, mearrasot_screen(240)), MEARRASOT_TOO_LARGE, 0);
    CHECK(!large.laid && large.edited == 0 && !large.overflowed);
    mearrasot_measures(&large, 1, 1, 2, 3);
    CHECK(large.edited == 0);
    IS(mearrasot_lay(&large, mearrasot_screen(240)), MEARRASOT_DONE, 0);
    CHECK(!large.relaid && large.laid);
}

static void fault(uint32_t expected, const char *text, int line) {
    uint64_t answer = mearrasot_lay(&page, mearrasot_screen(240));
    check(answer == ((uint64_t)MEARRASOT_UNBUILT << 32 | expected), text, __FILE__, line);
    check(strcmp(mearrasot_text(answer), text) == 0, mearrasot_text(answer), __FILE__, line);
}
#define FAULT(number, text) fault((number), (text), __LINE__)

static void test_faults(void) {
    uint32_t n;
    mearrasot_begin(&page);
    FAULT(MEARRASOT_FAULT_OPEN, "node still open, or none");
    mearrasot_open(&page, MEARRASOT_BLOCK);
    FAULT(MEARRASOT_FAULT_OPEN, "node still open, or none");
    mearrasot_leaf(&page, 1, 1, 1);
    mearrasot_close(&page);
    IS(mearrasot_lay(&page, mearrasot_screen(240)), MEARRASOT_DONE, 0);
    mearrasot_width_px(&page, 2, 1);
    FAULT(MEARRASOT_FAULT_NODE, "no such node");
    mearrasot_pardon(&page);
    mearrasot_overflow_x(&page, 0, MEARRASOT_Y_CLIP);
    FAULT(MEARRASOT_FAULT_VALUE, "value of another group");
    mearrasot_pardon(&page);
    IS(mearrasot_lay(&page, mearrasot_screen(240)), MEARRASOT_DONE, 0);
    CHECK(mearrasot_open(&page, MEARRASOT_BLOCK) == MEARRASOT_NO_NODE);
    FAULT(MEARRASOT_FAULT_ROOT, "root no block, or a second root");
    mearrasot_pardon(&page);
    FAULT(MEARRASOT_FAULT_ROOT, "root no block, or a second root");
    mearrasot_begin(&page);
    mearrasot_open(&page, MEARRASOT_LEAF);
    FAULT(MEARRASOT_FAULT_ROOT, "root no block, or a second root");
    mearrasot_begin(&page);
    mearrasot_open(&page, MEARRASOT_BLOCK);
    mearrasot_open(&page, MEARRASOT_LEAF);
    mearrasot_open(&page, MEARRASOT_LEAF);
    FAULT(MEARRASOT_FAULT_LEAF, "child of a leaf");
    mearrasot_begin(&page);
    mearrasot_close(&page);
    FAULT(MEARRASOT_FAULT_CLOSE, "close without an open");
    mearrasot_begin(&page);
    for (n = 0; n < 17; n++) {
        mearrasot_open(&page, MEARRASOT_BLOCK);
    }
    FAULT(MEARRASOT_FAULT_FULL, "no room for another node");
    mearrasot_begin(&large);
    for (n = 0; n < 33; n++) {
        CHECK(mearrasot_open(&large, MEARRASOT_BLOCK) == (n < 32 ? n : MEARRASOT_NO_NODE));
    }
    CHECK(large.fault == MEARRASOT_FAULT_DEEP);
    mearrasot_begin(&large);
    mearrasot_open(&large, MEARRASOT_BLOCK);
    for (n = 1; n < 1024; n++) {
        mearrasot_leaf(&large, 1, 2, 3);
    }
    CHECK(large.fault == MEARRASOT_FAULT_NONE && mearrasot_leaf(&large, 1, 2, 3) == MEARRASOT_NO_NODE);
    CHECK(large.fault == MEARRASOT_FAULT_FULL);
}

int main(void) {
    test_fields();
    test_coarse();
    test_profile();
    test_building();
    test_setters();
    test_many_edits();
    test_planes();
    test_too_large();
    test_faults();
    return report("page");
}
