/* That the constants of the style and of the question mean what their names say, by what a page does. */
#include "check.h"
#include "mearrasot_page.h"

MEARRASOT_PAGE(page, 4, 1);
static struct mearrasot_page p;

/* A root of 100 pixels, a box in it of that style, and a leaf of 10 by 10 in that. */
static void build(uint32_t style) {
    mearrasot_begin(&page);
    mearrasot_open(&page, MEARRASOT_BLOCK);
    mearrasot_open(&page, style);
    mearrasot_width_px(&page, mearrasot_leaf(&page, 10, 10, 10), 10);
    mearrasot_close(&page);
    mearrasot_close(&page);
    p = mearrasot_page_of(&page);
}

static struct mearrasot_box of(uint32_t node, struct mearrasot_question q) {
    IS(mearrasot_lay(&page, q), MEARRASOT_DONE, page_words[MEARRASOT_WORDS + 1] & MEARRASOT_OUT_OF_FLOW ? 1 : 0);
    return mearrasot_box_of(&p, node);
}

static void test_box(void) {
    const struct mearrasot_question q = mearrasot_screen(100);
    build(MEARRASOT_BLOCK);
    CHECK(of(2, q).x == 0);
    mearrasot_direction(&page, 1, MEARRASOT_RTL);
    CHECK(of(2, q).x == 90);
    build(MEARRASOT_BLOCK);
    mearrasot_width_px(&page, 1, 50);
    mearrasot_padding_px(&page, 1, 5);
    CHECK(of(1, q).width == 50);
    mearrasot_box_sizing(&page, 1, MEARRASOT_CONTENT_BOX);
    CHECK(of(1, q).width == 60);
    build(MEARRASOT_BLOCK);
    mearrasot_inset_left_px(&page, 1, 7);
    CHECK(of(1, q).x == 0);
    mearrasot_position(&page, 1, MEARRASOT_RELATIVE);
    CHECK(of(1, q).x == 7);
    mearrasot_position(&page, 1, MEARRASOT_OUT_OF_FLOW);
    CHECK(of(0, q).height == 0 && page_pairs[MEARRASOT_P_NODE] == 1);
    CHECK((page_marks[MEARRASOT_MARKS + MEARRASOT_M_BITS] & (MEARRASOT_OUT | MEARRASOT_LAID)) == MEARRASOT_OUT);
    mearrasot_position(&page, 1, MEARRASOT_PLAIN);
    mearrasot_kind(&page, 1, MEARRASOT_HIDDEN);
    CHECK(of(0, q).height == 0 && !mearrasot_is_laid(&p, 1) && !mearrasot_is_laid(&p, 2));
}

static void test_align(void) {
    const struct mearrasot_question q = mearrasot_screen(100);
    build(MEARRASOT_BLOCK);
    mearrasot_height_px(&page, 1, 50);
    CHECK(of(2, q).y == 0);
    mearrasot_align(&page, 1, MEARRASOT_ALIGN_CENTER);
    CHECK(of(2, q).y == 20);
    mearrasot_align(&page, 1, MEARRASOT_ALIGN_END);
    CHECK(of(2, q).y == 40);
    mearrasot_align(&page, 1, MEARRASOT_ALIGN_START);
    CHECK(of(2, q).y == 0);
}

/* Each word with 40 pixels of room, then with 6 too few. */
static void test_align_words(void) {
    static const struct {
        uint32_t word;
        float roomy, tight;
    } rows[] = {{MEARRASOT_ALIGN_NORMAL, 0, 0},         {MEARRASOT_ALIGN_START, 0, 0},
                {MEARRASOT_ALIGN_CENTER, 20, -3},       {MEARRASOT_ALIGN_END, 40, -6},
                {MEARRASOT_ALIGN_SAFE_CENTER, 20, 0},   {MEARRASOT_ALIGN_SAFE_END, 40, 0},
                {MEARRASOT_ALIGN_SPACE_BETWEEN, 0, 0},  {MEARRASOT_ALIGN_SPACE_AROUND, 20, 0},
                {MEARRASOT_ALIGN_SPACE_EVENLY, 20, 0},  {MEARRASOT_ALIGN_STRETCH, 0, 0}};
    const struct mearrasot_question q = mearrasot_screen(100);
    unsigned k;
    build(MEARRASOT_BLOCK);
    for (k = 0; k < sizeof rows / sizeof rows[0]; k++) {
        mearrasot_align(&page, 1, rows[k].word);
        mearrasot_height_px(&page, 1, 50);
        CHECK(of(2, q).y == rows[k].roomy);
        mearrasot_height_px(&page, 1, 4);
        CHECK(of(2, q).y == rows[k].tight);
    }
}

/* The leaf's top margin stays inside a box that is contained, or that hides or scrolls in either direction. */
static void test_margins(void) {
    static const uint32_t inside[] = {MEARRASOT_CONTAINED, MEARRASOT_X_HIDDEN, MEARRASOT_X_SCROLL,
                                      MEARRASOT_Y_HIDDEN, MEARRASOT_Y_SCROLL};
    static const uint32_t through[] = {MEARRASOT_BLOCK, MEARRASOT_X_VISIBLE, MEARRASOT_Y_VISIBLE, MEARRASOT_X_CLIP,
                                       MEARRASOT_Y_CLIP};
    const struct mearrasot_question q = mearrasot_screen(100);
    unsigned k;
    for (k = 0; k < 5; k++) {
        build(MEARRASOT_BLOCK | inside[k]);
        mearrasot_padding_px(&page, 0, 1);
        mearrasot_margin_top_px(&page, 2, 8);
        CHECK(of(1, q).y == 1 && of(1, q).height == 18);
        build(MEARRASOT_BLOCK | through[k]);
        mearrasot_padding_px(&page, 0, 1);
        mearrasot_margin_top_px(&page, 2, 8);
        CHECK(of(1, q).y == 9 && of(1, q).height == 10);
    }
    build(MEARRASOT_BLOCK | MEARRASOT_Y_SCROLL); /* a bar at the side, none below */
    mearrasot_scrollbar(&page, 1, 6);
    mearrasot_width_part(&page, 2, 1);
    CHECK(of(2, q).width == 94 && of(1, q).height == 10);
    build(MEARRASOT_BLOCK | MEARRASOT_X_SCROLL);
    mearrasot_scrollbar(&page, 1, 6);
    mearrasot_width_part(&page, 2, 1);
    CHECK(of(2, q).width == 100 && of(1, q).height == 16);
}

/* A leaf's first baseline, in its box and on the page; relayouts follow it. */
static void test_baseline(void) {
    const struct mearrasot_question q = mearrasot_screen(100);
    build(MEARRASOT_BLOCK);
    CHECK(of(2, q).height == 10 && !mearrasot_is_lined(&p, 2) && mearrasot_line_of(&p, 2) == 0);
    mearrasot_baseline(&page, 2, 8);
    mearrasot_margin_top_px(&page, 1, 3);
    CHECK(of(2, q).y == 3 && page.relaid);
    CHECK(mearrasot_is_lined(&p, 2) && page_rows[2 * MEARRASOT_ROW + MEARRASOT_R_BASELINE] == 8);
    CHECK(mearrasot_is_lined(&p, 1) && page_rows[MEARRASOT_ROW + MEARRASOT_R_BASELINE] == 8);
    CHECK(mearrasot_is_lined(&p, 0) && page_rows[MEARRASOT_R_BASELINE] == 11);
    CHECK(mearrasot_line_of(&p, 0) == 11 && mearrasot_line_of(&p, 1) == 11 && mearrasot_line_of(&p, 2) == 11);
    mearrasot_height_px(&page, 1, 50);
    mearrasot_align(&page, 1, MEARRASOT_ALIGN_END);
    CHECK(of(2, q).y == 43 && mearrasot_line_of(&p, 0) == 51 && mearrasot_line_of(&p, 2) == 51);
    mearrasot_contained(&page, 1, MEARRASOT_CONTAINED);
    CHECK(of(1, q).y == 3 && !mearrasot_is_lined(&p, 0) && !mearrasot_is_lined(&p, 1) && mearrasot_is_lined(&p, 2));
    mearrasot_no_baseline(&page, 2);
    CHECK(of(2, q).y == 43 && !mearrasot_is_lined(&p, 2) && page_rows[2 * MEARRASOT_ROW + MEARRASOT_R_BASELINE] == 0);
    mearrasot_baseline(&page, 2, 10.5f); /* below the leaf */
    IS(mearrasot_lay(&page, q), MEARRASOT_BAD_NUMBER, 2);
    mearrasot_baseline(&page, 2, 10);
    CHECK(of(2, q).height == 10);
    mearrasot_baseline(&page, 1, 0); /* no leaf */
    IS(mearrasot_lay(&page, q), MEARRASOT_CODES, 1);
}

static void test_question(void) {
    struct mearrasot_question q = mearrasot_screen(100);
    float size[2];
    build(MEARRASOT_BLOCK);
    mearrasot_width_auto(&page, 2);
    mearrasot_measures(&page, 2, 10, 40, 10);
    CHECK(of(0, q).width == 100);
    q.how = MEARRASOT_MIN_CONTENT;
    CHECK(of(0, q).width == 10);
    q.how = MEARRASOT_MAX_CONTENT;
    CHECK(of(0, q).width == 40);
    q.how = MEARRASOT_DEFINITE;
    q.available = 30;
    CHECK(of(0, q).width == 30);
    q.how |= MEARRASOT_KNOWN_HEIGHT;
    q.known_height = 80;
    CHECK(of(0, q).height == 80);
    IS(mearrasot_size_page(&p, size, q), MEARRASOT_DONE, 0);
    CHECK(size[0] == 30 && size[1] == 80);
    q.how = MEARRASOT_DEFINITE | MEARRASOT_WIDTH_ONLY;
    IS(mearrasot_size_page(&p, size, q), MEARRASOT_DONE, 0);
    CHECK(size[0] == 30 && size[1] == 0);
    mearrasot_height_part(&page, 1, 0.5f);
    CHECK(of(1, mearrasot_screen(100)).height == 10);
    CHECK(of(1, mearrasot_whole_screen(100, 80)).height == 40);
    q = mearrasot_screen(100);
    mearrasot_margin_top_px(&page, 1, 8);
    CHECK(of(1, q).y == 8 && page_rows[MEARRASOT_R_TOP_SET] == 0);
    q.how |= MEARRASOT_START;
    CHECK(of(1, q).y == 0 && page_rows[MEARRASOT_R_TOP_SET] == 8);
    mearrasot_margin_bottom_px(&page, 1, 4);
    CHECK(of(1, q).y == 0 && page_rows[MEARRASOT_R_BOTTOM_SET] == 0);
    q.how |= MEARRASOT_END;
    CHECK(of(1, q).y == 0 && page_rows[MEARRASOT_R_BOTTOM_SET] == 4);
}

int main(void) {
    test_box();
    test_align();
    test_align_words();
    test_margins();
    test_baseline();
    test_question();
    return report("styles");
}
