/*
 * Four things that a page often needs: text that wraps, a box out of the flow,
 * two columns, and drawing in order. docs/EMBEDDING.md tells them.
 */
#include <stdio.h>
#include <string.h>

#include "mearrasot_page.h"

enum { CHARACTER = 6, LINE = 9 }; /* a font of one width */

MEARRASOT_PAGE(page, 16, 2);
static const struct mearrasot_question *screen;

static void lay(const char *what) {
    uint64_t answer = mearrasot_lay(&page, *screen);
    printf("%s: %s, %s\n", what, mearrasot_text(answer), page.relaid ? "relaid" : "laid out");
}

static struct mearrasot_box box(uint32_t node) {
    struct mearrasot_page p = mearrasot_page_of(&page);
    return mearrasot_box_of(&p, node);
}

static void print(const char *what, uint32_t node) {
    struct mearrasot_box b = box(node);
    printf("  %s at %g, %g: %g x %g\n", what, b.x, b.y, b.width, b.height);
}

/* How tall a text is in that width, broken at any character. */
static float wrapped(const char *text, float width) {
    size_t in_line = width < CHARACTER ? 1 : (size_t)(width / CHARACTER);
    return (float)(LINE * ((strlen(text) + in_line - 1) / in_line));
}

static void wrapping(void) {
    const char *text = "Meter reading will be sent on the first day of each month.";
    uint32_t leaf, below;
    mearrasot_begin(&page);
    mearrasot_padding_px(&page, mearrasot_open(&page, MEARRASOT_BLOCK), 4);
    leaf = mearrasot_leaf(&page, CHARACTER, (float)(CHARACTER * strlen(text)), LINE);
    below = mearrasot_leaf(&page, 20, 40, 10);
    mearrasot_close(&page);
    lay("text, one line");
    mearrasot_measures(&page, leaf, CHARACTER, (float)(CHARACTER * strlen(text)), wrapped(text, box(leaf).width));
    lay("text, wrapped");
    print("text", leaf);
    print("below it", below);
}

/* A panel out of the flow, with content: it is a page of its own, from its run of the words and its numbers cut out. */
static void candidate(void) {
    static float numbers[MEARRASOT_NUMBERS * 3], rows[MEARRASOT_ROW * 3];
    static uint32_t marks[MEARRASOT_MARKS * 3];
    struct mearrasot_page p, panel = {3, NULL, numbers, rows, marks, 0, NULL, NULL};
    struct mearrasot_question q;
    uint64_t answer;
    uint32_t node;
    const float *at;
    mearrasot_begin(&page);
    mearrasot_padding_px(&page, mearrasot_open(&page, MEARRASOT_BLOCK), 4);
    mearrasot_leaf(&page, 20, 40, 30);
    node = mearrasot_open(&page, MEARRASOT_BLOCK | MEARRASOT_OUT_OF_FLOW);
    mearrasot_border_px(&page, node, 1);
    mearrasot_leaf(&page, 20, 60, 12);
    mearrasot_leaf(&page, 20, 80, 12);
    mearrasot_close(&page);
    mearrasot_leaf(&page, 20, 40, 30);
    mearrasot_close(&page);
    lay("panel");
    p = mearrasot_page_of(&page);
    at = p.triples; /* the first record's */
    printf("  node %u may stand from %g to %g at %g\n", (unsigned)p.pairs[MEARRASOT_P_NODE], at[MEARRASOT_T_START],
           at[MEARRASOT_T_END], at[MEARRASOT_T_LINE]);
    panel.words = p.words + MEARRASOT_WORDS * node;
    mearrasot_cut_numbers(numbers, &p, node, panel.nodes);
    q = mearrasot_screen(at[MEARRASOT_T_END] - at[MEARRASOT_T_START]);
    q.how = MEARRASOT_DEFINITE; /* as wide as its content, up to what there is */
    answer = mearrasot_layout_page(&panel, q);
    printf("  by itself: %s, %g x %g\n", mearrasot_text(answer), rows[MEARRASOT_R_WIDTH], rows[MEARRASOT_R_HEIGHT]);
}

/* The right column is moved up by the height of the left; the row is as tall as the taller. */
static void columns(void) {
    uint32_t row, side[2], below, k;
    float left, right;
    mearrasot_begin(&page);
    mearrasot_open(&page, MEARRASOT_BLOCK);
    row = mearrasot_open(&page, MEARRASOT_BLOCK | MEARRASOT_CONTAINED);
    for (k = 0; k < 2; k++) {
        side[k] = mearrasot_open(&page, MEARRASOT_BLOCK | MEARRASOT_CONTAINED);
        mearrasot_width_part(&page, side[k], 0.5f);
        mearrasot_leaf(&page, 20, 40, k == 0 ? 50 : 20);
        mearrasot_close(&page);
    }
    mearrasot_margin_left_part(&page, side[1], 0.5f);
    mearrasot_close(&page);
    below = mearrasot_leaf(&page, 20, 40, 10);
    mearrasot_close(&page);
    lay("columns, one below the other");
    left = box(side[0]).height;
    right = box(side[1]).height;
    mearrasot_margin_top_px(&page, side[1], -left);
    mearrasot_min_height_px(&page, row, left > right ? left : right);
    lay("columns, side by side");
    print("left", side[0]);
    print("right", side[1]);
    print("below", below);
}

/* Preorder is from back to front; what is out of the flow comes last, on top. */
static void drawing(void) {
    struct mearrasot_page p = mearrasot_page_of(&page);
    uint32_t n;
    printf("drawing order:");
    for (n = mearrasot_drawn(&p, 0); n != MEARRASOT_NO_NODE; n = mearrasot_drawn(&p, n + 1)) {
        printf(" %u", (unsigned)n);
    }
    printf("\n");
}

int main(void) {
    const struct mearrasot_question q = mearrasot_screen(120);
    screen = &q;
    wrapping();
    candidate();
    columns();
    drawing();
    return 0;
}
