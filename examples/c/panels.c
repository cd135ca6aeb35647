/*
 * One page on the kitchen panel and on the hall panel: edits, and relayouts of
 * the two in another order, each beside a fresh layout in memory of its own.
 */
#include <stdio.h>
#include <string.h>

#include "mearrasot_panels.h"

enum { NODES = 9 };

MEARRASOT_PAGE(kitchen, NODES, 1);
MEARRASOT_PANEL(hall, NODES, 1);

static float rows[MEARRASOT_ROW * NODES];
static uint32_t marks[MEARRASOT_MARKS * NODES], pairs[MEARRASOT_PAIR];
static float triples[MEARRASOT_TRIPLE];

static const char *const names[NODES] = {"page", "heading", "notice", "import", "its label", "its value", "export", "lamp", "foot"};
enum { NOTICE = 2, IMPORT = 3, VALUE = 5 };
static int differ;

static void build(void) {
    uint32_t n;
    mearrasot_padding_px(&kitchen, mearrasot_open(&kitchen, MEARRASOT_BLOCK), 4);
    mearrasot_margin_bottom_px(&kitchen, mearrasot_leaf(&kitchen, 40, 120, 12), 6);
    mearrasot_margin_px(&kitchen, mearrasot_leaf(&kitchen, 60, 200, 24), 8);
    n = mearrasot_open(&kitchen, MEARRASOT_BLOCK); /* import: its value stands at the right end */
    mearrasot_margin_top_px(&kitchen, n, 5);
    mearrasot_leaf(&kitchen, 40, 80, 14);
    n = mearrasot_leaf(&kitchen, 40, 60, 14);
    mearrasot_margin_left_auto(&kitchen, n);
    mearrasot_width_part(&kitchen, n, 0.25f);
    mearrasot_close(&kitchen);
    mearrasot_leaf(&kitchen, 40, 80, 14);
    mearrasot_position(&kitchen, mearrasot_leaf(&kitchen, 10, 10, 10), MEARRASOT_OUT_OF_FLOW); /* lamp */
    mearrasot_margin_top_px(&kitchen, mearrasot_leaf(&kitchen, 50, 90, 10), 5);
    mearrasot_close(&kitchen);
}

static void print_edits(uint32_t count, const uint32_t *edits) {
    uint32_t k;
    for (k = 0; k < count; k++) {
        printf("%s%s", k == 0 ? "" : ", ", names[edits[k]]);
    }
    printf("%s", count == 0 ? "nothing" : "");
}

/* The lists as they stand. */
static void lists(const char *what) {
    printf("\n%s. Noted for the kitchen: ", what);
    print_edits(kitchen.edited, kitchen.edits);
    printf("; for the hall: ");
    print_edits(hall.edited, hall.edits);
    printf(".\n");
}

/* What a panel shows, and that a fresh layout of the same page leaves the same. */
static void show(const char *who, uint64_t answer, uint32_t relaid, const struct mearrasot_page *p, struct mearrasot_question q) {
    struct mearrasot_page f = *p;
    uint64_t want;
    uint32_t n;
    printf("%s: %s, place %u", who, mearrasot_text(answer), (unsigned)mearrasot_place(answer));
    if (mearrasot_number(answer) != MEARRASOT_DONE) {
        printf("\n");
        return;
    }
    printf(", %s\n", relaid ? "relaid" : "laid out");
    f.rows = rows;
    f.marks = marks;
    f.pairs = pairs;
    f.triples = triples;
    want = mearrasot_layout_page(&f, q);
    for (n = mearrasot_drawn(p, 0); n != MEARRASOT_NO_NODE; n = mearrasot_drawn(p, n + 1)) {
        const struct mearrasot_box b = mearrasot_box_of(p, n), c = mearrasot_box_of(&f, n);
        printf("  %-9s %5.1f %5.1f %5.1f %5.1f | %5.1f %5.1f %5.1f %5.1f\n", names[n], b.x, b.y, b.width, b.height, c.x, c.y,
               c.width, c.height);
    }
    n = answer == want && memcmp(p->rows, rows, sizeof rows) == 0 && memcmp(p->marks, marks, sizeof marks) == 0 &&
        memcmp(p->pairs, pairs, sizeof pairs) == 0 && memcmp(p->triples, triples, sizeof triples) == 0;
    printf("  %s\n", n ? "same rows, marks and candidates" : "DIFFERENT");
    differ |= !n;
}

static void in_kitchen(void) {
    const struct mearrasot_question q = mearrasot_screen(240);
    const uint64_t answer = mearrasot_lay(&kitchen, q);
    const struct mearrasot_page p = mearrasot_page_of(&kitchen);
    show("kitchen, 240 pixels", answer, kitchen.relaid, &p, q);
}

static void in_hall(float width) {
    const struct mearrasot_question q = mearrasot_screen(width);
    const uint64_t answer = mearrasot_lay_panel(&hall, q);
    const struct mearrasot_page p = mearrasot_page_of_panel(&hall);
    char who[32];
    sprintf(who, "hall, %g pixels", width);
    show(who, answer, hall.relaid, &p, q);
}

int main(void) {
    printf("x y width height on the panel | after a fresh layout\n");
    mearrasot_add_panel(&kitchen, &hall);
    build();
    lists("1. Both are laid out");
    in_kitchen();
    in_hall(400);
    mearrasot_measures(&kitchen, NOTICE, 60, 200, 36);
    lists("2. The notice grows, and the hall is asked first");
    in_hall(400);
    mearrasot_measures(&kitchen, VALUE, 40, 60, 20);
    lists("3. The value grows. The kitchen has seen neither");
    in_kitchen();
    mearrasot_padding_top_px(&kitchen, IMPORT, -1);
    lists("4. A padding of -1 is refused to both");
    in_hall(400);
    in_kitchen();
    mearrasot_padding_top_px(&kitchen, IMPORT, 3);
    lists("5. It is mended. The hall is turned, 320 pixels wide now, and asks for -1 at first");
    in_hall(-1);
    in_hall(320);
    in_kitchen();
    lists("6. Both have seen all");
    return differ;
}
