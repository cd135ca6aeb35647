/*
 * Panels over one page: what each notes, what empties its list, refusals, faults;
 * and random events of a page with two further panels, of which each accepted
 * call leaves what a fresh layout leaves, and each refused one nothing.
 */
#include <string.h>

#include "check.h"
#include "mearrasot_panels.h"

enum { NODES = 12, PANELS = 3, EVENTS = 60000 };

MEARRASOT_PAGE(kitchen, NODES, NODES);
MEARRASOT_PANEL(hall, NODES, NODES);
MEARRASOT_PANEL(stair, NODES, 0);
MEARRASOT_PANEL(narrow, 4, 0);
MEARRASOT_PAGE(fresh, NODES, NODES);

enum { NOTICE = 2, TEXT = 3, LAMP = 6, FOOT = 11 };

static void build(void) {
    uint32_t n, k;
    mearrasot_begin(&kitchen);
    mearrasot_padding_px(&kitchen, mearrasot_open(&kitchen, MEARRASOT_BLOCK), 4);
    mearrasot_leaf(&kitchen, 40, 120, 12);
    n = mearrasot_open(&kitchen, MEARRASOT_BLOCK); /* notice */
    mearrasot_margin_px(&kitchen, n, 8);
    mearrasot_leaf(&kitchen, 60, 200, 24);
    mearrasot_close(&kitchen);
    mearrasot_open(&kitchen, MEARRASOT_BLOCK);
    mearrasot_leaf(&kitchen, 80, 160, 14);
    mearrasot_leaf(&kitchen, 10, 10, 10); /* lamp */
    for (k = 0; k < 2; k++) {
        mearrasot_margin_top_px(&kitchen, mearrasot_open(&kitchen, MEARRASOT_BLOCK), 5);
        mearrasot_leaf(&kitchen, 80, 160, 14);
        mearrasot_close(&kitchen);
    }
    mearrasot_close(&kitchen);
    mearrasot_width_part(&kitchen, mearrasot_leaf(&kitchen, 50, 90, 10), 0.5f); /* foot */
    mearrasot_close(&kitchen);
}

static void test_lists(void) {
    const struct mearrasot_question q = mearrasot_screen(240), wide = mearrasot_screen(400);
    struct mearrasot_page a, b;
    IS(mearrasot_lay_panel(&hall, q), MEARRASOT_UNBUILT, MEARRASOT_FAULT_OPEN); /* of no page */
    mearrasot_add_panel(&kitchen, &hall);
    mearrasot_add_panel(&kitchen, &hall);
    CHECK(kitchen.panels == &hall && hall.next == NULL);
    IS(mearrasot_lay_panel(&hall, q), MEARRASOT_UNBUILT, MEARRASOT_FAULT_OPEN); /* nothing is built */
    build();
    CHECK(kitchen.nodes == NODES && kitchen.fault == MEARRASOT_FAULT_NONE);
    IS(mearrasot_lay(&kitchen, q), MEARRASOT_DONE, 0);
    mearrasot_measures(&kitchen, TEXT, 60, 200, 36);
    CHECK(kitchen.edited == 1 && hall.edited == 0); /* the hall is not laid out yet */
    IS(mearrasot_lay_panel(&hall, wide), MEARRASOT_DONE, 0);
    CHECK(!hall.relaid && hall.laid && kitchen.edited == 1);
    mearrasot_measures(&kitchen, FOOT, 50, 90, 11);
    CHECK(kitchen.edited == 2 && hall.edited == 1 && hall.edits[0] == FOOT);
    IS(mearrasot_lay(&kitchen, q), MEARRASOT_DONE, 0);
    CHECK(kitchen.relaid && kitchen.edited == 0 && hall.edited == 1); /* its own list alone */
    IS(mearrasot_lay_panel(&hall, wide), MEARRASOT_DONE, 0);
    CHECK(hall.relaid && hall.edited == 0);
    a = mearrasot_page_of(&kitchen);
    b = mearrasot_page_of_panel(&hall);
    CHECK(mearrasot_box_of(&a, 0).width == 240 && mearrasot_box_of(&b, 0).width == 400);
    CHECK(mearrasot_box_of(&a, TEXT).height == 36 && mearrasot_box_of(&b, TEXT).height == 36);
    mearrasot_forget_panel(&hall);
    IS(mearrasot_lay_panel(&hall, wide), MEARRASOT_DONE, 0);
    CHECK(!hall.relaid);
}

/* A table that is refused is refused to both; a question to the one that asks it. */
static void test_refusals(void) {
    struct mearrasot_question q = mearrasot_screen(240), bad = mearrasot_screen(-1);
    mearrasot_padding_top_px(&kitchen, NOTICE, -1);
    IS(mearrasot_lay(&kitchen, q), MEARRASOT_BAD_NUMBER, NOTICE);
    IS(mearrasot_lay_panel(&hall, q), MEARRASOT_BAD_NUMBER, NOTICE);
    IS(mearrasot_lay_panel(&hall, bad), MEARRASOT_BAD_NUMBER, NOTICE);
    CHECK(kitchen.edited == 1 && hall.edited == 1);
    mearrasot_padding_top_px(&kitchen, NOTICE, 0);
    IS(mearrasot_lay_panel(&hall, bad), MEARRASOT_BAD_NUMBER, NODES);
    IS(mearrasot_lay(&kitchen, q), MEARRASOT_DONE, 0);
    CHECK(kitchen.edited == 0 && hall.edited == 1);
    IS(mearrasot_lay_panel(&hall, q), MEARRASOT_DONE, 0);
    /* a candidate: the stair has no room for it, the others have */
    mearrasot_add_panel(&kitchen, &stair);
    IS(mearrasot_lay_panel(&stair, q), MEARRASOT_DONE, 0);
    mearrasot_position(&kitchen, LAMP, MEARRASOT_OUT_OF_FLOW);
    IS(mearrasot_lay_panel(&stair, q), MEARRASOT_ROOM, 0);
    IS(mearrasot_lay_panel(&hall, q), MEARRASOT_DONE, 1);
    CHECK(stair.edited == 1 && hall.edited == 0 && kitchen.edited == 1);
    mearrasot_position(&kitchen, LAMP, 0u);
    mearrasot_add_panel(&fresh, &narrow);
    IS(mearrasot_lay_panel(&narrow, q), MEARRASOT_UNBUILT, MEARRASOT_FAULT_OPEN);
}

static void test_begin(void) {
    IS(mearrasot_lay_panel(&hall, mearrasot_screen(240)), MEARRASOT_DONE, 0);
    build();
    CHECK(!kitchen.laid && !hall.laid && !stair.laid && kitchen.panels == &stair && stair.next == &hall);
    IS(mearrasot_lay_panel(&hall, mearrasot_screen(240)), MEARRASOT_DONE, 0);
    CHECK(!hall.relaid);
    IS(mearrasot_lay_panel(&stair, mearrasot_screen(240)), MEARRASOT_DONE, 0);
    narrow.page = NULL; /* a panel with less room than the page has nodes */
    fresh.panels = NULL;
    mearrasot_add_panel(&kitchen, &narrow);
    IS(mearrasot_lay_panel(&narrow, mearrasot_screen(240)), MEARRASOT_UNBUILT, MEARRASOT_FAULT_FULL);
    CHECK(!narrow.laid);
}

/* ---- Random events ---- */

static uint32_t seed = 8;
static uint32_t some(uint32_t below) {
    seed = seed * 1664525u + 1013904223u;
    return (seed >> 8) % below;
}

static struct mearrasot_question questions[PANELS];
static unsigned long accepted[PANELS], relaid[PANELS], refused[9];

static struct mearrasot_page tables(unsigned k) {
    return k == 0 ? mearrasot_page_of(&kitchen) : mearrasot_page_of_panel(k == 1 ? &hall : &stair);
}

static uint64_t lay(unsigned k) {
    return k == 0 ? mearrasot_lay(&kitchen, questions[0]) : mearrasot_lay_panel(k == 1 ? &hall : &stair, questions[k]);
}

static int same_as(const struct mearrasot_page *p, const struct mearrasot_page *f) {
    return memcmp(p->rows, f->rows, MEARRASOT_ROWS_BYTES(p->nodes)) == 0 &&
           memcmp(p->marks, f->marks, MEARRASOT_MARKS_BYTES(p->nodes)) == 0 &&
           memcmp(p->pairs, f->pairs, MEARRASOT_PAIRS_BYTES(p->records)) == 0 &&
           memcmp(p->triples, f->triples, MEARRASOT_TRIPLES_BYTES(p->records)) == 0;
}

/* A call of panel k beside a fresh layout in memory of its own, with the candidates as they were lent. */
static void call(unsigned k) {
    const struct mearrasot_page p = tables(k);
    struct mearrasot_page f = p;
    uint64_t answer, want;
    f.rows = fresh_rows;
    f.marks = fresh_marks;
    f.pairs = fresh_pairs;
    f.triples = fresh_triples;
    memcpy(fresh_rows, p.rows, sizeof fresh_rows);
    memcpy(fresh_marks, p.marks, sizeof fresh_marks);
    memcpy(fresh_pairs, p.pairs, MEARRASOT_PAIRS_BYTES(p.records));
    memcpy(fresh_triples, p.triples, MEARRASOT_TRIPLES_BYTES(p.records));
    answer = lay(k);
    want = mearrasot_layout_page(&f, questions[k]);
    CHECK(answer == want && same_as(&p, &f)); /* refused by 1 to 7: both as they were */
    if (mearrasot_number(answer) == MEARRASOT_DONE) {
        accepted[k]++;
        relaid[k] += k == 0 ? kitchen.relaid : k == 1 ? hall.relaid : stair.relaid;
    } else {
        refused[mearrasot_number(answer)]++;
    }
}

static void edit(void) {
    const uint32_t n = some(NODES);
    const float x = (float)some(60) / 4.0f;
    switch (some(9)) {
    case 0: mearrasot_margin_top_px(&kitchen, n, x - 4); break;
    case 1: mearrasot_padding_left_px(&kitchen, n, some(12) == 0 ? -1.0f : x); break;
    case 2: mearrasot_height_px(&kitchen, n, x * 3); break;
    case 3: mearrasot_height_auto(&kitchen, n); break;
    case 4: mearrasot_margin_left_part(&kitchen, n, some(20) == 0 ? 2.0f : x / 60); break;
    case 5: mearrasot_measures(&kitchen, n, x, 2 * x, x); break;
    case 6: mearrasot_position(&kitchen, n, some(6) == 0 ? MEARRASOT_OUT_OF_FLOW : 0u); break;
    case 7: mearrasot_padding_left_px(&kitchen, n, x); break;
    default: mearrasot_border_bottom_px(&kitchen, n, x / 8); break;
    }
}

static void ask(unsigned k) {
    questions[k] = mearrasot_screen(some(12) == 0 ? -1.0f : 100.0f + (float)some(300));
    if (some(4) == 0) {
        questions[k].how &= ~(uint32_t)MEARRASOT_KNOWN_WIDTH;
    }
}

/* Mends what a layout of the page refuses. */
static void mend(void) {
    uint32_t n;
    for (n = 0; n < NODES; n++) {
        mearrasot_padding_left_px(&kitchen, n, 2);
        mearrasot_margin_left_px(&kitchen, n, 1);
    }
}

static void test_random(void) {
    unsigned k;
    long e;
    for (k = 0; k < PANELS; k++) {
        ask(k);
    }
    for (e = 0; e < EVENTS; e++) {
        k = some(PANELS);
        switch (some(8)) {
        case 0: ask(k); break;
        case 1: some(4) == 0 ? mend() : edit(); break;
        case 2: case 3: case 4: edit(); break;
        default: call(k); break;
        }
    }
    for (k = 0; k < PANELS; k++) {
        CHECK(accepted[k] > 500 && relaid[k] > 500);
    }
    CHECK(refused[MEARRASOT_BAD_NUMBER] > 500 && refused[MEARRASOT_ROOM] > 50);
}

int main(void) {
    test_lists();
    test_refusals();
    test_begin();
    test_random();
    return report("panels");
}
