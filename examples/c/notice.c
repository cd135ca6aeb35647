/*
 * A page of a meter: a head, a notice, two registers and a foot. The notice
 * gets a longer text; the page is laid out again from what was kept, and once
 * more from scratch, and the two are compared.
 */
#include <stdio.h>
#include <string.h>

#include "mearrasot.h"

enum { NODES = 12, RECORDS = 1 };

enum node {
    ROOT, HEAD, TITLE, NOTICE, TEXT, REGISTERS, IMPORT, IMPORT_LINE, EXPORT, EXPORT_LINE, LAMP, FOOT
};

static const char *const names[NODES] = {
    "page", "head", "title", "notice", "text", "registers",
    "import", "import line", "export", "export line", "lamp", "foot"
};

/* What is laid out. */
static uint32_t words[MEARRASOT_WORDS * NODES];
static float numbers[MEARRASOT_NUMBERS * NODES];

/* What comes out of it. */
struct result {
    float rows[MEARRASOT_ROW * NODES];
    uint32_t marks[MEARRASOT_MARKS * NODES];
    uint32_t pairs[MEARRASOT_PAIR * RECORDS];
    float triples[MEARRASOT_TRIPLE * RECORDS];
};

static struct result screen, afresh;

static void pixels(enum node node, unsigned field, float value) {
    mearrasot_set(words, numbers, NODES, node, field, MEARRASOT_PIXELS, value);
}

static void all_sides(enum node node, unsigned field, float value) {
    unsigned side;
    for (side = 0; side < 4; side++) {
        pixels(node, field + side, value);
    }
}

static void leaf(enum node node, float least, float most, float height) {
    mearrasot_node(words, numbers, NODES, node, 1, MEARRASOT_LEAF);
    mearrasot_measure(numbers, NODES, node, least, most, height);
}

static void block(enum node node, uint32_t size) {
    mearrasot_node(words, numbers, NODES, node, size, MEARRASOT_BLOCK);
}

static void fill_page(void) {
    block(ROOT, NODES);
    all_sides(ROOT, MEARRASOT_F_PADDING, 4);
    block(HEAD, 2);
    pixels(HEAD, MEARRASOT_F_BORDER + MEARRASOT_BOTTOM, 1);
    pixels(HEAD, MEARRASOT_F_MARGIN + MEARRASOT_BOTTOM, 6);
    leaf(TITLE, 40, 120, 12);
    block(NOTICE, 2);
    all_sides(NOTICE, MEARRASOT_F_MARGIN, 8);
    all_sides(NOTICE, MEARRASOT_F_PADDING, 3);
    all_sides(NOTICE, MEARRASOT_F_BORDER, 1);
    leaf(TEXT, 60, 200, 24);
    block(REGISTERS, 6);
    block(IMPORT, 2);
    pixels(IMPORT, MEARRASOT_F_MARGIN + MEARRASOT_TOP, 5);
    leaf(IMPORT_LINE, 80, 160, 14);
    block(EXPORT, 2);
    pixels(EXPORT, MEARRASOT_F_MARGIN + MEARRASOT_TOP, 5);
    leaf(EXPORT_LINE, 80, 160, 14);
    mearrasot_node(words, numbers, NODES, LAMP, 1, MEARRASOT_LEAF | MEARRASOT_OUT_OF_FLOW);
    leaf(FOOT, 50, 90, 10);
    mearrasot_set(words, numbers, NODES, FOOT, MEARRASOT_F_MARGIN + MEARRASOT_LEFT, MEARRASOT_AUTO, 0);
    mearrasot_set(words, numbers, NODES, FOOT, MEARRASOT_F_WIDTH, MEARRASOT_FRACTION, 0.5f);
}

static struct mearrasot_page page(struct result *r) {
    struct mearrasot_page p;
    p.nodes = NODES;
    p.words = words;
    p.numbers = numbers;
    p.rows = r->rows;
    p.marks = r->marks;
    p.records = RECORDS;
    p.pairs = r->pairs;
    p.triples = r->triples;
    return p;
}

/* A screen of 240 pixels, as tall as the page likes. */
static struct mearrasot_question ask(void) {
    struct mearrasot_question q = {240, 0, 240, 240, MEARRASOT_KNOWN_WIDTH | MEARRASOT_DEFINITE};
    return q;
}

static void print(const char *what, uint64_t answer, const struct result *r) {
    size_t i;
    uint32_t count = mearrasot_place(answer);
    printf("%s: answer %u, place %u\n", what, (unsigned)mearrasot_number(answer), (unsigned)count);
    if (mearrasot_number(answer) != MEARRASOT_DONE) {
        return;
    }
    for (i = 0; i < NODES; i++) {
        const float *x = r->rows + MEARRASOT_ROW * i;
        const uint32_t *m = r->marks + MEARRASOT_MARKS * i;
        if (m[MEARRASOT_M_BITS] & MEARRASOT_LAID) {
            printf("  %-12s order %u  at %6.1f %6.1f  size %6.1f x %5.1f\n", names[i],
                   (unsigned)m[MEARRASOT_M_ORDER], x[MEARRASOT_R_X], x[MEARRASOT_R_Y],
                   x[MEARRASOT_R_WIDTH], x[MEARRASOT_R_HEIGHT]);
        }
    }
    for (i = 0; i < count; i++) {
        const uint32_t *c = r->pairs + MEARRASOT_PAIR * i;
        const float *x = r->triples + MEARRASOT_TRIPLE * i;
        printf("  %-12s order %u  from %5.1f to %6.1f on line %5.1f\n", names[c[0]], (unsigned)c[1],
               x[0], x[1], x[2]);
    }
}

int main(void) {
    const uint32_t edits[1] = {TEXT};
    float size[2];
    struct mearrasot_page on_screen = page(&screen), from_scratch = page(&afresh);
    uint64_t first, again, fresh, sized;

    fill_page();
    first = mearrasot_layout_page(&on_screen, ask());
    print("layout", first, &screen);

    mearrasot_measure(numbers, NODES, TEXT, 60, 200, 36); /* a longer notice */
    again = mearrasot_relayout_page(&on_screen, edits, 1, ask());
    print("relayout after the edit", again, &screen);

    fresh = mearrasot_layout_page(&from_scratch, ask());
    print("layout of the edited page", fresh, &afresh);
    if (again != fresh || memcmp(&screen, &afresh, sizeof screen) != 0) {
        printf("the two differ\n");
        return 1;
    }
    printf("the two are the same, bit for bit\n");

    sized = mearrasot_size_page(&on_screen, size, ask());
    printf("size alone: answer %u, %.1f x %.1f\n", (unsigned)mearrasot_number(sized), size[0], size[1]);

    numbers[MEARRASOT_NUMBER(NODES, TEXT, MEARRASOT_F_LEAF_HEIGHT)] = 70000; /* over 65,536 */
    again = mearrasot_relayout_page(&on_screen, edits, 1, ask());
    print("with a number out of range", again, &screen);
    if (memcmp(&screen, &afresh, sizeof screen) != 0) {
        printf("the refusal wrote something\n");
        return 1;
    }
    printf("the screen is as it was\n");
    return 0;
}
