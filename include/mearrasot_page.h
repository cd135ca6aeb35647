/*
 * A page that is built and edited by name. Subtree sizes are counted, units come
 * with the setter, and each edited node is noted, so that mearrasot_lay relays
 * out from what was kept wherever it may, and lays out afresh where it must.
 * C99 and C++; nothing here is proved, and tests/page.c runs all of it.
 *
 *     MEARRASOT_PAGE(page, 16, 0);
 *     mearrasot_open(&page, MEARRASOT_BLOCK);
 *     mearrasot_padding_px(&page, 0, 4);
 *     text = mearrasot_leaf(&page, 40, 120, 12);
 *     mearrasot_close(&page);
 *     answer = mearrasot_lay(&page, mearrasot_screen(240));
 */
#ifndef MEARRASOT_PAGE_H
#define MEARRASOT_PAGE_H

#include <string.h>

#include "mearrasot.h"

#ifdef __cplusplus
extern "C" {
#endif

/* What was done wrong in building. The first is kept, and nothing is laid out. */
enum mearrasot_fault {
    MEARRASOT_FAULT_NONE = 0,
    MEARRASOT_FAULT_FULL = 1,  /* more nodes than there is room for, or than 1,024 */
    MEARRASOT_FAULT_DEEP = 2,  /* over 32 levels */
    MEARRASOT_FAULT_ROOT = 3,  /* the root is no block, or there is a second root */
    MEARRASOT_FAULT_LEAF = 4,  /* a child of a leaf */
    MEARRASOT_FAULT_CLOSE = 5, /* a close too many */
    MEARRASOT_FAULT_OPEN = 6,  /* no node, or one that is not closed */
    MEARRASOT_FAULT_NODE = 7,  /* a setter names no node of the page */
    MEARRASOT_FAULT_VALUE = 8  /* a setter is given a value of another group */
};

/* The number of mearrasot_lay's answer if there is a fault; the fault is the place. */
#define MEARRASOT_UNBUILT 255u

struct mearrasot_builder {
    /* Lent. */
    uint32_t *words;
    float *numbers;
    float *rows;
    uint32_t *marks;
    uint32_t *pairs;
    float *triples;
    size_t room;    /* nodes */
    size_t records;
    /* To be read only. */
    uint32_t nodes;
    uint32_t depth; /* how many nodes are open */
    uint32_t fault;
    uint32_t laid;       /* rows and marks are those of an accepted call */
    uint32_t relaid;     /* the last call was a relayout */
    uint32_t edited;     /* entries of edits */
    uint32_t overflowed; /* there are more than edits has room for */
    uint32_t open[MEARRASOT_MAX_DEPTH];
    uint32_t edits[MEARRASOT_MAX_EDITS];
    struct mearrasot_panel *panels; /* the last that was added, of mearrasot_panels.h */
};

/* A further panel over the same nodes: see mearrasot_panels.h. */
struct mearrasot_panel {
    /* Lent. */
    float *rows;
    uint32_t *marks;
    uint32_t *pairs;
    float *triples;
    size_t room; /* nodes */
    size_t records;
    /* To be read only: as in the builder, for this panel. */
    uint32_t laid;
    uint32_t relaid;
    uint32_t edited;
    uint32_t overflowed;
    uint32_t edits[MEARRASOT_MAX_EDITS];
    const struct mearrasot_builder *page;
    struct mearrasot_panel *next;
};

/* A page with room for that many nodes and candidate records, with its memory. */
#define MEARRASOT_PAGE(name, nodes_, records_) \
    static uint32_t name##_words[MEARRASOT_WORDS * (nodes_)], name##_marks[MEARRASOT_MARKS * (nodes_)]; \
    static float name##_numbers[MEARRASOT_NUMBERS * (nodes_)], name##_rows[MEARRASOT_ROW * (nodes_)]; \
    static uint32_t name##_pairs[MEARRASOT_PAIR * (records_) + 1]; \
    static float name##_triples[MEARRASOT_TRIPLE * (records_) + 1]; \
    static struct mearrasot_builder name = {name##_words, name##_numbers, name##_rows, name##_marks, \
        name##_pairs, name##_triples, (nodes_), (records_), 0, 0, 0, 0, 0, 0, 0, {0}, {0}, NULL}

/* ---- Building ---- */

/* How long a plane of numbers is: as the room while a node is open, as the page when all are closed. */
static inline size_t mearrasot_plane(const struct mearrasot_builder *b) {
    return b->depth > 0u ? b->room : b->nodes;
}

/* Brings the planes of a page that is complete together. Each moves down, the first stays. */
static inline void mearrasot_pack(struct mearrasot_builder *b) {
    size_t f;
    for (f = 1; f < MEARRASOT_NUMBERS && b->nodes < b->room; f++) {
        memmove(b->numbers + MEARRASOT_NUMBER(b->nodes, 0, f), b->numbers + MEARRASOT_NUMBER(b->room, 0, f),
                b->nodes * sizeof *b->numbers);
    }
}

/* Starts a page anew, in the same memory. */
static inline void mearrasot_begin(struct mearrasot_builder *b) {
    struct mearrasot_panel *p;
    b->nodes = b->depth = b->fault = b->laid = b->relaid = b->edited = b->overflowed = 0u;
    for (p = b->panels; p != NULL; p = p->next) {
        p->laid = p->relaid = p->edited = p->overflowed = 0u;
    }
}

static inline void mearrasot_blame(struct mearrasot_builder *b, uint32_t fault) {
    if (b->fault == MEARRASOT_FAULT_NONE) {
        b->fault = fault;
    }
}

/* Forgets a fault of a setter: it changed nothing. One of building stays until mearrasot_begin. */
static inline void mearrasot_pardon(struct mearrasot_builder *b) {
    if (b->fault >= MEARRASOT_FAULT_NODE) {
        b->fault = MEARRASOT_FAULT_NONE;
    }
}

static inline uint32_t mearrasot_kind_of(const struct mearrasot_builder *b, uint32_t node) {
    return b->words[MEARRASOT_WORDS * node + 1] & 3u;
}

/*
 * Opens a node below the one that is open, and gives its number; what is opened
 * before it is closed stands below it. style: its kind, and whatever else of the
 * style is to be set.
 */
static inline uint32_t mearrasot_open(struct mearrasot_builder *b, uint32_t style) {
    uint32_t node = b->nodes;
    if (b->fault != MEARRASOT_FAULT_NONE) {
        return MEARRASOT_NO_NODE;
    }
    if (node >= b->room || node >= MEARRASOT_MAX_NODES) {
        mearrasot_blame(b, MEARRASOT_FAULT_FULL);
    } else if (b->depth == MEARRASOT_MAX_DEPTH) {
        mearrasot_blame(b, MEARRASOT_FAULT_DEEP);
    } else if (node == 0u ? (style & 3u) != MEARRASOT_BLOCK : b->depth == 0u) {
        mearrasot_blame(b, MEARRASOT_FAULT_ROOT);
    } else if (b->depth > 0u && mearrasot_kind_of(b, b->open[b->depth - 1u]) == MEARRASOT_LEAF) {
        mearrasot_blame(b, MEARRASOT_FAULT_LEAF);
    }
    if (b->fault != MEARRASOT_FAULT_NONE) {
        return MEARRASOT_NO_NODE;
    }
    mearrasot_node(b->words, b->numbers, b->room, node, 0u, style);
    b->open[b->depth++] = node;
    b->nodes++;
    return node;
}

static inline void mearrasot_close(struct mearrasot_builder *b) {
    uint32_t node;
    if (b->depth == 0u) {
        mearrasot_blame(b, MEARRASOT_FAULT_CLOSE);
        return;
    }
    node = b->open[--b->depth];
    b->words[MEARRASOT_WORDS * node] = b->nodes - node;
    if (b->depth == 0u) {
        mearrasot_pack(b);
    }
}

/* ---- Setters: of any node of the page, while it is built or after ---- */

static inline uint32_t mearrasot_bits(float x) {
    uint32_t bits;
    memcpy(&bits, &x, sizeof bits);
    return bits;
}

/* A node in one list, once. */
static inline void mearrasot_enter(uint32_t node, uint32_t *edits, uint32_t *edited, uint32_t *overflowed) {
    uint32_t k;
    for (k = 0u; k < *edited; k++) {
        if (edits[k] == node) {
            return;
        }
    }
    if (*edited == MEARRASOT_MAX_EDITS) {
        *overflowed = 1u;
    } else {
        edits[(*edited)++] = node;
    }
}

/* Notes that a node was edited: for the page and for each panel, since its own last accepted call. */
static inline void mearrasot_note(struct mearrasot_builder *b, uint32_t node) {
    struct mearrasot_panel *p;
    if (b->laid) {
        mearrasot_enter(node, b->edits, &b->edited, &b->overflowed);
    }
    for (p = b->panels; p != NULL; p = p->next) {
        if (p->laid) {
            mearrasot_enter(node, p->edits, &p->edited, &p->overflowed);
        }
    }
}

static inline int mearrasot_there(struct mearrasot_builder *b, uint32_t node) {
    if (node >= b->nodes) {
        mearrasot_blame(b, MEARRASOT_FAULT_NODE);
        return 0;
    }
    return 1;
}

static inline void mearrasot_put_number(struct mearrasot_builder *b, uint32_t node, unsigned field, float value) {
    float *x;
    if (mearrasot_there(b, node)) {
        x = b->numbers + MEARRASOT_NUMBER(mearrasot_plane(b), node, field);
        if (mearrasot_bits(*x) != mearrasot_bits(value)) {
            *x = value;
            mearrasot_note(b, node);
        }
    }
}

/* Word k of a node, where mask says so. */
static inline void mearrasot_put_word(struct mearrasot_builder *b, uint32_t node, unsigned k, uint32_t mask,
                                      uint32_t value) {
    uint32_t *w;
    if ((value & ~mask) != 0u) {
        mearrasot_blame(b, MEARRASOT_FAULT_VALUE);
    } else if (mearrasot_there(b, node)) {
        w = b->words + MEARRASOT_WORDS * node + k;
        if ((*w & mask) != value) {
            *w = (*w & ~mask) | value;
            mearrasot_note(b, node);
        }
    }
}

static inline void mearrasot_put(struct mearrasot_builder *b, uint32_t node, unsigned field, uint32_t unit,
                                 float value) {
    unsigned at = MEARRASOT_UNIT_AT(field) & 31u;
    mearrasot_put_word(b, node, field < 14u ? 2u : 3u, (uint32_t)3u << at, unit << at);
    mearrasot_put_number(b, node, field, value);
}

static inline void mearrasot_put_sides(struct mearrasot_builder *b, uint32_t node, unsigned field, uint32_t unit,
                                       float value) {
    unsigned side;
    for (side = 0u; side < 4u; side++) {
        mearrasot_put(b, node, field + side, unit, value);
    }
}

/* NAME_px(page, node, pixels), NAME_part(page, node, fraction), NAME_auto(page, node). */
#define MEARRASOT_SETTERS_(name, how, field) \
    static inline void mearrasot_##name##_px(struct mearrasot_builder *b, uint32_t node, float x) { \
        how(b, node, (field), MEARRASOT_PIXELS, x); \
    } \
    static inline void mearrasot_##name##_part(struct mearrasot_builder *b, uint32_t node, float x) { \
        how(b, node, (field), MEARRASOT_FRACTION, x); \
    }
#define MEARRASOT_AUTO_(name, how, field) \
    static inline void mearrasot_##name##_auto(struct mearrasot_builder *b, uint32_t node) { \
        how(b, node, (field), MEARRASOT_AUTO, 0.0f); \
    }
#define MEARRASOT_SIDES_(make, name, field) \
    make(name, mearrasot_put_sides, (field)) \
    make(name##_top, mearrasot_put, (field) + MEARRASOT_TOP) \
    make(name##_right, mearrasot_put, (field) + MEARRASOT_RIGHT) \
    make(name##_bottom, mearrasot_put, (field) + MEARRASOT_BOTTOM) \
    make(name##_left, mearrasot_put, (field) + MEARRASOT_LEFT)
#define MEARRASOT_SIZE_(name, field) \
    MEARRASOT_SETTERS_(name, mearrasot_put, field) \
    MEARRASOT_AUTO_(name, mearrasot_put, field)

MEARRASOT_SIZE_(width, MEARRASOT_F_WIDTH)
MEARRASOT_SIZE_(height, MEARRASOT_F_HEIGHT)
MEARRASOT_SIZE_(min_width, MEARRASOT_F_MIN_WIDTH)
MEARRASOT_SIZE_(min_height, MEARRASOT_F_MIN_HEIGHT)
MEARRASOT_SIZE_(max_width, MEARRASOT_F_MAX_WIDTH)
MEARRASOT_SIZE_(max_height, MEARRASOT_F_MAX_HEIGHT)
/* margin, padding, border and inset: all four sides alike, or margin_top and so on. */
MEARRASOT_SIDES_(MEARRASOT_SETTERS_, margin, MEARRASOT_F_MARGIN)
MEARRASOT_SIDES_(MEARRASOT_AUTO_, margin, MEARRASOT_F_MARGIN)
MEARRASOT_SIDES_(MEARRASOT_SETTERS_, padding, MEARRASOT_F_PADDING)
MEARRASOT_SIDES_(MEARRASOT_SETTERS_, border, MEARRASOT_F_BORDER)
MEARRASOT_SIDES_(MEARRASOT_SETTERS_, inset, MEARRASOT_F_INSET)
MEARRASOT_SIDES_(MEARRASOT_AUTO_, inset, MEARRASOT_F_INSET)

/* Width by height; 0 for none. */
static inline void mearrasot_ratio(struct mearrasot_builder *b, uint32_t node, float ratio) {
    mearrasot_put_number(b, node, MEARRASOT_F_RATIO, ratio);
}

static inline void mearrasot_scrollbar(struct mearrasot_builder *b, uint32_t node, float pixels) {
    mearrasot_put_number(b, node, MEARRASOT_F_SCROLLBAR, pixels);
}

/* What a leaf measures: narrowest and widest width, and height. */
static inline void mearrasot_measures(struct mearrasot_builder *b, uint32_t node, float least, float most,
                                      float height) {
    mearrasot_put_number(b, node, MEARRASOT_F_LEAF_MIN, least);
    mearrasot_put_number(b, node, MEARRASOT_F_LEAF_MAX, most);
    mearrasot_put_number(b, node, MEARRASOT_F_LEAF_HEIGHT, height);
}

/* A leaf, opened and closed. */
static inline uint32_t mearrasot_leaf(struct mearrasot_builder *b, float least, float most, float height) {
    uint32_t node = mearrasot_open(b, MEARRASOT_LEAF);
    if (node != MEARRASOT_NO_NODE) {
        mearrasot_measures(b, node, least, most, height);
        mearrasot_close(b);
    }
    return node;
}

/* A leaf's first baseline, from its top: not above its height. */
static inline void mearrasot_baseline(struct mearrasot_builder *b, uint32_t node, float y) {
    mearrasot_put_word(b, node, 1u, MEARRASOT_LINED, MEARRASOT_LINED);
    mearrasot_put_number(b, node, MEARRASOT_F_LEAF_BASELINE, y);
}

static inline void mearrasot_no_baseline(struct mearrasot_builder *b, uint32_t node) {
    mearrasot_put_word(b, node, 1u, MEARRASOT_LINED, 0u);
    mearrasot_put_number(b, node, MEARRASOT_F_LEAF_BASELINE, 0.0f);
}

/* One group of the style; value: a constant of that group, 0 for the flags' absence. */
#define MEARRASOT_STYLE_(name, mask) \
    static inline void mearrasot_##name(struct mearrasot_builder *b, uint32_t node, uint32_t value) { \
        mearrasot_put_word(b, node, 1u, (mask), value); \
    }
MEARRASOT_STYLE_(kind, 3u)
MEARRASOT_STYLE_(box_sizing, MEARRASOT_CONTENT_BOX)
MEARRASOT_STYLE_(direction, MEARRASOT_RTL)
MEARRASOT_STYLE_(position, 3u << 4)
MEARRASOT_STYLE_(overflow_x, MEARRASOT_X_SCROLL)
MEARRASOT_STYLE_(overflow_y, MEARRASOT_Y_SCROLL)
MEARRASOT_STYLE_(align, MEARRASOT_ALIGN_SAFE_END | 7u << 13)
MEARRASOT_STYLE_(contained, MEARRASOT_CONTAINED)

/* ---- Laying out ---- */

/* The page's tables, for the calls and for reading the result. */
static inline struct mearrasot_page mearrasot_page_of(const struct mearrasot_builder *b) {
    struct mearrasot_page p;
    p.nodes = b->nodes;
    p.words = b->words;
    p.numbers = b->numbers;
    p.rows = b->rows;
    p.marks = b->marks;
    p.records = b->records;
    p.pairs = b->pairs;
    p.triples = b->triples;
    return p;
}

/* Has the next call lay out afresh: for rows or marks that somebody else wrote to. */
static inline void mearrasot_forget(struct mearrasot_builder *b) {
    b->laid = b->edited = b->overflowed = 0u;
}

/* What keeps a page from being laid out. */
static inline uint32_t mearrasot_fault_of(const struct mearrasot_builder *b) {
    if (b->fault == MEARRASOT_FAULT_NONE && (b->nodes == 0u || b->depth > 0u)) {
        return MEARRASOT_FAULT_OPEN;
    }
    return b->fault;
}

/* One list with its tables: a relayout where it may be, else a layout. An accepted call empties the list. */
static inline uint64_t mearrasot_lay_by(const struct mearrasot_page *p, struct mearrasot_question q,
                                        const uint32_t *edits, uint32_t *laid, uint32_t *relaid, uint32_t *edited,
                                        uint32_t *overflowed) {
    uint64_t answer;
    *relaid = *laid && !*overflowed;
    answer = *relaid ? mearrasot_relayout_page(p, edits, *edited, q) : mearrasot_layout_page(p, q);
    if (mearrasot_number(answer) == MEARRASOT_NOT_LAID) { /* the marks were lost */
        *relaid = 0u;
        answer = mearrasot_layout_page(p, q);
    }
    if (mearrasot_number(answer) == MEARRASOT_DONE) {
        *laid = 1u;
        *edited = *overflowed = 0u;
    } else if (mearrasot_number(answer) == MEARRASOT_TOO_LARGE) { /* rows and marks are 0 */
        *laid = *edited = *overflowed = 0u;
    }
    return answer;
}

/*
 * Lays the page out: again from what was kept if the last accepted call left it
 * and at most 64 nodes were edited since, else afresh. The result is the same.
 */
static inline uint64_t mearrasot_lay(struct mearrasot_builder *b, struct mearrasot_question q) {
    const struct mearrasot_page p = mearrasot_page_of(b);
    const uint32_t fault = mearrasot_fault_of(b);
    if (fault != MEARRASOT_FAULT_NONE) {
        return (uint64_t)MEARRASOT_UNBUILT << 32 | fault;
    }
    return mearrasot_lay_by(&p, q, b->edits, &b->laid, &b->relaid, &b->edited, &b->overflowed);
}

/*
 * The page on the coarse panel, once it is laid out: four entries of pixels for
 * each node. mearrasot_pixels_of reads a node, mearrasot_drawn_coarse goes from
 * box to box.
 */
static inline uint64_t mearrasot_show_coarse(const struct mearrasot_builder *b, int32_t *pixels) {
    const struct mearrasot_page p = mearrasot_page_of(b);
    return mearrasot_coarse_page(&p, pixels);
}

/* Whether the rows of the page keep their order, as mearrasot_keeps_order says. */
static inline uint64_t mearrasot_keeps(const struct mearrasot_builder *b) {
    const struct mearrasot_page p = mearrasot_page_of(b);
    return mearrasot_keeps_order_page(&p);
}

/* An answer in words; its place says where. */
static inline const char *mearrasot_text(uint64_t answer) {
    static const char *const texts[] = {
        "done", "tables of a wrong length", "not a tree", "unknown code or forbidden unit",
        "number out of range", "too few records lent", "bad edit list", "nothing kept",
        "result too large", "bad list of leaves", "y is not finite", "not of the whole-pixel profile",
        "edge too far for whole pixels"
    };
    static const char *const faults[] = {
        "no fault", "no room for another node", "too many levels", "root no block, or a second root",
        "child of a leaf", "close without an open", "node still open, or none", "no such node",
        "value of another group"
    };
    const uint32_t number = mearrasot_number(answer), place = mearrasot_place(answer);
    if (number == MEARRASOT_UNBUILT) {
        return place < sizeof faults / sizeof faults[0] ? faults[place] : "unknown fault";
    }
    return number < sizeof texts / sizeof texts[0] ? texts[number] : "unknown answer";
}

#ifdef __cplusplus
}
#endif

#endif
