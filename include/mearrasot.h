/*
 * Mearrasot places boxes on a page. The caller lends tables of plain numbers
 * and memory for the result; nothing else is read or written, and nothing is
 * kept between calls. docs/EMBEDDING.md says what a caller owes. This file has
 * the tables, the question, the answers and the calls; mearrasot_tables.h, which
 * it includes, has helpers over the tables, and mearrasot_page.h a builder that
 * cannot get sizes, units and the list of edits wrong.
 *
 * '01' is the document the product is built from.
 */
#ifndef MEARRASOT_H
#define MEARRASOT_H

#include <stddef.h>
#include <stdint.h>

#ifdef __cplusplus
extern "C" {
#endif

/*
 * The version of these declarations. The first number rises if a program that
 * kept to them must change, the second if something is new, the third else. It
 * is not in the archive: take header and archive from the same commit.
 */
#define MEARRASOT_VERSION_MAJOR 3
#define MEARRASOT_VERSION_MINOR 3
#define MEARRASOT_VERSION_PATCH 0

/* ---- Limits ---- */

#define MEARRASOT_MAX_NODES 1024
#define MEARRASOT_MAX_DEPTH 32 /* the root is level 1 */
#define MEARRASOT_MAX_EDITS 64
#define MEARRASOT_MAX_LIST 256 /* leaves of an index */

/* ---- The tables: how many entries for each node or record ---- */

#define MEARRASOT_WORDS 4    /* uint32_t for each node */
#define MEARRASOT_NUMBERS 28 /* float for each node */
#define MEARRASOT_ROW 16     /* float for each node */
#define MEARRASOT_MARKS 2    /* uint32_t for each node */
#define MEARRASOT_PAIR 2     /* uint32_t for each record */
#define MEARRASOT_TRIPLE 3   /* float for each record */
#define MEARRASOT_PIXEL_BOX 4 /* int32_t for each node, of mearrasot_coarse alone */

/*
 * Nodes stand in preorder: a node, then all that is below its first child,
 * then all that is below the next. Node 0 is the root. A subtree is a run.
 *
 * words, 4 for each node:
 *   0  how many nodes the subtree has, the node itself included
 *   1  style: the sum of one value from each group below
 *   2  units of fields 0 to 13, two bits each, field f at bit 2f
 *   3  units of fields 14 to 21, field f at bit 2(f - 14)
 * All other bits are zero.
 */

/* Kind, bits 0-1. The root is a block. A leaf has no children. */
#define MEARRASOT_BLOCK 0u
#define MEARRASOT_LEAF 1u
#define MEARRASOT_HIDDEN 2u
/* Sizes are those of the content, without padding and border; else of all. */
#define MEARRASOT_CONTENT_BOX (1u << 2)
/* From right to left. */
#define MEARRASOT_RTL (1u << 3)
/* Position, bits 4-5. Plain and relative nodes are in the flow. */
#define MEARRASOT_PLAIN (0u << 4)
#define MEARRASOT_RELATIVE (1u << 4)
#define MEARRASOT_OUT_OF_FLOW (2u << 4)
/* Overflow across, bits 6-7, and down, bits 8-9. */
#define MEARRASOT_X_VISIBLE (0u << 6)
#define MEARRASOT_X_CLIP (1u << 6)
#define MEARRASOT_X_HIDDEN (2u << 6)
#define MEARRASOT_X_SCROLL (3u << 6)
#define MEARRASOT_Y_VISIBLE (0u << 8)
#define MEARRASOT_Y_CLIP (1u << 8)
#define MEARRASOT_Y_HIDDEN (2u << 8)
#define MEARRASOT_Y_SCROLL (3u << 8)
/*
 * Where the content stands in a taller box: one of these. Bits 10-11 or 13-15, and 17. The content is one stack, so
 * space-between and stretch act as start, space-around and space-evenly as safe center. Plain center and end are
 * unsafe: content that is taller than its box rises above it. Safe, it does not.
 */
#define MEARRASOT_ALIGN_NORMAL (0u << 10)
#define MEARRASOT_ALIGN_START (1u << 10)
#define MEARRASOT_ALIGN_CENTER (2u << 10)
#define MEARRASOT_ALIGN_END (3u << 10)
#define MEARRASOT_ALIGN_SPACE_BETWEEN (1u << 13)
#define MEARRASOT_ALIGN_SPACE_AROUND (2u << 13)
#define MEARRASOT_ALIGN_SPACE_EVENLY (3u << 13)
#define MEARRASOT_ALIGN_STRETCH (4u << 13)
#define MEARRASOT_ALIGN_SAFE_CENTER (1u << 17 | MEARRASOT_ALIGN_CENTER)
#define MEARRASOT_ALIGN_SAFE_END (1u << 17 | MEARRASOT_ALIGN_END)
/* No margin collapses through this box, and its baseline is not seen outside. */
#define MEARRASOT_CONTAINED (1u << 12)
/* A leaf that has a first baseline, its field 27; on no other node. */
#define MEARRASOT_LINED (1u << 16)

/*
 * Units of a field. 0.5 is half: of a width, or in the two heights' fields and
 * the top and bottom inset of a height. A fraction of a height counts where the
 * container's height is definite, else it is auto; no ratio may stand beside it.
 */
#define MEARRASOT_AUTO 0u     /* not for padding and border */
#define MEARRASOT_PIXELS 1u
#define MEARRASOT_FRACTION 2u

/*
 * numbers, 28 for each node, field by field: all widths, then all heights, and
 * so on, 28 planes of as many numbers as there are nodes. Words, rows and marks
 * stand node by node. (Up to version 1 the numbers did too;
 * up to version 2 there were 27 of them.)
 *
 * numbers[MEARRASOT_NUMBER(nodes, node, field)] is a field of a node, of a page
 * of so many nodes. The order of the numbers is known here and nowhere else.
 */
#define MEARRASOT_NUMBER(nodes, node, field) ((size_t)(nodes) * (size_t)(field) + (size_t)(node))

/*
 * Fields 0 to 21 have a unit; the number of a field that is auto is not used,
 * but has to be in range. Pixels are at most 65,536, fractions at most 1; only
 * margins and insets may be negative.
 */
enum mearrasot_field {
    MEARRASOT_F_WIDTH = 0,
    MEARRASOT_F_HEIGHT = 1,
    MEARRASOT_F_MIN_WIDTH = 2,
    MEARRASOT_F_MIN_HEIGHT = 3,
    MEARRASOT_F_MAX_WIDTH = 4,
    MEARRASOT_F_MAX_HEIGHT = 5,
    MEARRASOT_F_MARGIN = 6,   /* top; then right, bottom, left */
    MEARRASOT_F_PADDING = 10, /* likewise */
    MEARRASOT_F_BORDER = 14,  /* likewise */
    MEARRASOT_F_INSET = 18,   /* likewise; moves a relative node */
    MEARRASOT_F_RATIO = 22,   /* width / height, 1/64 to 64; 0 for none */
    MEARRASOT_F_SCROLLBAR = 23,
    MEARRASOT_F_LEAF_MIN = 24,    /* a leaf's narrowest width */
    MEARRASOT_F_LEAF_MAX = 25,    /* its widest, not below the narrowest */
    MEARRASOT_F_LEAF_HEIGHT = 26,
    MEARRASOT_F_LEAF_BASELINE = 27 /* from its top, 0 to its height, at every node */
};

/* Sides, to be added to MARGIN, PADDING, BORDER and INSET. */
#define MEARRASOT_TOP 0
#define MEARRASOT_RIGHT 1
#define MEARRASOT_BOTTOM 2
#define MEARRASOT_LEFT 3

/*
 * rows, 16 for each node, written by layout and relayout.
 * Of a laid node: its place in its parent's box, its size, two margin sets, and
 * the question it was asked. What is absent is 0. A set that leaves the box holds
 * the margins of its children without its own; one that does not holds its own
 * margin alone.
 * Of a shown node out of the flow: start, line and end in 0, 1 and 2.
 * 11 to 14 are for the next relayout alone. 15 is the first baseline, from the
 * node's top, if MEARRASOT_BASELINE says so.
 */
enum mearrasot_row {
    MEARRASOT_R_X = 0,
    MEARRASOT_R_Y = 1,
    MEARRASOT_R_WIDTH = 2,
    MEARRASOT_R_HEIGHT = 3,
    MEARRASOT_R_TOP_SET = 4,    /* 4 and 5: largest positive, smallest negative */
    MEARRASOT_R_BOTTOM_SET = 6, /* 6 and 7 */
    MEARRASOT_R_KNOWN_WIDTH = 8,
    MEARRASOT_R_KNOWN_HEIGHT = 9,
    MEARRASOT_R_PARENT_WIDTH = 10,
    MEARRASOT_R_PROBE = 11,
    MEARRASOT_R_HEIGHT_BASIS = 14, /* what a fraction of its height is a part of */
    MEARRASOT_R_BASELINE = 15,
    MEARRASOT_R_START = 0,
    MEARRASOT_R_LINE = 1,
    MEARRASOT_R_END = 2
};

/*
 * marks, 2 for each node: its order, and bits. The order of a node counts the
 * shown siblings before it; that of a hidden one counts all siblings before it.
 */
#define MEARRASOT_M_ORDER 0
#define MEARRASOT_M_BITS 1
#define MEARRASOT_LAID (1u << 0)
#define MEARRASOT_THROUGH (1u << 1) /* margins collapse through it */
#define MEARRASOT_OUT (1u << 2)     /* out of the flow, and shown */
#define MEARRASOT_HEIGHT_ASKED (1u << 3)
#define MEARRASOT_PROBED (1u << 4)
#define MEARRASOT_PROBE_KIND(bits) (((bits) >> 5) & 3u) /* 1 definite, 2 min-content, 3 max-content */
#define MEARRASOT_PROBE_HEIGHT (1u << 7)
#define MEARRASOT_BASIS_GIVEN (1u << 8)
#define MEARRASOT_BASELINE (1u << 9) /* there is a first baseline at or below it */

/*
 * The candidate list: a record for each shown node out of the flow that is not
 * below a hidden one or another such node, in preorder. It says where the node
 * would stand, measured from the root's corner.
 *   pairs, 2 for each record: the node's number, and its order
 *   triples, 3 for each record: start, end, line (in its row: start, line, end)
 * Start and end are the left and right inner edge of its parent, line the y.
 */
#define MEARRASOT_P_NODE 0
#define MEARRASOT_P_ORDER 1
#define MEARRASOT_T_START 0
#define MEARRASOT_T_END 1
#define MEARRASOT_T_LINE 2

/* ---- The question ---- */

/*
 * how, a sum of bits. Bits 2-3 are the kind of available width; 0 there means
 * max-content. Bits from 9 on are ignored.
 */
#define MEARRASOT_KNOWN_WIDTH (1u << 0)  /* known_width counts, else it is not read */
#define MEARRASOT_KNOWN_HEIGHT (1u << 1) /* known_height counts */
#define MEARRASOT_DEFINITE (1u << 2)     /* available counts */
#define MEARRASOT_MIN_CONTENT (2u << 2)  /* as narrow as can be */
#define MEARRASOT_MAX_CONTENT (3u << 2)  /* as wide as the content likes */
#define MEARRASOT_START (1u << 4)        /* the root's top margin may collapse */
#define MEARRASOT_END (1u << 5)          /* so may its bottom margin */
#define MEARRASOT_WIDTH_ONLY (1u << 6)   /* mearrasot_size alone */
#define MEARRASOT_DEFINITE_HEIGHT (1u << 7) /* fractions of heights may take known_height for a basis */
#define MEARRASOT_PROFILE (1u << 8)      /* asked as profile: a page that is not of it is refused with 11 */

/* ---- The answer ---- */

/*
 * An answer has a number (upper 32 bits) and a place (lower 32 bits). Refusals
 * are tested in this order, but 11 after 4; each is given exactly if it is due.
 */
enum mearrasot_answer {
    MEARRASOT_DONE = 0,       /* accepted; place: the count of candidates, 0 for a size, an index, a scroll key, whole pixels */
    MEARRASOT_LENGTHS = 1,    /* no node, over 1,024, or tables not of n nodes; place 0 */
    MEARRASOT_TREE = 2,       /* a subtree's size is wrong, a leaf has children, over 32 levels; place: the lowest such node */
    MEARRASOT_CODES = 3,      /* unknown code, unused bit, forbidden unit, root not a block, ratio beside a fraction of a height, MEARRASOT_LINED on no leaf; the lowest node */
    MEARRASOT_BAD_NUMBER = 4, /* NaN, infinite or out of range; the lowest node, n for the question */
    MEARRASOT_ROOM = 5,       /* too few records lent; place 0. Not by mearrasot_size */
    MEARRASOT_EDITS = 6,      /* an edit that is no node, or over 64; its index, or 64. mearrasot_relayout alone */
    MEARRASOT_NOT_LAID = 7,   /* the root's row was not laid; place 0. mearrasot_relayout, mearrasot_index and mearrasot_coarse */
    MEARRASOT_TOO_LARGE = 8,  /* a result of 16,777,216 or more; the lowest node, 0 for a size */
    MEARRASOT_BAD_LIST = 9,   /* over 256 leaves, not ascending, no node, no leaf, not laid; its index, or 256. mearrasot_index alone */
    MEARRASOT_NOT_FINITE = 10, /* y is NaN or infinite; place 0. mearrasot_scroll alone */
    MEARRASOT_OUTSIDE = 11,   /* asked with MEARRASOT_PROFILE, and not of the profile; the lowest node, n for the question */
    MEARRASOT_TOO_FAR = 12    /* an edge on the page of 16,777,216 or more; the lowest laid node. mearrasot_coarse alone */
};

static inline uint32_t mearrasot_number(uint64_t answer) {
    return (uint32_t)(answer >> 32);
}

static inline uint32_t mearrasot_place(uint64_t answer) {
    return (uint32_t)(answer & 0xffffffffu);
}

/* ---- The calls ---- */

/*
 * Every slice is a pointer and its count of entries, not of bytes; a count has
 * 64 bits on every machine, so that one declaration fits them all. Memory that
 * a call writes overlaps nothing else that it is lent.
 *
 * A pointer is never null, also where the count is 0: the proofs are about
 * references, and the compiler may use that these are not null. The calls of
 * mearrasot_tables.h and mearrasot_page.h take null for a slice of no entries.
 *
 * Of a layout and a relayout, 1 to 7 and 11 leave all lent memory as it was; 8 leaves
 * rows and marks zero, and the candidates as they were. Accepted, every row and
 * mark is written; pairs and triples are written up to the count and not past it.
 */

/* A layout from scratch. What rows and marks held before does not matter. */
uint64_t mearrasot_layout(const uint32_t *words, uint64_t words_len,
                          const float *numbers, uint64_t numbers_len,
                          float *rows, uint64_t rows_len,
                          uint32_t *marks, uint64_t marks_len,
                          uint32_t *pairs, uint64_t pairs_len,
                          float *triples, uint64_t triples_len,
                          float known_width, float known_height,
                          float parent_width, float available,
                          uint32_t how);

/*
 * A layout that keeps what still holds in rows and marks, which the last
 * accepted call left. edits names each node whose words or numbers changed
 * since then, in any order. The tree has the same shape as before.
 */
uint64_t mearrasot_relayout(const uint32_t *words, uint64_t words_len,
                            const float *numbers, uint64_t numbers_len,
                            float *rows, uint64_t rows_len,
                            uint32_t *marks, uint64_t marks_len,
                            uint32_t *pairs, uint64_t pairs_len,
                            float *triples, uint64_t triples_len,
                            const uint32_t *edits, uint64_t edits_len,
                            float known_width, float known_height,
                            float parent_width, float available,
                            uint32_t how);

/*
 * The size of the page alone: width and height go to size[0] and size[1], 0 and
 * 0 if refused. It is the size that a layout of the same question gives the
 * root. With MEARRASOT_WIDTH_ONLY the height is 0 unless it is known.
 */
uint64_t mearrasot_size(const uint32_t *words, uint64_t words_len,
                        const float *numbers, uint64_t numbers_len,
                        float size[2],
                        float known_width, float known_height,
                        float parent_width, float available,
                        uint32_t how);

/*
 * The vertical index: of each leaf in list, its top and bottom edge measured
 * from the page's corner, and the largest bottom up to it. list has at most 256
 * laid leaves, by node number, ascending; tops, bottoms and running have an
 * entry for each. It is made again after each layout or relayout. A refusal (1,
 * 2, 3, 7, 9) leaves the three as they were.
 */
uint64_t mearrasot_index(const uint32_t *words, uint64_t words_len,
                         const float *rows, uint64_t rows_len,
                         const uint32_t *marks, uint64_t marks_len,
                         const uint32_t *list, uint64_t list_len,
                         float *tops, uint64_t tops_len,
                         float *bottoms, uint64_t bottoms_len,
                         float *running, uint64_t running_len);

/*
 * The scroll key: the position in list, from 0, of the first leaf whose bottom
 * is greater than y goes to found[0], or MEARRASOT_NONE if there is none. running
 * is as mearrasot_index left it. Refused with 10, found stays as it was.
 */
#define MEARRASOT_NONE UINT64_MAX
uint64_t mearrasot_scroll(const float *running, uint64_t running_len, float y,
                          uint64_t found[1]);

/*
 * A panel with no blending: each laid node as a box of whole pixels, near x,
 * near y, width and height in pixels[4 * node] and on; 0 for other nodes. An
 * edge on the page goes to the nearest whole pixel, halves up; a size is the
 * difference of two such edges. So boxes whose edges are the same number on the
 * page share an edge here, and a size may be a pixel more or less than its own
 * nearest. A refusal (1, 2, 3, 7, 12) leaves pixels as it was.
 */
enum mearrasot_pixel_box {
    MEARRASOT_B_X = 0,
    MEARRASOT_B_Y = 1,
    MEARRASOT_B_WIDTH = 2,
    MEARRASOT_B_HEIGHT = 3
};
uint64_t mearrasot_coarse(const uint32_t *words, uint64_t words_len,
                          const float *rows, uint64_t rows_len,
                          const uint32_t *marks, uint64_t marks_len,
                          int32_t *pixels, uint64_t pixels_len);

/*
 * Whether the rows of a page keep their order: 1 for yes, 0 for no; no answer
 * with a number and a place. Yes if at every node the top and bottom margins
 * are auto or pixels not below 0, the top and bottom paddings and borders are
 * auto or pixels, the position is not relative, and align is normal, start,
 * space-between or stretch. Then, whenever a layout accepts the page, or a
 * relayout that was told of every change, of two laid children of one node the
 * later one's y is not less than the earlier one's y + height, one sum in float:
 * the order is that of the document, and no box stands on another. It tests
 * nothing else: tables that a layout refuses may get a yes.
 */
uint64_t mearrasot_keeps_order(const uint32_t *words, uint64_t words_len,
                               const float *numbers, uint64_t numbers_len);

/*
 * The whole-pixel profile: 0 if the page and the question are of it, else the
 * answer that says why not: 1 to 4 as mearrasot_size gives them, or 11. Of the
 * profile is a page with, at every node whatever its kind,
 *   pixels, the scrollbar and the leaf's numbers (the baseline too) whole and at
 *     most 1,024 in magnitude; what an auto field holds does not matter;
 *   no fraction and no ratio;
 *   no center, safe or not, no space-around and no space-evenly;
 *   not both side margins auto, but for the root;
 * and a question whose numbers, as far as they count, are so too. Asked with
 * MEARRASOT_PROFILE, the layout, relayout and size of any other page are refused
 * with 11, after 1 to 4 and before 5. The layout of such a page is exact: every
 * number of a row is the whole number that the same steps give on integers, and
 * 8 is not given. how is read as by the calls; bits 6 and 8 do not matter.
 */
uint64_t mearrasot_in_profile(const uint32_t *words, uint64_t words_len,
                              const float *numbers, uint64_t numbers_len,
                              float known_width, float known_height,
                              float parent_width, float available,
                              uint32_t how);

#ifdef __cplusplus
}
#endif

#include "mearrasot_tables.h"

#endif
