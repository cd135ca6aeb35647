/*
 * Further panels over the nodes of one page: each has its own question, rows,
 * marks, records and list of edits. A setter of the page notes the node for the
 * page and for every panel; an accepted call of a panel empties its own list
 * alone. C99 and C++; nothing here is proved, and tests/panels.c runs all of it.
 *
 *     MEARRASOT_PAGE(kitchen, 16, 0);
 *     MEARRASOT_PANEL(hall, 16, 0);
 *     mearrasot_add_panel(&kitchen, &hall);
 *     ... build and edit the page as ever ...
 *     answer = mearrasot_lay(&kitchen, mearrasot_screen(240));
 *     answer = mearrasot_lay_panel(&hall, mearrasot_screen(400));
 */
#ifndef MEARRASOT_PANELS_H
#define MEARRASOT_PANELS_H

#include "mearrasot_page.h"

#ifdef __cplusplus
extern "C" {
#endif

/* A panel with room for that many nodes and candidate records, with its memory. */
#define MEARRASOT_PANEL(name, nodes_, records_) \
    static uint32_t name##_marks[MEARRASOT_MARKS * (nodes_)]; \
    static float name##_rows[MEARRASOT_ROW * (nodes_)]; \
    static uint32_t name##_pairs[MEARRASOT_PAIR * (records_) + 1]; \
    static float name##_triples[MEARRASOT_TRIPLE * (records_) + 1]; \
    static struct mearrasot_panel name = {name##_rows, name##_marks, name##_pairs, name##_triples, \
        (nodes_), (records_), 0, 0, 0, 0, {0}, NULL, NULL}

/* Has the next call of a panel lay out afresh. */
static inline void mearrasot_forget_panel(struct mearrasot_panel *p) {
    p->laid = p->edited = p->overflowed = 0u;
}

/* From now on the panel shows that page. A panel is of one page; to be added twice changes nothing. */
static inline void mearrasot_add_panel(struct mearrasot_builder *b, struct mearrasot_panel *p) {
    if (p->page == NULL) {
        mearrasot_forget_panel(p);
        p->page = b;
        p->next = b->panels;
        b->panels = p;
    }
}

/* The tables as the panel has them: the page's nodes, its own rows, marks and records. */
static inline struct mearrasot_page mearrasot_page_of_panel(const struct mearrasot_panel *p) {
    struct mearrasot_page t = {0, NULL, NULL, NULL, NULL, 0, NULL, NULL};
    if (p->page != NULL) {
        t = mearrasot_page_of(p->page);
    }
    t.rows = p->rows;
    t.marks = p->marks;
    t.records = p->records;
    t.pairs = p->pairs;
    t.triples = p->triples;
    return t;
}

/* As mearrasot_lay, for this panel. A page that it has no room for is fault 1, no page is fault 6. */
static inline uint64_t mearrasot_lay_panel(struct mearrasot_panel *p, struct mearrasot_question q) {
    const struct mearrasot_page t = mearrasot_page_of_panel(p);
    uint32_t fault = p->page != NULL ? mearrasot_fault_of(p->page) : (uint32_t)MEARRASOT_FAULT_OPEN;
    if (fault == MEARRASOT_FAULT_NONE && t.nodes > p->room) {
        fault = MEARRASOT_FAULT_FULL;
    }
    if (fault != MEARRASOT_FAULT_NONE) {
        return (uint64_t)MEARRASOT_UNBUILT << 32 | fault;
    }
    return mearrasot_lay_by(&t, q, p->edits, &p->laid, &p->relaid, &p->edited, &p->overflowed);
}

#ifdef __cplusplus
}
#endif

#endif
