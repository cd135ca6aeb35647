/*
 * calls SHAPE NODES WIDTH CALLS: makes the page; CALLS of 1 lays it out, 2 then
 * edits a leaf and lays it out again, 3 asks for that with an edit list that is
 * refused once all else was tested.
 */
#include "bare.h"
#include "pages.h"

int run(char **argv) {
    size_t n = number(argv[2]), calls = number(argv[4]);
    struct mearrasot_page p = page_of(n);
    struct mearrasot_question q = question(same(argv[3], "known"));
    uint32_t edit;
    uint64_t answer = 0;
    fill(argv[1], n);
    edit = (uint32_t)middle_leaf(n);
    if (calls >= 1) {
        answer = mearrasot_layout_page(&p, q);
    }
    numbers[MEARRASOT_NUMBER(n, edit, MEARRASOT_F_LEAF_HEIGHT)] += 5;
    if (calls == 3) {
        edit = (uint32_t)n;
    }
    if (calls >= 2) {
        answer = mearrasot_relayout_page(&p, &edit, 1, q);
    }
    return mearrasot_number(answer) != (calls == 3 ? MEARRASOT_EDITS : MEARRASOT_DONE);
}
