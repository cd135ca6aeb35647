/*
 * index SHAPE NODES ENTRIES CALLS: lays the page out; CALLS of 1 then makes an
 * index of ENTRIES of its leaves, spread over the page, 2 then asks the scroll
 * key for a line past the last of them, the longest way for a full index.
 */
#include "bare.h"
#include "pages.h"

static uint32_t list[MEARRASOT_MAX_LIST];
static float tops[MEARRASOT_MAX_LIST], bottoms[MEARRASOT_MAX_LIST], running[MEARRASOT_MAX_LIST];

static int is_leaf(size_t i) {
    return (words[MEARRASOT_WORDS * i + 1] & 3u) == MEARRASOT_LEAF;
}

/* Every so many leaves one, the last of each group. */
static size_t pick(size_t n, size_t entries) {
    size_t i, leaves = 0, seen = 0, k = 0;
    for (i = 0; i < n; i++) {
        leaves += is_leaf(i);
    }
    for (i = 0; i < n && k < entries; i++) {
        if (is_leaf(i)) {
            seen++;
            if (seen * entries >= (k + 1) * leaves) {
                list[k++] = (uint32_t)i;
            }
        }
    }
    return k;
}

int run(char **argv) {
    size_t n = number(argv[2]), entries = number(argv[3]), calls = number(argv[4]);
    struct mearrasot_page p = page_of(n);
    struct mearrasot_leaves l = {0, list, tops, bottoms, running};
    uint64_t answer, found[1];
    fill(argv[1], n);
    l.count = pick(n, entries);
    answer = mearrasot_layout_page(&p, question(1));
    if (calls >= 1) {
        answer = mearrasot_index_page(&p, &l);
    }
    if (calls >= 2) {
        answer = mearrasot_scroll(running, l.count, 1e9f, found);
    }
    return mearrasot_number(answer) != MEARRASOT_DONE || l.count != entries;
}
