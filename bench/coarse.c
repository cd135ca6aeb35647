/* coarse SHAPE NODES CALLS: lays the page out; CALLS of 1 then puts it on the coarse panel. */
#include "bare.h"
#include "pages.h"

static int32_t pixels[MEARRASOT_PIXEL_BOX * MEARRASOT_MAX_NODES];

int run(char **argv) {
    size_t n = number(argv[2]), calls = number(argv[3]);
    struct mearrasot_page p = page_of(n);
    uint64_t answer;
    fill(argv[1], n);
    answer = mearrasot_layout_page(&p, question(1));
    if (calls >= 1) {
        answer = mearrasot_coarse_page(&p, pixels);
    }
    return mearrasot_number(answer) != MEARRASOT_DONE;
}
