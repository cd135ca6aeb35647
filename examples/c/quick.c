#include <stdio.h>
#include "mearrasot_page.h"

MEARRASOT_PAGE(page, 4, 0); /* room for 4 nodes, no candidates */

int main(void) {
    mearrasot_padding_px(&page, mearrasot_open(&page, MEARRASOT_BLOCK), 4);
    uint32_t notice = mearrasot_leaf(&page, 60, 200, 24); /* narrowest, widest, height */
    uint32_t line = mearrasot_leaf(&page, 80, 160, 14);
    mearrasot_margin_top_px(&page, line, 5);
    mearrasot_close(&page);
    uint64_t answer = mearrasot_lay(&page, mearrasot_screen(240));
    printf("%s\n", mearrasot_text(answer));
    mearrasot_measures(&page, notice, 60, 200, 36); /* a longer text */
    answer = mearrasot_lay(&page, mearrasot_screen(240)); /* from what was kept */
    struct mearrasot_page p = mearrasot_page_of(&page);
    struct mearrasot_box b = mearrasot_box_of(&p, line);
    printf("%s: the line is at %g, %g, %g by %g\n", mearrasot_text(answer), b.x, b.y, b.width, b.height);
    return 0;
}
