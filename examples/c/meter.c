/* A meter's page of 16 nodes, built by name; the notice gets a longer text. */
#include <stdio.h>

#include "mearrasot_page.h"

MEARRASOT_PAGE(page, 16, 1);

static uint32_t row(float height) { /* a block with a leaf in it */
    uint32_t n = mearrasot_open(&page, MEARRASOT_BLOCK);
    mearrasot_margin_top_px(&page, n, 5);
    mearrasot_leaf(&page, 80, 160, height);
    mearrasot_close(&page);
    return n;
}

static void show(uint64_t answer) {
    struct mearrasot_page p = mearrasot_page_of(&page);
    uint32_t n;
    printf("%s, place %u, %s\n", mearrasot_text(answer), (unsigned)mearrasot_place(answer), page.relaid ? "relaid" : "laid out");
    for (n = mearrasot_drawn(&p, 0); n != MEARRASOT_NO_NODE; n = mearrasot_drawn(&p, n + 1)) {
        struct mearrasot_box b = mearrasot_box_of(&p, n);
        printf("  %2u at %5.1f %5.1f, %5.1f x %5.1f\n", (unsigned)n, b.x, b.y, b.width, b.height);
    }
}

int main(void) {
    uint32_t notice;
    mearrasot_padding_px(&page, mearrasot_open(&page, MEARRASOT_BLOCK), 4);
    mearrasot_border_bottom_px(&page, row(12), 1); /* head */
    notice = row(24);
    row(14), row(14), row(14), row(14); /* import, export, peak, date */
    mearrasot_position(&page, mearrasot_leaf(&page, 10, 10, 10), MEARRASOT_OUT_OF_FLOW); /* lamp */
    mearrasot_margin_left_auto(&page, row(10)); /* foot */
    mearrasot_close(&page);
    show(mearrasot_lay(&page, mearrasot_screen(240)));
    mearrasot_measures(&page, notice + 1, 80, 160, 36);
    show(mearrasot_lay(&page, mearrasot_screen(240)));
    return 0;
}
