/*
 * One page on two panels: the first blends, so that an edge may stand between
 * two pixels; the second has whole pixels alone. Its edges are rounded and its
 * sizes are differences, so five rows of 6.4 pixels fill 32 pixels there too, and
 * leave no gap. With -svg it draws docs/coarse.svg.
 */
#include <stdio.h>
#include <string.h>

#include "mearrasot_page.h"

enum { ROWS = 5, NODES = 4 + ROWS };

MEARRASOT_PAGE(page, NODES, 0);
static int32_t pixels[MEARRASOT_PIXEL_BOX * NODES];

/* A head, five rows in a frame, and a foot half as wide as the page, at its right edge. */
static void build(void) {
    uint32_t n, k;
    mearrasot_padding_px(&page, mearrasot_open(&page, MEARRASOT_BLOCK), 1.5f);
    n = mearrasot_leaf(&page, 20, 60, 8.25f);
    mearrasot_margin_bottom_px(&page, n, 2);
    n = mearrasot_open(&page, MEARRASOT_BLOCK);
    mearrasot_border_px(&page, n, 0.5f);
    for (k = 0; k < ROWS; k++) {
        mearrasot_leaf(&page, 20, 60, 6.4f);
    }
    mearrasot_close(&page);
    n = mearrasot_leaf(&page, 10, 60, 5);
    mearrasot_margin_top_px(&page, n, 2);
    mearrasot_margin_left_auto(&page, n);
    mearrasot_width_part(&page, n, 0.5f);
    mearrasot_close(&page);
}

static void print_boxes(const struct mearrasot_page *p) {
    uint32_t n;
    for (n = mearrasot_drawn_coarse(p, pixels, 0); n != MEARRASOT_NO_NODE; n = mearrasot_drawn_coarse(p, pixels, n + 1)) {
        const struct mearrasot_box b = mearrasot_box_of(p, n);
        const struct mearrasot_pixels c = mearrasot_pixels_of(p, pixels, n);
        printf("box %u: %.2f to %.2f, %.2f to %.2f; in pixels %d to %d, %d to %d\n", (unsigned)n, b.x, b.x + b.width,
               b.y, b.y + b.height, (int)c.x, (int)(c.x + c.width), (int)c.y, (int)(c.y + c.height));
    }
}

/* ---- The picture: both panels, ten units a pixel ---- */

enum { UNIT = 10, GAP = 60, TOP = 40 };

static const char *colour(uint32_t n) {
    static const char *const colours[] = {"#f4f1ea", "#2f5d8a", "#c8c2b4", "#7fa8c9", "#a9c4da"};
    return n < 3 ? colours[n] : n == NODES - 1 ? "#8a5a2f" : colours[3 + n % 2];
}

static void draw_box(double x, double y, double width, double height, uint32_t n) {
    printf("<rect x=\"%g\" y=\"%g\" width=\"%g\" height=\"%g\" fill=\"%s\"/>\n", x, y, width, height, colour(n));
}

static void draw_grid(int left, int width, int height) {
    int k;
    printf("<g stroke=\"#000\" stroke-opacity=\"0.18\" stroke-width=\"0.6\">\n");
    for (k = 0; k <= width; k++) {
        printf("<path d=\"M%d %dv%d\"/>\n", left + UNIT * k, TOP, UNIT * height);
    }
    for (k = 0; k <= height; k++) {
        printf("<path d=\"M%d %dh%d\"/>\n", left, TOP + UNIT * k, UNIT * width);
    }
    printf("</g>\n");
}

static void draw(const struct mearrasot_page *p) {
    const int width = (int)pixels[MEARRASOT_B_WIDTH], height = (int)pixels[MEARRASOT_B_HEIGHT] + 1;
    const int left = 20, right = left + UNIT * width + GAP;
    uint32_t n;
    printf("<svg xmlns=\"http://www.w3.org/2000/svg\" viewBox=\"0 0 %d %d\" font-family=\"sans-serif\" font-size=\"16\">\n",
           right + UNIT * width + 20, TOP + UNIT * height + 20);
    printf("<rect width=\"100%%\" height=\"100%%\" fill=\"#fff\"/>\n");
    printf("<text x=\"%d\" y=\"26\">the page as laid out</text>\n", left);
    printf("<text x=\"%d\" y=\"26\">on the coarse panel</text>\n", right);
    for (n = mearrasot_drawn_coarse(p, pixels, 0); n != MEARRASOT_NO_NODE; n = mearrasot_drawn_coarse(p, pixels, n + 1)) {
        const struct mearrasot_box b = mearrasot_box_of(p, n);
        const struct mearrasot_pixels c = mearrasot_pixels_of(p, pixels, n);
        draw_box(left + UNIT * (double)b.x, TOP + UNIT * (double)b.y, UNIT * (double)b.width, UNIT * (double)b.height, n);
        draw_box(right + UNIT * c.x, TOP + UNIT * c.y, UNIT * c.width, UNIT * c.height, n);
    }
    draw_grid(left, width, height);
    draw_grid(right, width, height);
    printf("</svg>\n");
}

int main(int argc, char **argv) {
    struct mearrasot_page p;
    uint64_t answer;
    build();
    answer = mearrasot_lay(&page, mearrasot_screen(40));
    p = mearrasot_page_of(&page);
    if (argc > 1 && strcmp(argv[1], "-svg") == 0) {
        mearrasot_show_coarse(&page, pixels);
        draw(&p);
        return 0;
    }
    printf("layout: %s\n", mearrasot_text(answer));
    answer = mearrasot_show_coarse(&page, pixels);
    printf("whole pixels: %s\n", mearrasot_text(answer));
    print_boxes(&p);

    page_rows[MEARRASOT_ROW * 4 + MEARRASOT_R_Y] = 16777216; /* a row that no call left */
    answer = mearrasot_show_coarse(&page, pixels);
    printf("row 1 at 16777216: %s, node %u\n", mearrasot_text(answer), (unsigned)mearrasot_place(answer));
    return 0;
}
