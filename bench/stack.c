/*
 * How much stack a call takes: it runs on a painted stack of its own, and the
 * paint that is left is counted. The pages are chains of nodes, 32 levels and
 * 16, with a leaf at the end or a node out of the flow; each call is asked with
 * a known width and with none. The leaf is the index's one entry.
 */
#include "bare.h"
#include "pages.h"

enum { STACK = 1 << 18, PAINT = 0xa5 };

static unsigned char stack[STACK] __attribute__((aligned(16)));
static struct mearrasot_page page;
static struct mearrasot_question asked;
static uint32_t edits[1];
static float size[2], edge[3];
static uint64_t found[1];
static int32_t pixels[MEARRASOT_PIXEL_BOX * MEARRASOT_MAX_DEPTH];
static uint64_t answer;

static void lay(void) {
    answer = mearrasot_layout_page(&page, asked);
}

static void relay(void) {
    answer = mearrasot_relayout_page(&page, edits, 1, asked);
}

static void measure(void) {
    answer = mearrasot_size_page(&page, size, asked);
}

static void index_of_one(void) {
    const struct mearrasot_leaves l = {1, edits, edge, edge + 1, edge + 2};
    answer = mearrasot_index_page(&page, &l);
}

static void scroll(void) {
    answer = mearrasot_scroll(edge, 3, 0, found);
}

static void coarse(void) {
    answer = mearrasot_coarse_page(&page, pixels);
}

static void on_stack(void (*call)(void)) {
    unsigned char *top = stack + STACK;
    __asm__ volatile("mov %%rsp, %%rbx\n\tmov %1, %%rsp\n\tcall *%0\n\tmov %%rbx, %%rsp"
                     :
                     : "r"(call), "r"(top)
                     : "rbx", "rax", "rcx", "rdx", "rsi", "rdi", "r8", "r9", "r10", "r11", "memory", "cc",
                       "xmm0", "xmm1", "xmm2", "xmm3", "xmm4", "xmm5", "xmm6", "xmm7", "xmm8", "xmm9",
                       "xmm10", "xmm11", "xmm12", "xmm13", "xmm14", "xmm15");
}

static size_t used_by(void (*call)(void)) {
    size_t left = 0;
    memset(stack, PAINT, STACK);
    on_stack(call);
    while (left < STACK && stack[left] == PAINT) {
        left++;
    }
    return STACK - left;
}

static void show(const char *what, int known, void (*call)(void)) {
    size_t used = used_by(call);
    print(what);
    print(known ? ", known width: " : ", no width known: ");
    print_number(used);
    print(answer >> 32 ? " bytes, REFUSED\n" : " bytes\n");
}

static void show_all(size_t depth, uint32_t style, const char *last) {
    int known;
    page = page_of(depth);
    edits[0] = (uint32_t)depth - 1;
    page_nodes = depth;
    chain(0, depth);
    words[MEARRASOT_WORDS * (depth - 1) + 1] |= style;
    print_number(depth);
    print(last);
    for (known = 1; known >= 0; known--) {
        asked = question(known);
        show("  layout", known, lay);
        show("  relayout", known, relay);
        show("  size", known, measure);
        show("  coarse", known, coarse);
        if (style == 0) {
            show("  index", known, index_of_one);
            show("  scroll", known, scroll);
        }
    }
}

int run(char **argv) {
    (void)argv;
    show_all(MEARRASOT_MAX_DEPTH, 0, " levels, a leaf last:\n");
    show_all(MEARRASOT_MAX_DEPTH, MEARRASOT_OUT_OF_FLOW, " levels, a node out of the flow last:\n");
    show_all(MEARRASOT_MAX_DEPTH / 2, 0, " levels, a leaf last:\n");
    return 0;
}
