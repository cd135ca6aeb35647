/*
 * What calls cost on a microcontroller: instructions by the processor's timer,
 * which the emulator moves by 16 ns an instruction while a tick is 40 ns, and
 * stack by paint. Prints the two tables of docs/PERFORMANCE.md and EMBEDDING.md.
 */
#include <stdio.h>
#include <string.h>

static int same(const char *a, const char *b) {
    return strcmp(a, b) == 0;
}

#include "../bench/pages.h"

enum { PAINTED = 80000, PAINT = 0x5a };

static volatile uint32_t *const timer = (volatile uint32_t *)0xe000e010u;
static struct mearrasot_page page;
static struct mearrasot_question asked;
static uint32_t edit;
static float size[2], edge[3];
static uint64_t found[1], answer;
static int32_t pixels[MEARRASOT_PIXEL_BOX * MEARRASOT_MAX_DEPTH];

static void nothing(void) {
}

static void lay(void) {
    answer = mearrasot_layout_page(&page, asked);
}

static void relay(void) {
    answer = mearrasot_relayout_page(&page, &edit, 1, asked);
}

static void measure(void) {
    answer = mearrasot_size_page(&page, size, asked);
}

static void index_of_one(void) {
    const struct mearrasot_leaves l = {1, &edit, edge, edge + 1, edge + 2};
    answer = mearrasot_index_page(&page, &l);
}

static void scroll(void) {
    answer = mearrasot_scroll(edge, 1, 0, found);
}

static void coarse(void) {
    answer = mearrasot_coarse_page(&page, pixels);
}

/* A thousand times two instructions, to see that the timer counts as said. */
static void two_thousand(void) {
    __asm__ volatile("mov r3, #1000\n1:\n\tsubs r3, r3, #1\n\tbne 1b" ::: "r3", "cc");
}

static uint32_t ticks(void (*call)(void)) {
    uint32_t from, to;
    timer[1] = 0xffffffu;
    timer[2] = 0;
    timer[0] = 5;
    while (timer[2] == 0) { /* until it is loaded */
    }
    from = timer[2];
    call();
    to = timer[2];
    timer[0] = 0;
    return (from - to) & 0xffffffu;
}

/* Instructions of a call, without those of calling. */
static unsigned long count(void (*call)(void)) {
    return ((unsigned long)ticks(call) - ticks(nothing)) * 5 / 2;
}

/* How far below the stack pointer here a call writes. */
__attribute__((noinline)) static unsigned long stack_of(void (*call)(void)) {
    volatile unsigned char *here, *p;
    __asm__ volatile("mov %0, sp" : "=r"(here));
    for (p = here - PAINTED; p < here; p++) {
        *p = PAINT;
    }
    call();
    for (p = here - PAINTED; p < here && *p == PAINT; p++) {
    }
    return (unsigned long)(here - p);
}

static void costs(const char *shape, int known, size_t n) {
    unsigned long laid, relaid;
    fill(shape, n);
    page = page_of(n);
    asked = question(known);
    edit = (uint32_t)middle_leaf(n);
    laid = count(lay);
    numbers[MEARRASOT_NUMBER(n, edit, MEARRASOT_F_LEAF_HEIGHT)] += 5;
    relaid = count(relay);
    printf("| %s | %s | %u | %lu | %lu | %lu | %lu |%s\n", shape, known ? "known" : "unknown", (unsigned)n, laid, relaid,
           laid / (unsigned long)n, relaid / (unsigned long)n, mearrasot_number(answer) ? " REFUSED" : "");
}

static unsigned long deepest(uint32_t style, size_t depth, void (*call)(void)) {
    unsigned long most = 0, used;
    int known;
    page = page_of(depth);
    edit = (uint32_t)depth - 1;
    page_nodes = depth;
    chain(0, depth);
    words[MEARRASOT_WORDS * (depth - 1) + 1] |= style;
    for (known = 0; known < 2; known++) {
        asked = question(known);
        lay();
        used = stack_of(call);
        most = used > most ? used : most;
    }
    return most;
}

static void stack(const char *name, void (*call)(void)) {
    unsigned long leaf_last = deepest(0, 32, call), out_last = leaf_last;
    if (call != index_of_one) { /* a node out of the flow is in no index */
        out_last = deepest(MEARRASOT_OUT_OF_FLOW, 32, call);
    }
    printf("| %s | %lu | %lu |\n", name, out_last > leaf_last ? out_last : leaf_last, deepest(0, 16, call));
}

int main(void) {
    static const char *const shapes[3] = {"flat", "deep", "mixed"};
    unsigned long loop = count(two_thousand);
    unsigned k, known;
    printf("cost: a loop of 2,001 instructions is counted as %lu\n", loop);
    if (loop < 1990 || loop > 2015) {
        return 1;
    }
    printf("| shape | root width | nodes | layout | relayout | layout, a node | relayout, a node |\n|---|---|---|---|---|---|---|\n");
    for (k = 0; k < 3; k++) {
        for (known = 2; known > 0; known--) {
            costs(shapes[k], known == 2, 64);
            costs(shapes[k], known == 2, 1024);
        }
    }
    printf("| stack, bytes | 32 levels | 16 levels |\n|---|---|---|\n");
    stack("layout", lay);
    stack("relayout", relay);
    stack("size", measure);
    stack("index", index_of_one);
    stack("scroll", scroll);
    stack("coarse", coarse);
    printf("cost: done\n");
    return 0;
}
