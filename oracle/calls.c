/*
 * Takes calls over a pipe and answers them with the archive. All that goes over
 * the pipe is 32-bit words, the lowest byte first.
 *
 * A call:    0 for a layout or 1 for a size, the count of nodes, how, the four
 *            numbers of the question, then the node words and the node numbers,
 *            both node by node.
 * An answer: its number and its place. If the number is 0, there follow for a
 *            layout each node's row and marks, then each candidate's pair and
 *            triple; for a size its two numbers.
 *
 * Rows, marks and candidates keep what the last page left in them: a layout
 * must not depend on it.
 */
#include <stdio.h>
#include <stdlib.h>

#include "mearrasot.h"

#define N MEARRASOT_MAX_NODES

static uint32_t words[MEARRASOT_WORDS * N];
static float numbers[MEARRASOT_NUMBERS * N];
static float rows[MEARRASOT_ROW * N];
static uint32_t marks[MEARRASOT_MARKS * N];
static uint32_t pairs[MEARRASOT_PAIR * N];
static float triples[MEARRASOT_TRIPLE * N];

/* The head of a call, as it comes over the pipe. */
struct head {
    uint32_t wants_size;
    uint32_t nodes;
    uint32_t how;
    float known_width;
    float known_height;
    float parent_width;
    float available;
};

static void take(void *to, size_t count) {
    if (fread(to, 4, count, stdin) != count) {
        fprintf(stderr, "calls: the call is cut short\n");
        exit(1);
    }
}

/* The numbers come node by node, and are lent field by field. */
static void take_numbers(size_t nodes) {
    float one[MEARRASOT_NUMBERS];
    size_t i, f;
    for (i = 0; i < nodes; i++) {
        take(one, MEARRASOT_NUMBERS);
        for (f = 0; f < MEARRASOT_NUMBERS; f++) {
            numbers[MEARRASOT_NUMBER(nodes, i, f)] = one[f];
        }
    }
}

static void give(const void *from, size_t count) {
    if (fwrite(from, 4, count, stdout) != count) {
        fprintf(stderr, "calls: nobody reads the answer\n");
        exit(1);
    }
}

static void give_answer(uint64_t answer) {
    uint32_t halves[2];
    halves[0] = mearrasot_number(answer);
    halves[1] = mearrasot_place(answer);
    give(halves, 2);
}

static void answer_size(const struct mearrasot_page *page, struct mearrasot_question question) {
    float size[2];
    uint64_t answer = mearrasot_size_page(page, size, question);
    give_answer(answer);
    if (mearrasot_number(answer) == MEARRASOT_DONE) {
        give(size, 2);
    }
}

static void answer_layout(const struct mearrasot_page *page, struct mearrasot_question question) {
    uint64_t answer = mearrasot_layout_page(page, question);
    size_t i;
    give_answer(answer);
    if (mearrasot_number(answer) != MEARRASOT_DONE) {
        return;
    }
    for (i = 0; i < page->nodes; i++) {
        give(rows + MEARRASOT_ROW * i, MEARRASOT_ROW);
        give(marks + MEARRASOT_MARKS * i, MEARRASOT_MARKS);
    }
    for (i = 0; i < mearrasot_place(answer); i++) {
        give(pairs + MEARRASOT_PAIR * i, MEARRASOT_PAIR);
        give(triples + MEARRASOT_TRIPLE * i, MEARRASOT_TRIPLE);
    }
}

int main(void) {
    struct head head;
    struct mearrasot_page page = {0, words, numbers, rows, marks, 0, pairs, triples};
    struct mearrasot_question question;
    while (fread(&head, sizeof head, 1, stdin) == 1) {
        if (head.nodes > N) {
            fprintf(stderr, "calls: a page of %u nodes\n", (unsigned)head.nodes);
            return 1;
        }
        page.nodes = page.records = head.nodes;
        take(words, MEARRASOT_WORDS * page.nodes);
        take_numbers(page.nodes);
        question.known_width = head.known_width;
        question.known_height = head.known_height;
        question.parent_width = head.parent_width;
        question.available = head.available;
        question.how = head.how;
        if (head.wants_size) {
            answer_size(&page, question);
        } else {
            answer_layout(&page, question);
        }
        fflush(stdout);
    }
    return 0;
}
