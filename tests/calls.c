/*
 * Runs stored calls through the archive and compares all that they leave.
 *
 * calls FILE: each call in it has its whole result after it (README.md has the
 * form). Every slice is lent from memory of exactly its length, beside a page
 * that cannot be touched: each call is made twice, once with the page after the
 * slices and once with it before them. What a call may only read is read-only.
 */
#define _DEFAULT_SOURCE
#include <stdio.h>
#include <stdlib.h>
#include <string.h>
#include <sys/mman.h>

#include "mearrasot.h"

enum {
    BLOCK = 1 << 16,   /* a multiple of every page size in use */
    AREA = 4 * BLOCK,  /* what a slice may have, in bytes */
    LINE = 1 << 20,
    SAID = 20          /* differences that are printed; all are counted */
};

enum part { WORDS, NUMBERS, ROWS, MARKS, PAIRS, TRIPLES, EDITS, SIZE, PARTS };
static const char *const names[PARTS] = {
    "words", "numbers", "rows", "rowwords", "candwords", "candnumbers", "edits", "size"
};

struct list {
    size_t count;
    uint32_t bits[AREA / 4];
};

/* The call as it is read, what it has to leave, and the memory it is lent. */
static struct list given[PARTS], left[PARTS];
static unsigned char *area[PARTS];
static void *lent[PARTS];

static struct mearrasot_question question;
static const char kinds[] = "lrsp"; /* layout, relayout, size, profile */
static char kind;
static uint64_t expected;
static char line[LINE];
static unsigned long at_line, calls, by_kind[4], wrong, said;

static void stop(const char *why) {
    fprintf(stderr, "calls: line %lu: %s\n", at_line, why);
    exit(2);
}

/* The next word of a line, or null at its end. */
static char *word(void) {
    return strtok(NULL, " \n");
}

static char *needed(void) {
    char *w = word();
    if (w == NULL) {
        stop("a word is missing");
    }
    return w;
}

static uint32_t hex(const char *w) {
    char *end;
    unsigned long v = strtoul(w, &end, 16);
    if (strlen(w) != 8 || *end != 0) {
        stop("not eight hex digits");
    }
    return (uint32_t)v;
}

static uint32_t decimal(const char *w) {
    char *end;
    unsigned long v = strtoul(w, &end, 10);
    if (*w < '0' || *w > '9' || *end != 0) {
        stop("not a number");
    }
    return (uint32_t)v;
}

static float number(uint32_t bits) {
    float x;
    memcpy(&x, &bits, sizeof x);
    return x;
}

static void read_list(struct list *l, int hexadecimal) {
    char *w;
    for (l->count = 0; (w = word()) != NULL; l->count++) {
        if (l->count == AREA / 4) {
            stop("a list is too long");
        }
        l->bits[l->count] = hexadecimal ? hex(w) : decimal(w);
    }
}

/* A number that does not count is lent as a NaN, so that reading it would show. */
static float known(uint32_t bit) {
    char *w = needed();
    if (strcmp(w, "none") == 0) {
        return number(0x7fc00000u);
    }
    question.how |= bit;
    return number(hex(w));
}

static void read_available(void) {
    char *w = needed();
    question.available = number(0x7fc00000u);
    if (strcmp(w, "min") == 0) {
        question.how |= MEARRASOT_MIN_CONTENT;
    } else if (strcmp(w, "max") == 0) {
        question.how |= MEARRASOT_MAX_CONTENT;
    } else {
        question.how |= MEARRASOT_DEFINITE;
        question.available = number(hex(w));
    }
}

static void read_flags(void) {
    static const uint32_t bits[3] = {MEARRASOT_START, MEARRASOT_END, MEARRASOT_DEFINITE_HEIGHT};
    unsigned k;
    char *w;
    for (k = 0; (w = word()) != NULL; k++) {
        if (k == 3) {
            stop("too many flags");
        }
        question.how |= decimal(w) ? bits[k] : 0;
    }
}

static int read_part(const char *key, struct list *lists) {
    int k;
    for (k = 0; k < PARTS; k++) {
        if (strcmp(key, names[k]) == 0) {
            read_list(&lists[k], k != EDITS);
            return 1;
        }
    }
    return 0;
}

/* The file has numbers node by node; they are lent field by field. What is past the last whole node stays. */
static void by_field(struct list *l) {
    static uint32_t by_node[AREA / 4];
    const size_t nodes = l->count / MEARRASOT_NUMBERS;
    size_t k;
    memcpy(by_node, l->bits, sizeof by_node);
    for (k = 0; k < MEARRASOT_NUMBERS * nodes; k++) {
        l->bits[MEARRASOT_NUMBER(nodes, k / MEARRASOT_NUMBERS, k % MEARRASOT_NUMBERS)] = by_node[k];
    }
}

static char *next_key(void) {
    char *key;
    do {
        if (fgets(line, LINE, stdin) == NULL) {
            return NULL;
        }
        at_line++;
        if (strchr(line, '\n') == NULL) {
            stop("a line is cut short");
        }
        key = strtok(line, " \n");
    } while (key == NULL);
    return key;
}

static void clear(struct list *lists) {
    int k;
    for (k = 0; k < PARTS; k++) {
        lists[k].count = 0;
    }
}

/* Up to the line 'end' of a call; 0 at the end of the file. */
static int read_call(void) {
    char *key = next_key();
    clear(given);
    question.how = 0;
    if (key == NULL) {
        return 0;
    }
    if (strcmp(key, "op") != 0) {
        stop("a call begins with op");
    }
    kind = needed()[0];
    key = word();
    if (key != NULL) {
        if (strcmp(key, "profile") != 0) {
            stop("asked as what?");
        }
        question.how |= MEARRASOT_PROFILE;
    }
    while ((key = next_key()) != NULL && strcmp(key, "end") != 0) {
        if (strcmp(key, "known") == 0) {
            question.known_width = known(MEARRASOT_KNOWN_WIDTH);
            question.known_height = known(MEARRASOT_KNOWN_HEIGHT);
        } else if (strcmp(key, "parent") == 0) {
            question.parent_width = number(hex(needed()));
        } else if (strcmp(key, "avail") == 0) {
            read_available();
        } else if (strcmp(key, "lines") == 0) {
            read_flags();
        } else if (strcmp(key, "axis") == 0) {
            question.how |= needed()[0] == 'w' ? MEARRASOT_WIDTH_ONLY : 0;
        } else if (!read_part(key, given)) {
            stop("an unknown line");
        }
    }
    by_field(&given[NUMBERS]);
    return 1;
}

static void read_result(void) {
    char *key;
    clear(left);
    key = next_key();
    if (key == NULL || strcmp(key, "answer") != 0) {
        stop("a result begins with answer");
    }
    expected = (uint64_t)decimal(needed()) << 32;
    expected |= decimal(needed());
    while ((key = next_key()) != NULL && strcmp(key, "end") != 0) {
        if (!read_part(key, left)) {
            stop("an unknown line");
        }
    }
    if (key == NULL) {
        stop("the last result has no end");
    }
}

static void lend(int before) {
    int k;
    given[SIZE].count = 2;
    given[SIZE].bits[0] = given[SIZE].bits[1] = 0xffc12345u;
    for (k = 0; k < PARTS; k++) {
        size_t bytes = 4 * given[k].count;
        int reads = k == WORDS || k == NUMBERS || k == EDITS;
        if (mprotect(area[k], AREA, PROT_READ | PROT_WRITE) != 0) {
            stop("memory cannot be made writable");
        }
        lent[k] = before ? area[k] : area[k] + AREA - bytes;
        memcpy(lent[k], given[k].bits, bytes);
        if (reads && mprotect(area[k], AREA, PROT_READ) != 0) {
            stop("memory cannot be made read-only");
        }
    }
}

static uint64_t call(void) {
    const struct mearrasot_question q = question;
    if (kind == 'p') {
        return mearrasot_in_profile(lent[WORDS], given[WORDS].count, lent[NUMBERS], given[NUMBERS].count,
                                    q.known_width, q.known_height, q.parent_width, q.available, q.how);
    }
    if (kind == 's') {
        return mearrasot_size(lent[WORDS], given[WORDS].count, lent[NUMBERS], given[NUMBERS].count,
                              lent[SIZE], q.known_width, q.known_height, q.parent_width, q.available, q.how);
    }
    if (kind == 'l') {
        return mearrasot_layout(lent[WORDS], given[WORDS].count, lent[NUMBERS], given[NUMBERS].count,
                                lent[ROWS], given[ROWS].count, lent[MARKS], given[MARKS].count,
                                lent[PAIRS], given[PAIRS].count, lent[TRIPLES], given[TRIPLES].count,
                                q.known_width, q.known_height, q.parent_width, q.available, q.how);
    }
    return mearrasot_relayout(lent[WORDS], given[WORDS].count, lent[NUMBERS], given[NUMBERS].count,
                              lent[ROWS], given[ROWS].count, lent[MARKS], given[MARKS].count,
                              lent[PAIRS], given[PAIRS].count, lent[TRIPLES], given[TRIPLES].count,
                              lent[EDITS], given[EDITS].count,
                              q.known_width, q.known_height, q.parent_width, q.available, q.how);
}

static int is_nan(uint32_t bits) {
    return (bits & 0x7fffffffu) > 0x7f800000u;
}

/* Whether part k is as expected; NaNs are one value in a list of numbers. */
static int as_left(int k) {
    const int numbers = k == ROWS || k == TRIPLES || k == SIZE;
    size_t i;
    if (left[k].count != given[k].count) {
        return 0;
    }
    for (i = 0; i < left[k].count; i++) {
        uint32_t got, want = left[k].bits[i];
        memcpy(&got, (unsigned char *)lent[k] + 4 * i, 4);
        if (got != want && !(numbers && is_nan(got) && is_nan(want))) {
            if (said++ < SAID) {
                printf("calls: call %lu: %s %lu is %08lx, not %08lx\n", calls, names[k], (unsigned long)i,
                       (unsigned long)got, (unsigned long)want);
            }
            return 0;
        }
    }
    return 1;
}

static int agrees(void) {
    const int first = kind == 's' ? SIZE : kind == 'p' ? PARTS : ROWS;
    const int last = kind == 's' ? SIZE : TRIPLES;
    uint64_t answer = call();
    int k;
    if (answer != expected) {
        if (said++ < SAID) {
            printf("calls: call %lu: answer %lu %lu, not %lu %lu\n", calls,
                   (unsigned long)mearrasot_number(answer), (unsigned long)mearrasot_place(answer),
                   (unsigned long)mearrasot_number(expected), (unsigned long)mearrasot_place(expected));
        }
        return 0;
    }
    for (k = first; k <= last; k++) {
        if (!as_left(k)) {
            return 0;
        }
    }
    return 1;
}

int main(int argc, char **argv) {
    int k, before, good;
    if (argc != 2 || freopen(argv[1], "r", stdin) == NULL) {
        fprintf(stderr, "usage: calls FILE\n");
        return 2;
    }
    for (k = 0; k < PARTS; k++) {
        unsigned char *m = mmap(NULL, AREA + 2 * BLOCK, PROT_NONE, MAP_PRIVATE | MAP_ANONYMOUS, -1, 0);
        if (m == MAP_FAILED) {
            stop("no memory");
        }
        area[k] = m + BLOCK;
    }
    while (read_call()) {
        read_result();
        if (strchr(kinds, kind) == NULL) {
            stop("an unknown call");
        }
        calls++;
        by_kind[strchr(kinds, kind) - kinds]++;
        good = 1;
        for (before = 0; before < 2; before++) {
            lend(before);
            good = agrees() && good;
        }
        wrong += !good;
    }
    printf("calls: %lu calls (%lu layouts, %lu relayouts, %lu sizes, %lu of the profile), %lu differ\n", calls,
           by_kind[0], by_kind[1], by_kind[2], by_kind[3], wrong);
    return wrong != 0 || calls == 0;
}
