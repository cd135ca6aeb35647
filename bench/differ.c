/*
 * Random calls of two archives, word for word: differ PAGES SEED. The old one's
 * calls are named old_*. Ends with 1 at the first difference.
 */
#include <stdio.h>
#include <stdlib.h>
#include <string.h>

#include "../include/mearrasot.h"

enum { MOST = 14 };

uint64_t old_layout(const uint32_t *, uint64_t, const float *, uint64_t, float *, uint64_t, uint32_t *, uint64_t,
                    uint32_t *, uint64_t, float *, uint64_t, float, float, float, float, uint32_t);
uint64_t old_relayout(const uint32_t *, uint64_t, const float *, uint64_t, float *, uint64_t, uint32_t *, uint64_t,
                      uint32_t *, uint64_t, float *, uint64_t, const uint32_t *, uint64_t, float, float, float, float,
                      uint32_t);
uint64_t old_size(const uint32_t *, uint64_t, const float *, uint64_t, float *, float, float, float, float, uint32_t);

/* What a call may write. */
struct lent {
    float rows[16 * MOST];
    uint32_t marks[2 * MOST];
    uint32_t pairs[2 * MOST];
    float triples[3 * MOST];
    float size[2];
};

static uint64_t state;
static uint32_t words[4 * MOST];
static float numbers[28 * MOST];
static struct lent a, b;
static unsigned long calls, accepted;

static uint32_t any(uint32_t n) {
    state ^= state << 13;
    state ^= state >> 7;
    state ^= state << 17;
    return (uint32_t)(state >> 33) % n;
}

static float of_bits(uint32_t bits) {
    float x;
    memcpy(&x, &bits, 4);
    return x;
}

/* A number that is whole, in quarters, negative, a zero, or any pattern of bits. */
static float some_number(void) {
    switch (any(12)) {
    case 0: return 0;
    case 1: return -0.0f;
    case 2: return -(float)any(40);
    case 3: return (float)any(400) / 4;
    case 4: return (float)any(65537);
    case 5: return any(40) == 0 ? of_bits(any(65536) << 16 | any(65536)) : 1;
    default: return (float)any(120);
    }
}

static float within(float x, int negative, float most) {
    if (!(x <= most)) {
        return most;
    }
    if (x < 0) {
        return negative && -most <= x ? x : 0;
    }
    return x;
}

static uint32_t some_unit(unsigned field) {
    const uint32_t k = any(4);
    if (field >= 10 && field < 18) {
        return k == 0 ? 2 : 1;
    }
    return k == 0 ? 2 : k == 1 ? 1 : any(2);
}

static void some_node(uint32_t n, uint32_t i, uint32_t size) {
    const uint32_t kind = i == 0 ? 0 : size > 1 ? (any(12) == 0 ? 2 : 0) : any(4) == 0 ? 0 : any(14) == 0 ? 2 : 1;
    uint32_t style = kind | any(2) << 2 | any(5) / 4 << 3 | any(3) << 4 | (any(3) ? 0 : any(64)) << 6;
    uint64_t units = 0;
    unsigned f;
    int fraction = 0;
    if (any(4) == 0) {
        style |= any(2) << 12;
    }
    if ((style >> 10 & 3) == 0 && any(5) == 0) {
        style |= any(5) << 13;
    }
    if ((style >> 10 & 3) >= 2 && any(2)) {
        style |= 1u << 17;
    }
    if (kind == 1 && any(3) == 0) {
        style |= 1u << 16;
    }
    for (f = 0; f < 22; f++) {
        const uint32_t unit = any(3) ? (f >= 10 && f < 18) : some_unit(f);
        const int negative = (f >= 6 && f < 10) || f >= 18;
        units |= (uint64_t)unit << (f < 14 ? 2 * f : 32 + 2 * (f - 14));
        fraction |= unit == 2 && (f == 1 || f == 3 || f == 5);
        numbers[f * n + i] = within(unit == 2 ? some_number() / 64 : some_number(), negative, unit == 2 ? 1 : 65536);
        if (f >= 10 && f < 18 && any(2)) {
            numbers[f * n + i] = 0;
        }
    }
    numbers[22 * n + i] = fraction || any(5) ? 0 : 0.5f + (float)any(8) / 4;
    numbers[23 * n + i] = (float)any(20);
    numbers[24 * n + i] = (float)any(40);
    numbers[25 * n + i] = numbers[24 * n + i] + (float)any(90);
    numbers[26 * n + i] = (float)any(60);
    numbers[27 * n + i] = numbers[26 * n + i] / (float)(1 + any(3));
    words[4 * i] = size;
    words[4 * i + 1] = style;
    words[4 * i + 2] = (uint32_t)units;
    words[4 * i + 3] = (uint32_t)(units >> 32);
}

static void some_below(uint32_t n, uint32_t from, uint32_t to) {
    while (from < to) {
        const uint32_t size = any(3) ? 1 : 1 + any(to - from);
        some_node(n, from, size);
        some_below(n, from + 1, from + size);
        from += size;
    }
}

static void damage(uint32_t n) {
    if (any(2)) {
        words[any(4 * n)] ^= 1u << any(32);
    } else {
        numbers[any(28 * n)] = of_bits(any(65536) << 16 | any(65536));
    }
}

static void garbage(void) {
    unsigned char *at = (unsigned char *)&a;
    size_t i;
    for (i = 0; i < sizeof a; i++) {
        at[i] = (unsigned char)any(256);
    }
}

/* NaNs have many patterns, and which one a sum gives is not said: all count as one. */
static void settle(struct lent *x) {
    float *const parts[3] = {x->rows, x->triples, x->size};
    const size_t lengths[3] = {16 * MOST, 3 * MOST, 2};
    size_t k, i;
    for (k = 0; k < 3; k++) {
        for (i = 0; i < lengths[k]; i++) {
            if (parts[k][i] != parts[k][i]) {
                parts[k][i] = of_bits(0x7fc00000u);
            }
        }
    }
}

static void same(uint64_t old, uint64_t new, unsigned long page, const char *what) {
    calls++;
    accepted += (uint32_t)(new >> 32) == 0;
    settle(&a);
    settle(&b);
    if (old != new || memcmp(&a, &b, sizeof a) != 0) {
        printf("page %lu: %s differs\n", page, what);
        exit(1);
    }
}

int main(int count, char **given) {
    const unsigned long pages = count > 1 ? strtoul(given[1], NULL, 10) : 1000;
    unsigned long page;
    state = 0x9e3779b97f4a7c15u ^ (count > 2 ? strtoull(given[2], NULL, 10) : 1);
    for (page = 0; page < pages; page++) {
        const uint32_t n = 1 + any(MOST);
        const uint32_t records = any(8) == 0 ? any(n + 1) : n;
        const uint32_t how = any(256);
        const float q[4] = {within(some_number(), 0, 65536), within(some_number(), 0, 65536),
                            within(some_number(), 0, 65536), within(some_number(), 0, 65536)};
        uint32_t edits[4], i, k = any(4);
        uint64_t x, y;
        some_node(n, 0, n);
        some_below(n, 1, n);
        if (any(6) == 0) {
            damage(n);
        }
        garbage();
        b = a;
        x = old_layout(words, 4 * n, numbers, 28 * n, a.rows, 16 * n, a.marks, 2 * n, a.pairs, 2 * records, a.triples,
                       3 * records, q[0], q[1], q[2], q[3], how);
        y = mearrasot_layout(words, 4 * n, numbers, 28 * n, b.rows, 16 * n, b.marks, 2 * n, b.pairs, 2 * records,
                             b.triples, 3 * records, q[0], q[1], q[2], q[3], how);
        same(x, y, page, "layout");
        if (any(5) == 0) {
            garbage();
            a.marks[1] |= 1;
            b = a;
        }
        for (i = 0; i < k; i++) {
            edits[i] = any(20) == 0 ? any(2000) : any(n);
            if (edits[i] < n && edits[i] > 0) {
                some_node(n, edits[i], words[4 * edits[i]]);
            }
        }
        x = old_relayout(words, 4 * n, numbers, 28 * n, a.rows, 16 * n, a.marks, 2 * n, a.pairs, 2 * records, a.triples,
                         3 * records, edits, k, q[0], q[1], q[2], q[3], how);
        y = mearrasot_relayout(words, 4 * n, numbers, 28 * n, b.rows, 16 * n, b.marks, 2 * n, b.pairs, 2 * records,
                               b.triples, 3 * records, edits, k, q[0], q[1], q[2], q[3], how);
        same(x, y, page, "relayout");
        x = old_size(words, 4 * n, numbers, 28 * n, a.size, q[0], q[1], q[2], q[3], how);
        y = mearrasot_size(words, 4 * n, numbers, 28 * n, b.size, q[0], q[1], q[2], q[3], how);
        same(x, y, page, "size");
    }
    printf("%lu calls, %lu of them accepted, none differs\n", calls, accepted);
    return 0;
}
