/* Checks that are counted; each that fails is printed. */
#ifndef CHECK_H
#define CHECK_H

#include <stdio.h>

static unsigned long checks, failures;

static void check(int good, const char *what, const char *file, int line) {
    checks++;
    if (!good) {
        failures++;
        printf("%s:%d: not so: %s\n", file, line, what);
    }
}

#define CHECK(x) check((x), #x, __FILE__, __LINE__)
#define IS(answer, number, place) \
    check((answer) == ((uint64_t)(number) << 32 | (uint64_t)(place)), #answer " gives " #number ", " #place, __FILE__, \
          __LINE__)

/* What a program ends with. */
static int report(const char *name) {
    printf("%s: %lu checks, %lu failed\n", name, checks, failures);
    return failures != 0 || checks == 0;
}

#endif
