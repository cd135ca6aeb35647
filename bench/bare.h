/*
 * A program with no C library, for Linux on x86-64: what is counted is then the
 * archive's code and a little of ours, and the archive is seen to need no more
 * than memset and memcpy.
 */
#ifndef BARE_H
#define BARE_H

#include <stddef.h>
#include <stdint.h>

/*
 * Eight bytes at a time. The empty asm keeps a compiler from turning these loops
 * into calls of themselves.
 */
void *memset(void *to, int value, size_t n) {
    unsigned char *t = to;
    uint64_t eight = 0x0101010101010101u * (unsigned char)value;
    for (; n >= 8; n -= 8, t += 8) {
        *(uint64_t *)(void *)t = eight;
        __asm__ volatile("" ::: "memory");
    }
    for (; n > 0; n--, t++) {
        *t = (unsigned char)value;
        __asm__ volatile("" ::: "memory");
    }
    return to;
}

void *memcpy(void *restrict to, const void *restrict from, size_t n) {
    unsigned char *t = to;
    const unsigned char *f = from;
    for (; n >= 8; n -= 8, t += 8, f += 8) {
        *(uint64_t *)(void *)t = *(const uint64_t *)(const void *)f;
        __asm__ volatile("" ::: "memory");
    }
    for (; n > 0; n--) {
        *t++ = *f++;
        __asm__ volatile("" ::: "memory");
    }
    return to;
}

static inline long system_call(long number, long a, const void *b, size_t c) {
    long result;
    __asm__ volatile("syscall" : "=a"(result) : "a"(number), "D"(a), "S"(b), "d"(c) : "rcx", "r11", "memory");
    return result;
}

static inline void leave(int status) {
    for (;;) {
        system_call(60, status, 0, 0);
    }
}

static inline void print(const char *text) {
    size_t n = 0;
    while (text[n] != 0) {
        n++;
    }
    system_call(1, 1, text, n);
}

static inline void print_number(size_t n) {
    char digits[24];
    size_t at = sizeof digits - 1;
    digits[at] = 0;
    do {
        digits[--at] = (char)('0' + n % 10);
        n /= 10;
    } while (n > 0);
    print(digits + at);
}

static inline int same(const char *a, const char *b) {
    for (; *a != 0 && *a == *b; a++, b++) {
    }
    return *a == *b;
}

static inline size_t number(const char *s) {
    size_t n = 0;
    for (; *s >= '0' && *s <= '9'; s++) {
        n = 10 * n + (size_t)(*s - '0');
    }
    return n;
}

int run(char **argv);

/* words: the count of arguments, and the arguments. */
__attribute__((used)) void begin(char **words) {
    leave(run(words + 1));
}

__asm__(".globl _start\n_start:\n\tmov %rsp, %rdi\n\tand $-16, %rsp\n\tcall begin\n");

#endif
