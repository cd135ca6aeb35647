/* What runs before main on the board that firmware/check uses. */
#include <stdint.h>
#include <stdlib.h>

extern uint32_t data_from[], data_begin[], data_end[], bss_begin[], bss_end[], stack_top[];
int main(void);
void initialise_monitor_handles(void); /* newlib: files and text by the emulator */

/* A fault is an end with no word: firmware/check misses the program's last line. */
static void fault(void) {
    for (;;) {
    }
}

void reset(void) {
    uint32_t *to;
    const uint32_t *from = data_from;
#if defined(__ARM_FP)
    *(volatile uint32_t *)0xe000ed88u |= 0xfu << 20; /* the floating-point unit may be used */
    __asm__ volatile("dsb\n\tisb");
#endif
    for (to = data_begin; to < data_end; to++) {
        *to = *from++;
    }
    for (to = bss_begin; to < bss_end; to++) {
        *to = 0;
    }
    initialise_monitor_handles();
    exit(main());
}

typedef void (*entry)(void);
__attribute__((section(".vectors"), used)) static const entry vectors[8] = {
    (entry)stack_top, reset, fault, fault, fault, fault, fault, fault
};

/* newlib asks for these at exit. */
void _init(void) {
}
void _fini(void) {
}
