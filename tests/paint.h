/* A painted stack: what a call used of it, and what it left there. x86-64. */
#ifndef PAINT_H
#define PAINT_H

#include <stddef.h>
#include <stdint.h>

int memcmp(const void *, const void *, size_t);
void *memset(void *, int, size_t);

enum { STACK = 16384, PAINT = 0xa5 };

static uint8_t stack[STACK] __attribute__((aligned(16)));
static size_t depth; /* of the call that ran last: bytes from the lowest that lost its paint, the return address with them */

static void run_on_paint(void (*call)(void)) {
    memset(stack, PAINT, STACK);
    __asm__ volatile("mov %%rsp, %%rbx\n\tmov %0, %%rsp\n\tcall *%1\n\tmov %%rbx, %%rsp"
                     :
                     : "r"(stack + STACK), "r"(call)
                     : "rbx", "rax", "rcx", "rdx", "rsi", "rdi", "r8", "r9", "r10", "r11", "memory", "cc", "xmm0", "xmm1", "xmm2",
                       "xmm3", "xmm4", "xmm5", "xmm6", "xmm7", "xmm8", "xmm9", "xmm10", "xmm11", "xmm12", "xmm13", "xmm14", "xmm15");
    for (depth = STACK; depth > 0 && stack[STACK - depth] == PAINT;) depth--;
}

/* whether four of these bytes, one behind the other, stand in what that call used */
static int on_stack(const char *bytes, size_t n) {
    for (const uint8_t *at = stack + STACK - depth; at + 4 <= stack + STACK; at++)
        for (size_t from = 0; from + 4 <= n; from++)
            if (memcmp(at, bytes + from, 4) == 0) return 1;
    return 0;
}

#endif
