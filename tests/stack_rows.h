/* The rows of the table: the deepest of the calls that one stands for, and how deep these may go. */
#ifndef STACK_ROWS_H
#define STACK_ROWS_H

#include "stack_stores.h"

int printf(const char *, ...);

enum { BOARD = 2048, HALF = 1024 }; /* half of the board's is for the Identify page, the fields, the look for a key and the memory calls */

static size_t deepest;   /* of the calls since the last row */
static uint32_t numbers; /* that occurred, a bit each */
static int failed;

static void measure(void (*call)(void)) {
    run_on_paint(call);
    if (depth > deepest) deepest = depth;
    numbers |= 1u << number;
    lent = whole;
}

static void row_within(const char *call, const char *what, size_t most) {
    printf("| `%s`%s | %zu |\n", call, what, deepest);
    if (deepest > most) failed = printf("FAILED: %zu bytes of stack, for this call there are %zu\n", deepest, most);
    deepest = 0;
}

static void row(const char *call, const char *what) { row_within(call, what, BOARD); }

#endif
