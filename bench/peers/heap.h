/* What the heap holds. heap.c counts it, and is loaded before the C library where a program is to count: where it is not,
   these are null. */
#ifndef HEAP_H
#define HEAP_H

#include <stddef.h>

/* The bytes that are allocated and not freed, with what the C library gave beyond what it was asked for. */
__attribute__((weak)) size_t heap_held(void);

/* The bytes that were asked for and are not freed. */
__attribute__((weak)) size_t heap_asked(void);

/* The calls of malloc, calloc and their like so far, and those of realloc. */
__attribute__((weak)) size_t heap_calls(void);

#endif
