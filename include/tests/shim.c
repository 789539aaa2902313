/* Preloaded, it counts the allocations of a program, and refuses one of them. */
#define _GNU_SOURCE
#include "shim.h"
#include <dlfcn.h>
#include <stddef.h>

static long refused, count, live;

/* The C library's function of this name. */
static void *real(const char *name)
{
    return dlsym(RTLD_NEXT, name);
}

void shim_refuse(long number)
{
    refused = number;
    count = 0;
}

long shim_count(void)
{
    return count;
}

long shim_live(void)
{
    return live;
}

static int is_refused(void)
{
    return ++count == refused;
}

void *malloc(size_t size)
{
    static void *(*found)(size_t);
    if (!found) {
        *(void **)&found = real("malloc");
    }
    void *block = is_refused() ? NULL : found(size);
    live += block != NULL;
    return block;
}

void *realloc(void *block, size_t size)
{
    static void *(*found)(void *, size_t);
    if (!found) {
        *(void **)&found = real("realloc");
    }
    void *moved = is_refused() ? NULL : found(block, size);
    live += moved && !block;
    return moved;
}

void free(void *block)
{
    static void (*found)(void *);
    if (!found) {
        *(void **)&found = real("free");
    }
    live -= block != NULL;
    found(block);
}
