/* Counts what the heap holds: a shared library, for LD_PRELOAD. It is for programs that have one thread.

   It counts calls of malloc and its like, the bytes that were requested and are not freed, and those that the C library holds for
   them (malloc_usable_size: in brackets in the table). What is held is the difference between no client, after one was made and
   freed, and one with so many channels, each with its permission. This library requests 16 bytes more for each block, to overwrite
   it when it is freed. Libre keeps its timers in these bytes, too. */
#define _GNU_SOURCE
#include "heap.h"
#include <malloc.h>
#include <stdint.h>
#include <stdlib.h>

/* The C library's own, by the names that it keeps for this. */
extern void *__libc_malloc(size_t size);
extern void *__libc_calloc(size_t count, size_t size);
extern void *__libc_realloc(void *old, size_t size);
extern void *__libc_memalign(size_t alignment, size_t size);
extern void __libc_free(void *at);

static size_t held, asked, calls;

/* What was asked for at each place that is held: the C library keeps what it gave alone. Open addressing, no more than half full. */
enum { BITS = 18, SLOTS = 1 << BITS };
static struct {
    void *at;
    size_t size;
} places[SLOTS];

static size_t home(const void *at)
{
    return (uintptr_t)at / 16 * 0x9e3779b97f4a7c15u >> (64 - BITS);
}

static size_t slot_of(const void *at)
{
    size_t slot = home(at);
    while (places[slot].at && places[slot].at != at) {
        slot = (slot + 1) % SLOTS;
    }
    return slot;
}

/* The places behind the one that goes are moved up, so that each is still found from its home. */
static void forget(void *at)
{
    size_t gap = slot_of(at);
    asked -= places[gap].size;
    for (size_t next = (gap + 1) % SLOTS; places[next].at; next = (next + 1) % SLOTS) {
        if ((next - home(places[next].at)) % SLOTS >= (next - gap) % SLOTS) {
            places[gap] = places[next];
            gap = next;
        }
    }
    places[gap].at = NULL;
    places[gap].size = 0;
}

size_t heap_held(void)
{
    return held;
}

size_t heap_asked(void)
{
    return asked;
}

size_t heap_calls(void)
{
    return calls;
}

static void *counted(void *at, size_t size)
{
    calls++;
    if (at) {
        size_t slot = slot_of(at);
        places[slot].at = at;
        places[slot].size = size;
        asked += size;
        held += malloc_usable_size(at);
    }
    return at;
}

void *malloc(size_t size)
{
    return counted(__libc_malloc(size), size);
}

void *calloc(size_t count, size_t size)
{
    return counted(__libc_calloc(count, size), count * size);
}

void *memalign(size_t alignment, size_t size)
{
    return counted(__libc_memalign(alignment, size), size);
}

void *aligned_alloc(size_t alignment, size_t size)
{
    return memalign(alignment, size);
}

int posix_memalign(void **place, size_t alignment, size_t size)
{
    *place = memalign(alignment, size);
    return *place ? 0 : 12;
}

void *realloc(void *old, size_t size)
{
    size_t before = old ? malloc_usable_size(old) : 0;
    void *at = __libc_realloc(old, size);
    if (old && (at || size == 0)) {
        held -= before;
        forget(old);
    }
    return counted(at, size);
}

void free(void *at)
{
    if (at) {
        held -= malloc_usable_size(at);
        forget(at);
    }
    __libc_free(at);
}
