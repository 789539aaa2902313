/* SPDX-License-Identifier: MIT OR Apache-2.0 */
/* The heap of the proved functions, over malloc, for a target for which the kit has no archive of it: what its liblibc_c.a
   does, which tools/check/test-library compares. Nothing here is proved. */
#include <stdint.h>
#include <stdlib.h>

/* Whether there is memory, and where. Where there is none, the place is one that nothing reads or writes, and not null. */
struct block {
    uint64_t is_there;
    void *at;
};

struct block rattle_alloc(size_t size, size_t align);
struct block rattle_realloc(void *at, size_t old_size, size_t size, size_t align);
void rattle_dealloc(void *at);

static char nothing;

static struct block block_at(void *at)
{
    struct block block = {at != NULL, at ? at : (void *)&nothing};
    return block;
}

/* A block of no bytes takes as many as it is aligned to, since malloc(0) may return null. No alignment is above malloc's. */
struct block rattle_alloc(size_t size, size_t align)
{
    return block_at(malloc(size ? size : align));
}

struct block rattle_realloc(void *at, size_t old_size, size_t size, size_t align)
{
    (void)old_size;
    return block_at(realloc(at, size ? size : align));
}

void rattle_dealloc(void *at)
{
    free(at);
}
