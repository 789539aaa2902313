/* SPDX-License-Identifier: MIT OR Apache-2.0 */
/* The memory of the proved functions: that of malloc, of which each block is overwritten before it is given back. So no
   password, key or seed stays in the heap when a client is freed, and no copy that a growing list has left behind.
   tools/build/library lets the heap of the proved functions call these in place of malloc, realloc and free. Nothing here is
   proved. */
#include <stddef.h>
#include <stdint.h>
#include <stdlib.h>
#include <string.h>

void *erasing_malloc(size_t size);
void *erasing_realloc(void *block, size_t size);
void erasing_free(void *block);

/* Before each block are its bytes, counted, and none of it is lost to alignment: malloc aligns to 16 at most. */
enum { FRONT = 16 };

static size_t size_of(const void *block)
{
    size_t size;
    memcpy(&size, (const char *)block - FRONT, sizeof size);
    return size;
}

/* The compiler may leave out a memset of what is freed next. It has to make one that this reads. */
static void erase(void *at, size_t size)
{
    memset(at, 0, size);
    __asm__ __volatile__("" : : "r"(at) : "memory");
}

void *erasing_malloc(size_t size)
{
    char *front = size <= SIZE_MAX - FRONT ? malloc(FRONT + size) : NULL;
    if (!front) {
        return NULL;
    }
    memcpy(front, &size, sizeof size);
    return front + FRONT;
}

void erasing_free(void *block)
{
    if (block) {
        char *front = (char *)block - FRONT;
        erase(block, size_of(block));
        free(front);
    }
}

/* A block that shrinks stays where it is, and its count stays too, so that all of it is overwritten in the end. */
void *erasing_realloc(void *block, size_t size)
{
    size_t old_size = block ? size_of(block) : 0;
    void *moved;
    if (block && size <= old_size) {
        return block;
    }
    moved = erasing_malloc(size);
    if (moved && block) {
        memcpy(moved, block, old_size);
        erasing_free(block);
    }
    return moved;
}
