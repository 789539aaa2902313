/* usage: heap_calls

   Shows what the heap of the library asks of malloc, realloc and free, and what it answers. It is linked to the kit's heap where
   HEAP_OF_KIT is defined, with malloc, realloc and free wrapped by the linker (--wrap), and has include/heap.c in it
   otherwise. */
#include <stddef.h>
#include <stdint.h>
#include <stdio.h>
#include <stdlib.h>

static char memory[64];
static void *answered; /* what malloc and realloc answer */
static void *moved;    /* what realloc was given */
static void *freed;
static size_t asked;

void *__wrap_malloc(size_t size);
void *__wrap_realloc(void *at, size_t size);
void __wrap_free(void *at);

void *__wrap_malloc(size_t size)
{
    asked = size;
    return answered;
}

void *__wrap_realloc(void *at, size_t size)
{
    moved = at;
    asked = size;
    return answered;
}

void __wrap_free(void *at)
{
    freed = at;
}

#ifdef HEAP_OF_KIT
struct block {
    uint64_t is_there;
    void *at;
};

struct block rattle_alloc(size_t size, size_t align);
struct block rattle_realloc(void *at, size_t old_size, size_t size, size_t align);
void rattle_dealloc(void *at);
#else
#define malloc __wrap_malloc
#define realloc __wrap_realloc
#define free __wrap_free
#include "heap.c"
#undef malloc
#undef realloc
#undef free
#endif

static void check(const char *what, int is_so)
{
    if (!is_so) {
        fprintf(stderr, "heap_calls: not so: %s\n", what);
        exit(1);
    }
}

/* A block of this size is asked for as one of so many bytes, and there is one, or none. */
static void check_block(size_t size, size_t align, size_t bytes)
{
    answered = memory;
    struct block block = rattle_alloc(size, align);
    check("a new block is asked for by its size, or by its alignment", asked == bytes);
    check("a new block is where malloc says", block.is_there == 1 && block.at == memory);

    block = rattle_realloc(memory + 1, size + 9, size, align);
    check("a block is grown by its size, or by its alignment", asked == bytes && moved == memory + 1);
    check("a grown block is where realloc says", block.is_there == 1 && block.at == memory);

    answered = NULL;
    block = rattle_alloc(size, align);
    check("without memory there is no new block, at no null", block.is_there == 0 && block.at != NULL);
    block = rattle_realloc(memory, size, size, align);
    check("without memory there is no grown block, at no null", block.is_there == 0 && block.at != NULL);
}

int main(void)
{
    static const size_t sizes[] = {1, 2, 15, 16, 17, 4096, (size_t)1 << 62};
    for (size_t i = 0; i < sizeof sizes / sizeof sizes[0]; i++) {
        check_block(sizes[i], 1, sizes[i]);
        check_block(sizes[i], 16, sizes[i]);
    }
    check_block(0, 1, 1);
    check_block(0, 8, 8);
    rattle_dealloc(memory + 5);
    check("a block is freed where it is", freed == memory + 5);
    return 0;
}
