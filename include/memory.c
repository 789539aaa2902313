/* SPDX-License-Identifier: MIT OR Apache-2.0 */
/* The five memory functions that compiled code calls, for the shared library for Linux, hidden in it. Those of a C library are
   chosen for the processor while a program starts (IFUNC), and glibc may bind a library that names no C library before that: it
   would call a function that is not chosen yet. tools/build/library refuses an object in which one of these calls another or itself,
   as a compiler makes of a loop that it knows for a memcpy. Nothing here is proved. */
#include <stddef.h>
#include <stdint.h>
#if defined(__x86_64__)
#include <cpuid.h>
#endif

#define HIDDEN __attribute__((visibility("hidden")))

HIDDEN void *memcpy(void *to, const void *from, size_t len);
HIDDEN void *memmove(void *to, const void *from, size_t len);
HIDDEN void *memset(void *to, int byte, size_t len);
HIDDEN int memcmp(const void *a, const void *b, size_t len);
HIDDEN int bcmp(const void *a, const void *b, size_t len);

/* What is read and written at once, wherever it lies and whatever it is part of. */
typedef uint8_t wide __attribute__((vector_size(32), aligned(1), may_alias));
typedef uint8_t half __attribute__((vector_size(16), aligned(1), may_alias));
typedef uint64_t word __attribute__((aligned(1), may_alias));
typedef uint32_t short_word __attribute__((aligned(1), may_alias));
typedef uint16_t pair __attribute__((aligned(1), may_alias));

/* Reads four values, and writes them: those of the last block before the first one is written, where the two overlap. */
#define READ_BLOCK(type, from)                                                                                         \
    const type a = ((const type *)(from))[0], b = ((const type *)(from))[1], c = ((const type *)(from))[2],            \
               d = ((const type *)(from))[3]
#define WRITE_BLOCK(type, to)                                                                                          \
    do {                                                                                                               \
        ((type *)(to))[0] = a;                                                                                         \
        ((type *)(to))[1] = b;                                                                                         \
        ((type *)(to))[2] = c;                                                                                         \
        ((type *)(to))[3] = d;                                                                                         \
    } while (0)

#define MOVE_BLOCK(type, to, from)                                                                                     \
    do {                                                                                                               \
        READ_BLOCK(type, from);                                                                                        \
        WRITE_BLOCK(type, to);                                                                                         \
    } while (0)

/* Blocks of four values: from the front on, unless the target begins within the source; then from the end on. There is at
   least one block. The last one may overlap the one before it, so it is read first. */
#define MOVE_BLOCKS(type)                                                                                              \
    do {                                                                                                               \
        const size_t block = 4 * sizeof(type);                                                                         \
        if ((uintptr_t)target - (uintptr_t)source >= len) {                                                            \
            uint8_t *const last = target + len - block;                                                                \
            READ_BLOCK(type, source + len - block);                                                                    \
            for (; target < last; target += block, source += block) {                                                  \
                MOVE_BLOCK(type, target, source);                                                                      \
            }                                                                                                          \
            WRITE_BLOCK(type, last);                                                                                   \
        } else {                                                                                                       \
            READ_BLOCK(type, source);                                                                                  \
            for (; len > block; len -= block) {                                                                        \
                MOVE_BLOCK(type, target + len - block, source + len - block);                                          \
            }                                                                                                          \
            WRITE_BLOCK(type, target);                                                                                 \
        }                                                                                                              \
    } while (0)

#if defined(__x86_64__)
/* Whether the processor and the system have registers of 32 bytes. It is written once, when the library is loaded. */
static uint8_t has_wide;

__attribute__((constructor)) static void look_at_processor(void)
{
    unsigned a, b, c, d, enabled, high;
    if (__get_cpuid(1, &a, &b, &c, &d) && (c & bit_OSXSAVE) && (c & bit_AVX)) {
        __asm__("xgetbv" : "=a"(enabled), "=d"(high) : "c"(0));
        has_wide = (enabled & 6) == 6;
    }
}

__attribute__((target("avx"))) static void move_wide(uint8_t *target, const uint8_t *source, size_t len)
{
    MOVE_BLOCKS(wide);
}
#endif

static inline void move_long(uint8_t *target, const uint8_t *source, size_t len)
{
#if defined(__x86_64__)
    if (has_wide && len >= 4 * sizeof(wide)) {
        move_wide(target, source, len);
        return;
    }
#endif
    MOVE_BLOCKS(half);
}

/* Both ends of at most twice the bytes of a type: they meet or overlap, and both are read before one is written. */
#define MOVE_ENDS(type)                                                                                                \
    do {                                                                                                               \
        const type front = *(const type *)source, back = *(const type *)(source + len - sizeof(type));                 \
        *(type *)target = front;                                                                                       \
        *(type *)(target + len - sizeof(type)) = back;                                                                 \
    } while (0)

static inline void move_short(uint8_t *target, const uint8_t *source, size_t len)
{
    if (len > 2 * sizeof(half)) {
        const half a = ((const half *)source)[0], b = ((const half *)source)[1];
        const half c = ((const half *)(source + len))[-2], d = ((const half *)(source + len))[-1];
        ((half *)target)[0] = a;
        ((half *)target)[1] = b;
        ((half *)(target + len))[-2] = c;
        ((half *)(target + len))[-1] = d;
    } else if (len >= sizeof(half)) {
        MOVE_ENDS(half);
    } else if (len >= sizeof(word)) {
        MOVE_ENDS(word);
    } else if (len >= sizeof(short_word)) {
        MOVE_ENDS(short_word);
    } else if (len >= sizeof(pair)) {
        MOVE_ENDS(pair);
    } else if (len) {
        *target = *source;
    }
}

void *memmove(void *to, const void *from, size_t len)
{
    if (len <= 4 * sizeof(half)) {
        move_short(to, from, len);
    } else {
        move_long(to, from, len);
    }
    return to;
}

HIDDEN void *memcpy(void *to, const void *from, size_t len) __attribute__((alias("memmove")));

#define SET_ENDS(type, value)                                                                                          \
    do {                                                                                                               \
        *(type *)target = (value);                                                                                     \
        *(type *)(target + len - sizeof(type)) = (value);                                                              \
    } while (0)

static inline void set_long(uint8_t *target, half value, size_t len)
{
    const half a = value, b = value, c = value, d = value;
    uint8_t *const last = target + len - 4 * sizeof(half);
    for (; target < last; target += 4 * sizeof(half)) {
        WRITE_BLOCK(half, target);
    }
    WRITE_BLOCK(half, last);
}

void *memset(void *to, int byte, size_t len)
{
    uint8_t *target = to;
    const uint64_t bytes = 0x0101010101010101 * (uint8_t)byte;
    const half all = (half){0} + (uint8_t)byte;
    if (len >= 4 * sizeof(half)) {
        set_long(target, all, len);
    } else if (len >= sizeof(half)) {
        SET_ENDS(half, all);
        if (len > 2 * sizeof(half)) {
            ((half *)target)[1] = all;
            ((half *)(target + len))[-2] = all;
        }
    } else if (len >= sizeof(word)) {
        SET_ENDS(word, bytes);
    } else if (len >= sizeof(short_word)) {
        SET_ENDS(short_word, (uint32_t)bytes);
    } else if (len) {
        target[0] = target[len / 2] = target[len - 1] = (uint8_t)byte;
    }
    return to;
}

/* The order of two words by their first byte that differs, which is their lowest: each processor here is little-endian. */
static inline int order(uint64_t a, uint64_t b)
{
    return __builtin_bswap64(a) < __builtin_bswap64(b) ? -1 : a != b;
}

int memcmp(const void *a, const void *b, size_t len)
{
    const uint8_t *one = a, *other = b;
    size_t at = 0;
    if (len < sizeof(word)) {
        for (; at < len && one[at] == other[at]; at++) {
        }
        return at < len ? one[at] - other[at] : 0;
    }
    for (; at + sizeof(word) < len; at += sizeof(word)) {
        if (*(const word *)(one + at) != *(const word *)(other + at)) {
            return order(*(const word *)(one + at), *(const word *)(other + at));
        }
    }
    return order(((const word *)(one + len))[-1], ((const word *)(other + len))[-1]);
}

HIDDEN int bcmp(const void *a, const void *b, size_t len) __attribute__((alias("memcmp")));
