/* SPDX-License-Identifier: MIT OR Apache-2.0 */
/* The memory functions of the shared library do what those of the C library do: for all lengths up to 700 bytes and some above,
   apart from each other and over each other, and nothing around the target changes. With a number as its argument it prints
   what a copy of so many bytes takes by both. */
#define _POSIX_C_SOURCE 199309L
#include <stdint.h>
#include <stdio.h>
#include <stdlib.h>
#include <string.h>
#include <time.h>

void *own_memcpy(void *to, const void *from, size_t len);
void *own_memmove(void *to, const void *from, size_t len);
void *own_memset(void *to, int byte, size_t len);
int own_memcmp(const void *a, const void *b, size_t len);
int own_bcmp(const void *a, const void *b, size_t len);

enum { ROOM = 9000, AT = 300, MANY = 700 };

static uint8_t found[ROOM], wanted[ROOM], source[ROOM];
static unsigned long tried;

static void fill(uint8_t *bytes, uint32_t seed)
{
    for (size_t i = 0; i < ROOM; i++) {
        seed = seed * 1103515245 + 12345;
        bytes[i] = (uint8_t)(seed >> 16);
    }
}

static void check(int is_right, const char *what, size_t len, size_t at)
{
    tried++;
    if (!is_right) {
        printf("%s of %zu bytes at %zu\n", what, len, at);
        exit(1);
    }
}

static void copy(size_t len, size_t to, size_t from)
{
    fill(found, (uint32_t)len);
    memcpy(wanted, found, ROOM);
    memcpy(wanted + to, source + from, len);
    check(own_memcpy(found + to, source + from, len) == found + to && memcmp(found, wanted, ROOM) == 0, "memcpy", len,
          to);
    fill(found, (uint32_t)len);
    memcpy(wanted, found, ROOM);
    memmove(wanted + to, wanted + from, len);
    check(own_memmove(found + to, found + from, len) == found + to && memcmp(found, wanted, ROOM) == 0, "memmove", len,
          to);
}

static void set(size_t len, size_t to)
{
    fill(found, (uint32_t)len);
    memcpy(wanted, found, ROOM);
    memset(wanted + to, (int)len + 0x1280, len);
    check(own_memset(found + to, (int)len + 0x1280, len) == found + to && memcmp(found, wanted, ROOM) == 0, "memset",
          len, to);
}

static int sign(int value)
{
    return (value > 0) - (value < 0);
}

static void compare(size_t len, size_t at)
{
    memcpy(found + at, source, len);
    check(own_memcmp(found + at, source, len) == 0 && own_bcmp(found + at, source, len) == 0, "memcmp", len, at);
    for (size_t i = 0; i < len; i += len / 9 + 1) {
        found[at + i] = (uint8_t)(found[at + i] + 1 + i % 200);
        found[at + len - 1] ^= i == len - 1 ? 0 : 0x80;
        check(sign(own_memcmp(found + at, source, len)) == sign(memcmp(found + at, source, len)), "memcmp", len, i);
        check(own_bcmp(found + at, source, len) != 0, "bcmp", len, i);
        memcpy(found + at, source, len);
    }
}

static double nanoseconds(void *(*copies)(void *, const void *, size_t), size_t len)
{
    double least = 1e9;
    for (int batch = 0; batch < 5000; batch++) {
        struct timespec start, end;
        clock_gettime(CLOCK_MONOTONIC, &start);
        for (int i = 0; i < 100; i++) {
            copies(found, source, len);
            __asm__ __volatile__("" : : : "memory");
        }
        clock_gettime(CLOCK_MONOTONIC, &end);
        double took = (double)(end.tv_sec - start.tv_sec) * 1e9 + (double)(end.tv_nsec - start.tv_nsec);
        least = took < least ? took : least;
    }
    return least / 100;
}

int main(int count, char **words)
{
    static const size_t longer[] = {1200, 1500, 4096, 8000};
    static const size_t apart[] = {0, 1, 2, 3, 7, 8, 15, 16, 17, 31, 32, 33, 63, 64, 65, 127, 128, 129, 200};
    fill(source, 1);
    if (count > 1) {
        size_t len = strtoul(words[1], NULL, 10);
        len = len < ROOM ? len : ROOM;
        printf("%zu bytes: %.1f ns, by the C library %.1f ns\n", len, nanoseconds(own_memcpy, len),
               nanoseconds(memcpy, len));
        return 0;
    }
    for (size_t i = 0; i < MANY + sizeof longer / sizeof longer[0]; i++) {
        size_t len = i < MANY ? i : longer[i - MANY];
        for (size_t k = 0; k < sizeof apart / sizeof apart[0]; k++) {
            copy(len, AT, AT + apart[k]);
            copy(len, AT + apart[k], AT);
            set(len, AT + apart[k] % 33);
            compare(len, apart[k] % 33);
        }
    }
    printf("memory: %lu calls\n", tried);
    return 0;
}
