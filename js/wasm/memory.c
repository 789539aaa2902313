/* What the compiler takes from a C library: copies and comparisons of bytes, as C99 describes them, and shifts and products of
   128 bits, as compiler-rt describes them. Long copies are one instruction of the engine. */

typedef __SIZE_TYPE__ size;
typedef __UINT64_TYPE__ u64;
typedef __UINT32_TYPE__ u32;
typedef __UINT8_TYPE__ u8;

/* From so many bytes on the engine's own copy is faster than a loop. */
#define LONG 256

/* Eight bytes at any place: WebAssembly has no alignment to keep. */
struct word {
    u64 bits;
} __attribute__((packed, may_alias));

void *memcpy(void *to, const void *from, size len)
{
    u8 *a = to;
    const u8 *b = from;
    if (len >= LONG) {
        return __builtin_memcpy(to, from, len);
    }
    for (; len >= 8; len -= 8, a += 8, b += 8) {
        *(struct word *)a = *(const struct word *)b;
    }
    for (; len; len--) {
        *a++ = *b++;
    }
    return to;
}

void *memmove(void *to, const void *from, size len)
{
    return __builtin_memmove(to, from, len);
}

void *memset(void *to, int byte, size len)
{
    u8 *a = to;
    if (len >= LONG) {
        return __builtin_memset(to, byte, len);
    }
    for (; len >= 8; len -= 8, a += 8) {
        ((struct word *)a)->bits = (u8)byte * 0x0101010101010101UL;
    }
    for (; len; len--) {
        *a++ = (u8)byte;
    }
    return to;
}

int memcmp(const void *one, const void *other, size len)
{
    const u8 *a = one, *b = other;
    for (size at = 0; at < len; at++) {
        if (a[at] != b[at]) {
            return a[at] < b[at] ? -1 : 1;
        }
    }
    return 0;
}

/* A number of 128 bits, as WebAssembly's C passes it: two halves. */
struct wide {
    u64 low, high;
};

/* The product of two numbers of 64 bits, by halves: no instruction has more than 64 bits. */
static struct wide product(u64 a, u64 b)
{
    u64 low = (u64)(u32)a * (u32)b, mixed = (a >> 32) * (u32)b, other = (u64)(u32)a * (b >> 32);
    u64 middle = (low >> 32) + (u32)mixed + (u32)other;
    struct wide it = {middle << 32 | (u32)low, (a >> 32) * (b >> 32) + (mixed >> 32) + (other >> 32) + (middle >> 32)};
    return it;
}

struct wide __multi3(u64 a_low, u64 a_high, u64 b_low, u64 b_high)
{
    struct wide it = product(a_low, b_low);
    it.high += a_low * b_high + a_high * b_low;
    return it;
}

struct wide __ashlti3(u64 low, u64 high, int by)
{
    struct wide it = {low, high};
    if (by >= 64) {
        it.low = 0;
        it.high = low << (by - 64);
    } else if (by > 0) {
        it.low = low << by;
        it.high = high << by | low >> (64 - by);
    }
    return it;
}

struct wide __lshrti3(u64 low, u64 high, int by)
{
    struct wide it = {low, high};
    if (by >= 64) {
        it.low = high >> (by - 64);
        it.high = 0;
    } else if (by > 0) {
        it.low = low >> by | high << (64 - by);
        it.high = high >> by;
    }
    return it;
}
