/* HMAC-SHA1 (RFC 2104 and 3174), for a server that need not be fast. */
#include "sha1.h"
#include <string.h>

struct sha1 {
    uint32_t state[5];
    uint64_t len;
    uint8_t block[64];
};

static uint32_t rotate(uint32_t x, int n)
{
    return x << n | x >> (32 - n);
}

static uint32_t mix(int round, uint32_t b, uint32_t c, uint32_t d)
{
    switch (round / 20) {
    case 0:
        return ((b & c) | (~b & d)) + 0x5a827999;
    case 1:
        return (b ^ c ^ d) + 0x6ed9eba1;
    case 2:
        return ((b & c) | (b & d) | (c & d)) + 0x8f1bbcdc;
    default:
        return (b ^ c ^ d) + 0xca62c1d6;
    }
}

static void compress(uint32_t state[5], const uint8_t block[64])
{
    uint32_t w[80];
    uint32_t a = state[0], b = state[1], c = state[2], d = state[3], e = state[4];
    for (int i = 0; i < 16; i++) {
        const uint8_t *at = block + 4 * i;
        w[i] = (uint32_t)at[0] << 24 | (uint32_t)at[1] << 16 | (uint32_t)at[2] << 8 | at[3];
    }
    for (int i = 16; i < 80; i++) {
        w[i] = rotate(w[i - 3] ^ w[i - 8] ^ w[i - 14] ^ w[i - 16], 1);
    }
    for (int i = 0; i < 80; i++) {
        uint32_t next = rotate(a, 5) + mix(i, b, c, d) + e + w[i];
        e = d;
        d = c;
        c = rotate(b, 30);
        b = a;
        a = next;
    }
    state[0] += a;
    state[1] += b;
    state[2] += c;
    state[3] += d;
    state[4] += e;
}

static void start(struct sha1 *h)
{
    static const uint32_t first[5] = {0x67452301, 0xefcdab89, 0x98badcfe, 0x10325476, 0xc3d2e1f0};
    memcpy(h->state, first, sizeof first);
    h->len = 0;
}

static void add(struct sha1 *h, const uint8_t *bytes, size_t len)
{
    for (size_t i = 0; i < len; i++) {
        h->block[h->len++ % 64] = bytes[i];
        if (h->len % 64 == 0) {
            compress(h->state, h->block);
        }
    }
}

static void finish(struct sha1 *h, uint8_t digest[20])
{
    static const uint8_t one = 0x80, zero = 0;
    uint64_t bits = 8 * h->len;
    uint8_t tail[8];
    add(h, &one, 1);
    while (h->len % 64 != 56) {
        add(h, &zero, 1);
    }
    for (int i = 0; i < 8; i++) {
        tail[i] = (uint8_t)(bits >> (56 - 8 * i));
    }
    add(h, tail, 8);
    for (int i = 0; i < 20; i++) {
        digest[i] = (uint8_t)(h->state[i / 4] >> (24 - 8 * (i % 4)));
    }
}

void hmac_sha1(const uint8_t *key, size_t key_len, const uint8_t *bytes, size_t len, uint8_t code[20])
{
    struct sha1 h;
    uint8_t inner[64] = {0}, outer[64];
    memcpy(inner, key, key_len);
    for (int i = 0; i < 64; i++) {
        outer[i] = inner[i] ^ 0x5c;
        inner[i] ^= 0x36;
    }
    start(&h);
    add(&h, inner, 64);
    add(&h, bytes, len);
    finish(&h, code);
    start(&h);
    add(&h, outer, 64);
    add(&h, code, 20);
    finish(&h, code);
}
