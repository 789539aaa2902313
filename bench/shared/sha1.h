/* HMAC-SHA1 (RFC 2104 and 3174). */
#ifndef SHA1_H
#define SHA1_H

#include <stddef.h>
#include <stdint.h>

/* The HMAC-SHA1 of the bytes, under a key of at most 64 bytes. */
void hmac_sha1(const uint8_t *key, size_t key_len, const uint8_t *bytes, size_t len, uint8_t code[20]);

#endif
