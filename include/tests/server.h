/* SPDX-License-Identifier: MIT OR Apache-2.0 */
/* A server that challenges what is not signed, and grants all else. */
#ifndef SERVER_H
#define SERVER_H

#include "sha1.h"
#include <stddef.h>
#include <stdint.h>
#include <string.h>

/* The most bytes of an answer. */
#define ANSWER_ROOM 128

/* Writes the answer to this request, and returns its length. A success has all that any request may ask for, and is signed by the
   MD5 of `user:realm:pass` (RFC 8489, sections 9.2.2 and 14.5). */
static inline size_t write_answer(const uint8_t *request, size_t request_len, uint8_t *text)
{
    static const uint8_t key[16] = {0x84, 0x93, 0xfb, 0xc5, 0x3b, 0xa5, 0x82, 0xfb,
                                    0x4c, 0x04, 0x4c, 0x45, 0x6b, 0xdc, 0x40, 0xeb};
    static const uint8_t integrity[] = {0, 8, 0, 20};
    static const uint8_t challenge[] = {0,   9,   0,   4, 0, 0, 4, 1,    0, 0x14, 0,   5, 'r', 'e',
                                        'a', 'l', 'm', 0, 0, 0, 0, 0x15, 0, 1,    'n', 0, 0,   0};
    /* LIFETIME of 600 s, XOR-RELAYED-ADDRESS of 10.0.0.4:40000, and a CONNECTION-ID */
    static const uint8_t granted[] = {0,    0x0d, 0,    4,    0,    0,    2, 0x58, 0, 0x16, 0, 8, 0, 1,
                                      0xbd, 0x52, 0x2b, 0x12, 0xa4, 0x46, 0, 0x2a, 0, 4,    0, 0, 0, 1};
    const int is_signed = request_len >= 44 && memcmp(request + request_len - 24, integrity, sizeof integrity) == 0;
    const size_t body = is_signed ? sizeof granted : sizeof challenge, len = 20 + body;
    memcpy(text, request, 20);
    text[0] = 1;
    text[1] = (uint8_t)(request[1] | (is_signed ? 0 : 0x10));
    text[2] = 0;
    text[3] = (uint8_t)(body + (is_signed ? 24 : 0));
    memcpy(text + 20, is_signed ? granted : challenge, body);
    if (!is_signed) {
        return len;
    }
    memcpy(text + len, integrity, sizeof integrity);
    hmac_sha1(key, sizeof key, text, len, text + len + 4);
    return len + 24;
}

#endif
