/* SPDX-License-Identifier: MIT OR Apache-2.0 */
/* Bytes that a test writes as hexadecimal digits. */
#ifndef HEX_H
#define HEX_H

#include <stddef.h>
#include <stdint.h>
#include <stdio.h>
#include <string.h>

/* Decodes the digits, and returns how many bytes they are. */
static inline size_t decode(const char *digits, uint8_t *bytes)
{
    size_t len = strlen(digits) / 2;
    for (size_t i = 0; i < len; i++) {
        unsigned byte;
        sscanf(digits + 2 * i, "%2x", &byte);
        bytes[i] = (uint8_t)byte;
    }
    return len;
}

#endif
