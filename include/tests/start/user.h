/* SPDX-License-Identifier: MIT OR Apache-2.0 */
#include <stddef.h>

/* The bytes of a client's first packet, or 0. */
size_t user(void);
