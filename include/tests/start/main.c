/* SPDX-License-Identifier: MIT OR Apache-2.0 */
/* A program that knows the library only through another one, to which it is linked, or which is loaded before it. The client's
   first packet, an Allocate request, has a header, LIFETIME, REQUESTED-TRANSPORT and DONT-FRAGMENT (RFC 8656, section 7.1). */
#include "user.h"
#include <stdio.h>

enum { ALLOCATE = 20 + 8 + 8 + 4 };

#ifdef PRELOADED
__attribute__((weak)) size_t user(void);

static size_t packet_len(void)
{
    return user ? user() : 0;
}
#else
static size_t packet_len(void)
{
    return user();
}
#endif

int main(void)
{
    size_t len = packet_len();
    printf("%lu bytes\n", (unsigned long)len);
    return len == ALLOCATE ? 0 : 1;
}
