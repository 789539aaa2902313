/* SPDX-License-Identifier: MIT OR Apache-2.0 */
/* What the library has beside the proved functions: the functions that the header has inline, as symbols, so that languages
   which find functions at run time can call them; the version; and the symbols of the layout and of the minor versions. */
#define YARROWDOOR_DEFINE
#include "yarrowdoor.h"

const uint32_t yarrowdoor_abi_0 = 0;

/* one for each minor version so far */
const uint32_t yarrowdoor_0_1 = 0;

uint32_t yarrowdoor_version(void)
{
    return YARROWDOOR_VERSION;
}
