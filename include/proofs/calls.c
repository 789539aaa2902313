/* SPDX-License-Identifier: MIT OR Apache-2.0 */
/* For WP: the functions that make a call pass on their arguments, and nothing else. */
#define YARROWDOOR_ANY_SHAPE
#include "contracts.h"
