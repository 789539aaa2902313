/* SPDX-License-Identifier: MIT OR Apache-2.0 */
/* What an address that is none, and an answer that was set to 0, look like. */
#ifndef YARROWDOOR_SHAPE_H
#define YARROWDOOR_SHAPE_H

#define YARROWDOOR_DEFINE
#include "yarrowdoor.h"

/* The proofs see no library: a client has some state, and the symbols of the layout are those of yarrowdoor.c. */
struct yarrowdoor {
    char state;
};
const uint32_t yarrowdoor_abi_0 = 0;
const uint32_t yarrowdoor_0_1 = 0;

#ifdef YARROWDOOR_ANY_SHAPE
/* Which address is none does not matter to what a call passes on. */
/*@ axiomatic Shape { predicate no_address(yarrowdoor_address a) reads \nothing; } */
#else
/*@ predicate no_address(yarrowdoor_address a) = a.family == 0 && a.port == 0 && a.flow == 0 && a.scope == 0 && a.reserved == 0 &&
      (\forall integer i; 0 <= i < 16 ==> a.ip[i] == 0); */
#endif

/*@ predicate cleared{L}(yarrowdoor_answer *a) = a->kind == 0 && a->error == 0 && a->time == 0 && a->len == 0 && a->start == 0 &&
      a->left == 0 && a->id == 0 && a->transport == 0 && a->family == 0 && a->icmp_data == 0 && a->icmp_type == 0 &&
      a->icmp_code == 0 && a->reserved == 0 && no_address(a->from) && no_address(a->to) && no_address(a->peer) &&
      a->reserved_places[0] == 0 && a->reserved_places[1] == 0;

    predicate same_address{L}(yarrowdoor_address *a, yarrowdoor_address *b) = a->family == b->family && a->port == b->port &&
      a->flow == b->flow && a->scope == b->scope && (\forall integer i; 0 <= i < 16 ==> a->ip[i] == b->ip[i]);
*/

#endif
