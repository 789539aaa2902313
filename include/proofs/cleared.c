/* SPDX-License-Identifier: MIT OR Apache-2.0 */
/* For Eva: what yarrowdoor_begin and yarrowdoor_clear set, whatever the memory held before, and that they set nothing beside it.
   The numbers that yarrowdoor_begin sets are those of its arguments by WP (contracts.h). */
#include "__fc_builtin.h"
#include "shape.h"

int main(void)
{
    yarrowdoor_request requests[3];
    yarrowdoor_answer answers[3];
    uint64_t now = Frama_C_unsigned_long_interval(0, ~0UL);
    uint32_t kind = Frama_C_unsigned_int_interval(0, ~0U);
    if (Frama_C_interval(0, 1)) { /* else they are not initialised */
        Frama_C_make_unknown((char *)requests, sizeof requests);
        Frama_C_make_unknown((char *)answers, sizeof answers);
    }
    requests[0].local.reserved = 7;
    requests[2].time = 9;
    answers[0].reserved_places[1] = 7;
    answers[2].kind = 9;
    yarrowdoor_begin(&requests[1], kind, now);
    /*@ assert addresses: no_address(requests[1].from) && no_address(requests[1].to) &&
          no_address(requests[1].peer) && no_address(requests[1].local); */
    /*@ assert numbers: requests[1].id == 0 && requests[1].transport == 0 && requests[1].reserved == 0; */
    /*@ assert nothing_else: requests[0].local.reserved == 7 && requests[2].time == 9; */
    yarrowdoor_clear(&answers[1]);
    /*@ assert answer: cleared(&answers[1]); */
    /*@ assert nothing_else: answers[0].reserved_places[1] == 7 && answers[2].kind == 9; */
    return 0;
}
