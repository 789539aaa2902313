/* SPDX-License-Identifier: MIT OR Apache-2.0 */
/* A library over the library, as an agent for ICE is. */
#include "user.h"
#include "yarrowdoor.h"

size_t user(void)
{
    static const uint8_t seed[32] = {1};
    uint8_t packet[1500] = {0};
    yarrowdoor_address local = yarrowdoor_ipv4(10, 0, 0, 1, 1000), server = yarrowdoor_ipv4(10, 0, 0, 2, 3478);
    yarrowdoor_settings settings = yarrowdoor_settings_of(YARROWDOOR_UDP, &local, &server);
    yarrowdoor_answer answer;
    yarrowdoor *client;
    size_t len = 0;
    if (yarrowdoor_new(&settings, (const uint8_t *)"user", 4, (const uint8_t *)"pass", 4, seed, sizeof seed, &client)) {
        return 0;
    }
    if (yarrowdoor_poll_transmit(client, 0, packet, sizeof packet, &answer) == YARROWDOOR_PACKET) {
        len = answer.len;
    }
    yarrowdoor_free(client);
    return len;
}
