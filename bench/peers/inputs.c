/* Packets of the server with data of a peer. */
#include "inputs.h"
#include "bench.h"
#include "client.h"
#include <string.h>

static const uint32_t COOKIE = 0x2112a442;

static void write_payload(uint8_t *place)
{
    for (size_t i = 0; i < PAYLOAD; i++) {
        place[i] = (uint8_t)(7 * i + 3);
    }
}

static void write_32(uint8_t *place, uint32_t value)
{
    write_16(place, (uint16_t)(value >> 16));
    write_16(place + 2, (uint16_t)value);
}

size_t write_channel_data(uint8_t *place, uint16_t number)
{
    write_16(place, number);
    write_16(place + 2, PAYLOAD);
    write_payload(place + 4);
    return 4 + PAYLOAD;
}

size_t write_data_indication(uint8_t *place, uint32_t ip, uint16_t port)
{
    static const uint8_t peer_head[] = {0x00, 0x12, 0x00, 0x08, 0x00, 0x01}, data_head[] = {0x00, 0x13};
    write_header(place, 0x0017, 12 + 4 + PAYLOAD, 1);
    memcpy(place + 20, peer_head, sizeof peer_head);
    write_16(place + 26, port ^ (uint16_t)(COOKIE >> 16));
    write_32(place + 28, ip ^ COOKIE);
    memcpy(place + 32, data_head, sizeof data_head);
    write_16(place + 34, PAYLOAD);
    write_payload(place + 36);
    return 36 + PAYLOAD;
}
