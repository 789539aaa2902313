/* Packets of the server with data of a peer. */
#ifndef INPUTS_H
#define INPUTS_H

#include <stddef.h>
#include <stdint.h>

/* A ChannelData message (RFC 8656, section 12.4) and a Data indication (section 11.6). The bytes of the payload differ. */
size_t write_channel_data(uint8_t *place, uint16_t number);
size_t write_data_indication(uint8_t *place, uint32_t ip, uint16_t port);

#endif
