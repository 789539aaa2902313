/* The messages of coturn's client library. It keeps no channels, no permissions and no time: its caller does, so that what is
   measured here is less than what a client does. */
#include <turn/ns_turn_msg.h>

#include "bench.h"
#include "client.h"
#include <string.h>

/* Of ../shared, where the benches in Rattle call it. */
size_t bench_answer(const uint8_t *request, size_t len, uint8_t *room, size_t room_len);

static uint8_t packet[2048], reply[256];
static size_t packet_len, reply_len;
static ioa_addr other, source;
static uint16_t channel;
static const uint8_t *input, *found;
static size_t input_len, found_len;

int client_has(enum task row)
{
    return row == FRAME_OUT || row == FRAME_HEAD || row == FRAME_IN || row == SEND_OUT || row == DATA_IN;
}

int client_keeps_channels(void)
{
    return 0;
}

void client_prepare(void)
{
}

static void begin_allocate(void)
{
    stun_set_allocate_request_str(packet, &packet_len, 600, 0, 0, STUN_ATTRIBUTE_TRANSPORT_UDP_VALUE, 0, NULL, -1);
}

static void exchange(void)
{
    reply_len = bench_answer(packet, packet_len, reply, sizeof reply);
}

void client_open(void)
{
    static const uint8_t user[] = "user", pass[] = "pass";
    uint8_t reason[256], realm[STUN_MAX_REALM_SIZE + 1], nonce[STUN_MAX_NONCE_SIZE + 1],
        name[STUN_MAX_SERVER_NAME_SIZE + 1];
    int code, is_oauth = 0;
    ioa_addr relayed;
    begin_allocate();
    exchange();
    if (!stun_is_challenge_response_str(reply, reply_len, &code, reason, sizeof reason, realm, nonce, name,
                                        &is_oauth)) {
        wrong("a challenge");
    }
    begin_allocate();
    stun_attr_add_integrity_by_user_str(packet, &packet_len, user, realm, pass, nonce, SHATYPE_SHA1);
    exchange();
    if (!stun_is_success_response_str(reply, reply_len) ||
        stun_check_message_integrity_str(TURN_CREDENTIALS_LONG_TERM, reply, reply_len, user, realm, pass,
                                         SHATYPE_SHA1) < 1 ||
        stun_attr_get_first_addr_str(reply, reply_len, STUN_ATTRIBUTE_XOR_RELAYED_ADDRESS, &relayed, NULL) < 0) {
        wrong("an allocation");
    }
}

void client_bind(uint32_t ip)
{
    (void)ip;
}

void client_aim(uint32_t ip, uint16_t number)
{
    channel = number;
    memset(&other, 0, sizeof other);
    other.s4.sin_family = AF_INET;
    other.s4.sin_addr.s_addr = htonl(ip);
    other.s4.sin_port = htons(OTHER_PORT);
}

void client_input(const uint8_t *bytes, size_t len)
{
    input = bytes;
    input_len = len;
}

static uint64_t write_frame_head(void)
{
    return stun_init_channel_message_str(channel, packet, &packet_len, PAYLOAD, 0) < 0 ? 0 : packet_len;
}

static uint64_t write_send(void)
{
    stun_init_indication_str(STUN_METHOD_SEND, packet, &packet_len);
    if (stun_attr_add_addr_str(packet, &packet_len, STUN_ATTRIBUTE_XOR_PEER_ADDRESS, &other) < 0 ||
        stun_attr_add_str(packet, &packet_len, STUN_ATTRIBUTE_DATA, payload, PAYLOAD) < 0) {
        return 0;
    }
    return packet_len;
}

static uint64_t read_frame(void)
{
    uint16_t number;
    size_t len = input_len;
    if (!stun_is_channel_message_str(input, &len, &number, 0) || number != channel) {
        return 0;
    }
    found = input + 4;
    found_len = len - 4;
    return found_len;
}

static uint64_t read_data(void)
{
    if (!stun_is_indication_str(input, input_len) || stun_get_method_str(input, input_len) != STUN_METHOD_DATA ||
        stun_attr_get_first_addr_str(input, input_len, STUN_ATTRIBUTE_XOR_PEER_ADDRESS, &source, NULL) < 0) {
        return 0;
    }
    stun_attr_ref data = stun_attr_get_first_by_type_str(input, input_len, STUN_ATTRIBUTE_DATA);
    found = stun_attr_get_value(data);
    found_len = (size_t)stun_attr_get_len(data);
    return found_len;
}

uint64_t client_turn(enum task row)
{
    switch (row) {
    case FRAME_OUT:
        memcpy(packet + 4, payload, payload_len);
        return write_frame_head();
    case FRAME_HEAD:
        return write_frame_head();
    case FRAME_IN:
        return read_frame();
    case SEND_OUT:
        return write_send();
    default:
        return read_data();
    }
}

struct made client_made(enum task row)
{
    struct made made = {.head = packet, .head_len = packet_len};
    if (row == FRAME_IN || row == DATA_IN) {
        made.head = found;
        made.head_len = found_len;
        made.ip = row == DATA_IN ? ntohl(source.s4.sin_addr.s_addr) : 0;
        made.port = row == DATA_IN ? ntohs(source.s4.sin_port) : 0;
    }
    return made;
}

void client_close(void)
{
}
