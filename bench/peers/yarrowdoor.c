/* This repository's client, through its library for C. */
#include "yarrowdoor.h"
#include "bench.h"
#include "client.h"
#include <string.h>

/* Of ../shared, where the benches in Rattle call it. */
size_t bench_answer(const uint8_t *request, size_t len, uint8_t *room, size_t room_len);

/* More than a client ever sends or waits for before it has nothing to do for ten seconds. */
enum { MANY = 1024 };
static const uint64_t REST = 10000000000, MILLISECOND = 1000000;

static yarrowdoor *client;
static yarrowdoor_address local, server, peer, other, peers[CHANNELS];
static int bound;
static uint64_t now;
static uint8_t packet[YARROWDOOR_MAX_PACKET], input[2048];
static size_t input_len;
static yarrowdoor_answer last;

static yarrowdoor_address address_of(uint32_t ip, uint16_t port)
{
    return yarrowdoor_ipv4((uint8_t)(ip >> 24), (uint8_t)(ip >> 16), (uint8_t)(ip >> 8), (uint8_t)ip, port);
}

int client_has(enum task row)
{
#ifdef HAS_SEND_HEAD
    return row < ROWS;
#else
    return row != FRAME_HEAD && row != AROUND_HEAD && row != SEND_HEAD;
#endif
}

int client_keeps_channels(void)
{
    return 1;
}

void client_prepare(void)
{
    local = address_of(LOCAL_IP, LOCAL_PORT);
    server = address_of(SERVER_IP, SERVER_PORT);
}

/* Sends what is due, and passes in what the server answers. */
static void exchange(void)
{
    uint8_t reply[256];
    while (yarrowdoor_poll_transmit(client, now, packet, sizeof packet, &last) == YARROWDOOR_PACKET) {
        size_t len = bench_answer(packet, last.len, reply, sizeof reply);
        yarrowdoor_recv(client, YARROWDOOR_UDP, &server, &local, reply, len, now, packet, sizeof packet, &last);
    }
}

/* Goes on until there is such an event. */
static void await(enum yarrowdoor_kind event)
{
    for (int i = 0; i < MANY; i++) {
        exchange();
        for (;;) {
            enum yarrowdoor_kind kind = yarrowdoor_poll_event(client, &last);
            if (kind == event) {
                return;
            }
            if (kind == YARROWDOOR_NOTHING) {
                break;
            }
        }
        yarrowdoor_poll(client, now, &last);
        now = last.time > now ? last.time : now + MILLISECOND;
    }
    wrong("a request");
}

void client_open(void)
{
    static const uint8_t seed[YARROWDOOR_SEED_LEN];
    yarrowdoor_settings settings = yarrowdoor_settings_of(YARROWDOOR_UDP, &local, &server);
    settings.request_cadence = YARROWDOOR_NO_PAUSE;
    if (yarrowdoor_new(&settings, (const uint8_t *)"user", 4, (const uint8_t *)"pass", 4, seed, sizeof seed, &client)) {
        wrong("a new client");
    }
    now = 0;
    bound = 0;
    await(YARROWDOOR_ALLOCATION_CREATED);
}

/* Goes on until the client has nothing to do for long. */
static void settle(void)
{
    for (int i = 0; i < MANY; i++) {
        exchange();
        while (yarrowdoor_poll_event(client, &last) != YARROWDOOR_NOTHING) {
        }
        if (yarrowdoor_poll(client, now, &last) == YARROWDOOR_WAIT_UNTIL && last.time > now + REST) {
            return;
        }
        now = last.time > now ? last.time : now + MILLISECOND;
    }
    wrong("a client that is never at rest");
}

void client_bind(uint32_t ip)
{
    yarrowdoor_address to = address_of(ip, PORT);
    if (yarrowdoor_bind_channel(client, YARROWDOOR_UDP, &to, now, &last) != YARROWDOOR_DONE) {
        wrong("a channel");
    }
    await(YARROWDOOR_CHANNEL_CREATED);
    settle();
    peers[bound++] = to;
}

void client_aim(uint32_t ip, uint16_t number)
{
    (void)number;
    peer = address_of(ip, PORT);
    other = address_of(ip, OTHER_PORT);
}

void client_input(const uint8_t *bytes, size_t len)
{
    memcpy(input, bytes, len);
    input_len = len;
}

static uint64_t send_out(const yarrowdoor_address *to, yarrowdoor_answer *answer)
{
    yarrowdoor_send_to(client, YARROWDOOR_UDP, to, payload, PAYLOAD, now, packet, sizeof packet, answer);
    return answer->len;
}

static uint64_t send_head(const yarrowdoor_address *to, yarrowdoor_answer *answer)
{
#ifdef HAS_SEND_HEAD
    yarrowdoor_send_head(client, YARROWDOOR_UDP, to, PAYLOAD, now, packet, sizeof packet, answer);
    return answer->len + PAYLOAD + answer->start; /* padding stands behind the payload */
#else
    (void)to, (void)answer;
    return 0;
#endif
}

static uint64_t receive(yarrowdoor_answer *answer)
{
    yarrowdoor_recv(client, YARROWDOOR_UDP, &server, &local, input, input_len, now, packet, sizeof packet, answer);
    return answer->len;
}

uint64_t client_turn(enum task row)
{
    switch (row) {
    case FRAME_OUT:
        return send_out(&peer, &last);
    case FRAME_HEAD:
        return send_head(&peer, &last);
    case AROUND_OUT:
        return send_out(&peers[chosen], &last);
    case AROUND_HEAD:
        return send_head(&peers[chosen], &last);
    case SEND_OUT:
        return send_out(&other, &last);
    case SEND_HEAD:
        return send_head(&other, &last);
    case AROUND_IN:
        write_16(input, (uint16_t)(FIRST_CHANNEL + chosen));
        return receive(&last);
    case FRAME_IN:
    case DATA_IN:
        return receive(&last);
    case POLL:
        return yarrowdoor_poll(client, now, &last) == YARROWDOOR_WAIT_UNTIL;
    default:
        return yarrowdoor_poll_transmit(client, now, packet, sizeof packet, &last) == YARROWDOOR_NOTHING;
    }
}

struct made client_made(enum task row)
{
    struct made made = {.head = packet, .head_len = last.len};
    if (row == FRAME_HEAD || row == AROUND_HEAD || row == SEND_HEAD) {
        made.body = payload; /* of a length that needs no padding */
        made.body_len = PAYLOAD;
    } else if (row == FRAME_IN || row == AROUND_IN || row == DATA_IN) {
        const uint8_t *ip = last.peer.ip;
        made.head = input + last.start;
        made.ip = (uint32_t)ip[0] << 24 | (uint32_t)ip[1] << 16 | (uint32_t)ip[2] << 8 | ip[3];
        made.port = last.peer.port;
    }
    return made;
}

void client_close(void)
{
    yarrowdoor_free(client);
}
