/* usage: fuzz [COUNT], or with -DYARROWDOOR_FUZZER -fsanitize=fuzzer the options of libFuzzer

   Makes calls of a client by the bytes of an input, and answers its requests as a server does, signed or not, so that they
   reach what is granted. Whatever the bytes are, each answer is one that the header has for the call, no byte is written behind
   a buffer, and places and lengths lie in what was passed in. Without libFuzzer it draws COUNT inputs (20,000), the same each
   time. */
#include "sha1.h"
#include "yarrowdoor.h"

#include <stdio.h>
#include <stdlib.h>

enum { GUARD = 32, MOST = 65556, SECOND = 1000000000 };

struct input {
    const uint8_t *at;
    size_t left;
};

struct run {
    yarrowdoor *client;
    yarrowdoor_settings settings;
    yarrowdoor_address peer, data_local;
    uint64_t now;
    uint64_t unread;    /* bytes of an answer that are left */
    uint8_t sent[1500]; /* the last packet that fits */
    size_t sent_len;
    uint32_t connection; /* the number of the connection that was last offered */
};

static uint8_t buffer[MOST + 512 + GUARD];

static void expect(int holds, const char *what)
{
    if (!holds) {
        fprintf(stderr, "fuzz: %s\n", what);
        abort();
    }
}

static uint8_t take(struct input *in)
{
    if (in->left == 0) {
        return 0;
    }
    in->left--;
    return *in->at++;
}

/* So many bytes, or what is left, in memory of their own, so that a sanitizer sees what is read behind them. */
static uint8_t *take_bytes(struct input *in, size_t *len)
{
    uint8_t *bytes;
    *len = *len < in->left ? *len : in->left;
    bytes = malloc(*len ? *len : 1);
    if (!bytes) {
        abort();
    }
    if (*len) {
        memcpy(bytes, in->at, *len);
    }
    in->at += *len;
    in->left -= *len;
    return bytes;
}

/* Sets an answer, and what lies behind the buffer, to bytes that nothing leaves there. */
static void prepare(yarrowdoor_answer *answer, size_t room)
{
    memset(answer, 0xee, sizeof *answer);
    memset(buffer + room, 0xa5, GUARD);
}

/* What holds of each answer: it is one of so many kinds, and its reserved bytes are 0. */
static void expect_answer(uint32_t kind, const yarrowdoor_answer *answer, size_t room, const uint32_t *kinds,
                          size_t count)
{
    size_t place;
    int is_known = kind == YARROWDOOR_OUT_OF_MEMORY;
    for (place = 0; place < GUARD; place++) {
        expect(buffer[room + place] == 0xa5, "a byte is written behind the buffer");
    }
    for (place = 0; place < count; place++) {
        is_known |= kind == kinds[place];
    }
    expect(is_known, "a call answers by a kind that is not its own");
    expect(kind == answer->kind, "a call returns another kind than it answers");
    expect(answer->reserved == 0 && answer->reserved_places[0] == 0 && answer->reserved_places[1] == 0,
           "reserved bytes are not 0");
    expect(answer->from.reserved == 0 && answer->to.reserved == 0 && answer->peer.reserved == 0,
           "reserved bytes of an address are not 0");
    expect(strcmp(yarrowdoor_kind_name(kind), "no kind") != 0, "a kind has no name");
    expect((kind == YARROWDOOR_REFUSED) == (answer->error != 0), "an error without a refusal, or none with it");
}

#define EXPECT(kind, answer, room, ...)                                                                                \
    do {                                                                                                               \
        static const uint32_t kinds[] = {__VA_ARGS__};                                                                 \
        expect_answer(kind, answer, room, kinds, sizeof kinds / sizeof kinds[0]);                                      \
    } while (0)

/* What is left of an answer is read before another one may leave anything. */
static void expect_unread(struct run *run, uint32_t kind, const yarrowdoor_answer *answer, size_t room)
{
    expect((kind == YARROWDOOR_UNREAD_BYTES) == (run->unread != 0), "bytes are unread, or are not");
    if (kind == YARROWDOOR_PACKET || kind == YARROWDOOR_PEER_DATA) {
        expect(answer->len <= room && (answer->left == 0 || answer->len == room), "a buffer that is not filled");
        run->unread = answer->left;
    }
}

static void pass_in(struct run *run, const uint8_t *bytes, size_t len, const yarrowdoor_address *to, size_t room)
{
    yarrowdoor_answer answer;
    uint32_t kind;
    prepare(&answer, room);
    kind = yarrowdoor_recv(run->client, run->settings.transport, &run->settings.remote, to, bytes, len, run->now,
                           buffer, room, &answer);
    EXPECT(kind, &answer, room, YARROWDOOR_HANDLED, YARROWDOOR_IGNORED, YARROWDOOR_PEER_DATA,
           YARROWDOOR_PEER_DATA_RANGE, YARROWDOOR_PEER_ICMP, YARROWDOOR_UNREAD_BYTES);
    expect_unread(run, kind, &answer, room);
    if (kind == YARROWDOOR_PEER_DATA_RANGE) {
        expect(answer.start <= len && answer.len <= len - answer.start, "data outside of the bytes passed in");
    }
}

static void transmit(struct run *run, size_t room)
{
    yarrowdoor_answer answer;
    uint32_t kind;
    prepare(&answer, room);
    kind = yarrowdoor_poll_transmit(run->client, run->now, buffer, room, &answer);
    EXPECT(kind, &answer, room, YARROWDOOR_PACKET, YARROWDOOR_NOTHING, YARROWDOOR_UNREAD_BYTES);
    expect_unread(run, kind, &answer, room);
    if (kind == YARROWDOOR_PACKET && answer.left == 0 && answer.len <= sizeof run->sent && answer.len >= 20) {
        memcpy(run->sent, buffer, answer.len);
        run->sent_len = answer.len;
    }
}

/* An answer to the last packet: a challenge, or a success, signed by the MD5 of `user:realm:pass`. */
static void serve(struct run *run, struct input *in, int is_challenge)
{
    static const uint8_t key[16] = {0x84, 0x93, 0xfb, 0xc5, 0x3b, 0xa5, 0x82, 0xfb,
                                    0x4c, 0x04, 0x4c, 0x45, 0x6b, 0xdc, 0x40, 0xeb};
    static const uint8_t challenge[] = {0,   9,   0,   4, 0, 0, 4, 1,    0, 0x14, 0,   5, 'r', 'e',
                                        'a', 'l', 'm', 0, 0, 0, 0, 0x15, 0, 1,    'n', 0, 0,   0};
    /* LIFETIME of 600 s, XOR-RELAYED-ADDRESS of 10.0.0.4:40000, and a CONNECTION-ID */
    static const uint8_t granted[] = {0,    0x0d, 0,    4,    0,    0,    2, 0x58, 0, 0x16, 0, 8, 0, 1,
                                      0xbd, 0x52, 0x2b, 0x12, 0xa4, 0x46, 0, 0x2a, 0, 4,    0, 0, 0, 1};
    uint8_t text[20 + sizeof granted + 24 + 512];
    size_t len = 20, body = is_challenge ? sizeof challenge : sizeof granted, behind;
    uint8_t *more, code = take(in);
    if (run->sent_len == 0) {
        return;
    }
    memcpy(text, run->sent, 20);
    text[0] |= 1;
    text[1] |= is_challenge ? 0x10 : 0;
    memcpy(text + len, is_challenge ? challenge : granted, body);
    if (is_challenge && code & 1) {
        text[27] = 38;
    }
    len += body;
    text[2] = 0;
    text[3] = (uint8_t)(len - 20 + (is_challenge ? 0 : 24));
    if (!is_challenge) {
        memcpy(text + len, "\0\x08\0\x14", 4);
        hmac_sha1(key, sizeof key, text, len, text + len + 4);
        len += 24;
    }
    /* a stream may have more behind it */
    behind = code & 2 && run->settings.transport == YARROWDOOR_TCP ? (size_t)take(in) * 2 : 0;
    more = take_bytes(in, &behind);
    memcpy(text + len, more, behind);
    free(more);
    pass_in(run, text, len + behind, code & 4 ? &run->data_local : &run->settings.local, code & 8 ? 8 : 4096);
}

static void receive(struct run *run, struct input *in, int is_answer)
{
    uint8_t flags = take(in), *bytes;
    size_t len = take(in) | (size_t)(flags & 3) << 8;
    bytes = take_bytes(in, &len);
    if (is_answer && len >= 20 && run->sent_len) {
        memcpy(bytes + 4, run->sent + 4, 16);
    } else if (!is_answer && len >= 4 && flags & 16) {
        /* ChannelData over the first channel */
        bytes[0] = 0x40;
        bytes[1] = 0;
        bytes[2] = (uint8_t)((len - 4) >> 8);
        bytes[3] = (uint8_t)(len - 4);
    }
    pass_in(run, bytes, len, flags & 4 ? &run->data_local : &run->settings.local, flags & 8 ? 8 : 4096);
    free(bytes);
}

/* What says something of bytes that nobody verified. */
static void hint(struct input *in)
{
    yarrowdoor_message said;
    size_t len = take(in), start = 1, value = 1;
    uint8_t *bytes = take_bytes(in, &len);
    uint32_t transport = len & 1, kind, found;
    memset(&said, 0xee, sizeof said);
    kind = yarrowdoor_read_message(transport, bytes, len, &said);
    expect(kind == said.kind, "a message of another kind than was returned");
    expect(kind == YARROWDOOR_MESSAGE || kind == YARROWDOOR_CHANNEL_DATA || kind == YARROWDOOR_NO_FRAME ||
               (kind == YARROWDOOR_NOTHING && transport == YARROWDOOR_TCP),
           "a kind that is no message's");
    expect(said.len <= len, "a frame that is longer than the bytes");
    expect(said.reason_at <= len && said.reason_len <= len - said.reason_at, "a reason outside of the bytes");
    expect(said.realm_at <= len && said.realm_len <= len - said.realm_at, "a realm outside of the bytes");
    found = yarrowdoor_read_attribute(bytes, len, (uint16_t)(len ? bytes[len / 2] : 0), &start, &value);
    expect(found == YARROWDOOR_YES || (found == YARROWDOOR_NO && start == 0 && value == 0),
           "an attribute that is none");
    expect(start <= len && value <= len - start, "an attribute outside of the bytes");
    free(bytes);
}

static void send_data(struct run *run, struct input *in)
{
    yarrowdoor_answer answer;
    size_t len = take(in), room = len + YARROWDOOR_MAX_OVERHEAD - (take(in) & 1);
    uint8_t *data = take_bytes(in, &len);
    uint32_t kind;
    prepare(&answer, room);
    kind = yarrowdoor_send_to(run->client, run->settings.allocation_transport, &run->peer, data, len, run->now, buffer,
                              room, &answer);
    EXPECT(kind, &answer, room, YARROWDOOR_PACKET, YARROWDOOR_REFUSED, YARROWDOOR_SMALL_BUFFER);
    expect(kind != YARROWDOOR_OUT_OF_MEMORY, "a call that takes no memory has none");
    expect((kind == YARROWDOOR_SMALL_BUFFER) == (room < len + YARROWDOOR_MAX_OVERHEAD),
           "a buffer is too small, or is not");
    expect(kind != YARROWDOOR_PACKET || (answer.len <= room && answer.left == 0), "a packet that does not fit");
    free(data);
}

/* A head of data that is not there, so the sanitizer sees whether a byte of it is read. */
static void send_head(struct run *run, struct input *in)
{
    yarrowdoor_answer answer;
    size_t len = take(in), room = YARROWDOOR_MAX_OVERHEAD - (take(in) & 1);
    uint32_t kind;
    prepare(&answer, room);
    kind = yarrowdoor_send_head(run->client, run->settings.allocation_transport, &run->peer, len, run->now, buffer,
                                room, &answer);
    EXPECT(kind, &answer, room, YARROWDOOR_PACKET, YARROWDOOR_REFUSED, YARROWDOOR_SMALL_BUFFER);
    expect(kind != YARROWDOOR_OUT_OF_MEMORY, "a call that takes no memory has none");
    expect((kind == YARROWDOOR_SMALL_BUFFER) == (room < YARROWDOOR_MAX_OVERHEAD), "a buffer is too small, or is not");
    expect(kind != YARROWDOOR_PACKET || (answer.len <= 48 && answer.start <= 3 && answer.left == 0),
           "a head that is too long");
}

static void read_rest(struct run *run, size_t room)
{
    yarrowdoor_answer answer;
    uint32_t kind;
    prepare(&answer, room);
    kind = yarrowdoor_read(run->client, buffer, room, &answer);
    EXPECT(kind, &answer, room, YARROWDOOR_BYTES, YARROWDOOR_NOTHING);
    if (kind == YARROWDOOR_BYTES) {
        expect(answer.len <= room && answer.len + answer.left == run->unread, "bytes are lost");
        run->unread = answer.left;
    }
}

static void poll_data(struct run *run, size_t room)
{
    yarrowdoor_answer answer;
    uint32_t kind;
    prepare(&answer, room);
    kind = yarrowdoor_poll_recv(run->client, run->now, buffer, room, &answer);
    EXPECT(kind, &answer, room, YARROWDOOR_PEER_DATA, YARROWDOOR_NOTHING, YARROWDOOR_UNREAD_BYTES);
    expect_unread(run, kind, &answer, room);
}

/* Gives the client up, as far as nothing is to be read: it has ended then, and sends nothing more. */
static void give_up(struct run *run, size_t room)
{
    yarrowdoor_answer answer;
    uint32_t kind;
    prepare(&answer, room);
    kind = yarrowdoor_abandon(run->client, run->now, buffer, room, &answer);
    EXPECT(kind, &answer, room, YARROWDOOR_PACKET, YARROWDOOR_NOTHING, YARROWDOOR_UNREAD_BYTES);
    expect_unread(run, kind, &answer, room);
    if (kind == YARROWDOOR_PACKET || kind == YARROWDOOR_NOTHING) {
        while (yarrowdoor_poll_event(run->client, &answer) != YARROWDOOR_NOTHING) {
        }
        expect(yarrowdoor_poll(run->client, run->now, &answer) == YARROWDOOR_CLOSED,
               "a client that was given up goes on");
        expect(yarrowdoor_relayed_address(run->client, 0, &answer) == YARROWDOOR_NOTHING,
               "a grant of a client that was given up");
    }
}

/* The calls of a caller that asks for something. */
static void request(struct run *run, uint8_t which)
{
    const uint32_t relayed = run->settings.allocation_transport;
    yarrowdoor *client = run->client;
    yarrowdoor_answer answer;
    uint32_t kind;
    prepare(&answer, 0);
    /* each call in a line of its own */
    /* clang-format off */
    switch (which % 8) {
    case 0: kind = yarrowdoor_create_permission(client, relayed, &run->peer, run->now, &answer); break;
    case 1: kind = yarrowdoor_bind_channel(client, relayed, &run->peer, run->now, &answer); break;
    case 2: kind = yarrowdoor_tcp_connect(client, &run->peer, run->now, &answer); break;
    case 3:
        kind = yarrowdoor_allocated_tcp_socket(client, run->connection, YARROWDOOR_TCP, &run->settings.local,
                                               &run->settings.remote, &run->peer, which & 8 ? NULL : &run->data_local,
                                               run->now, &answer);
        break;
    case 4: kind = yarrowdoor_set_permission_kept(client, relayed, &run->peer, which >> 3 & 1, &answer); break;
    case 5: kind = yarrowdoor_set_channel_kept(client, relayed, &run->peer, which >> 3 & 1, &answer); break;
    case 6: kind = yarrowdoor_tcp_closed(client, &run->data_local, &run->settings.remote, run->now, &answer); break;
    default:
        kind = which == 255 ? yarrowdoor_protocol_error(client, &answer) : yarrowdoor_delete(client, run->now, &answer);
    }
    /* clang-format on */
    EXPECT(kind, &answer, 0, YARROWDOOR_DONE, YARROWDOOR_REFUSED);
    expect(answer.error <= YARROWDOOR_ERROR_NOT_GRANTED, "an error that is none");
}

/* The permissions from a cursor on, which moves on with each of them. */
static void list(struct run *run, uint8_t which)
{
    static const yarrowdoor_address nowhere;
    const yarrowdoor_address relayed = yarrowdoor_ipv4(10, 0, 0, 4, 40000);
    uint32_t cursor = which >> 3 == 31 ? UINT32_MAX : which >> 3, kind;
    do {
        yarrowdoor_answer answer;
        prepare(&answer, 0);
        kind = yarrowdoor_next_permission(run->client, run->settings.allocation_transport, &relayed, cursor, &answer);
        EXPECT(kind, &answer, 0, YARROWDOOR_ADDRESS, YARROWDOOR_NOTHING);
        expect(kind == YARROWDOOR_NOTHING || answer.id > cursor, "a cursor that does not move on");
        cursor = answer.id;
        expect(yarrowdoor_next_permission(run->client, run->settings.allocation_transport, &nowhere, cursor, &answer) ==
                   YARROWDOOR_BAD_CALL,
               "permissions of no address");
    } while (kind == YARROWDOOR_ADDRESS);
}

/* The calls that tell something. */
static void look(struct run *run, uint8_t which)
{
    yarrowdoor_answer answer;
    uint32_t kind;
    prepare(&answer, 0);
    switch (which % 5) {
    case 0:
        kind = yarrowdoor_relayed_address(run->client, which >> 2 & 1, &answer);
        EXPECT(kind, &answer, 0, YARROWDOOR_ADDRESS, YARROWDOOR_NOTHING);
        break;
    case 1:
        kind = yarrowdoor_have_permission(run->client, run->settings.allocation_transport, &run->peer, &answer);
        EXPECT(kind, &answer, 0, YARROWDOOR_YES, YARROWDOOR_NO);
        break;
    case 2:
        kind = yarrowdoor_poll_event(run->client, &answer);
        EXPECT(kind, &answer, 0, YARROWDOOR_NOTHING, YARROWDOOR_ALLOCATION_CREATED, YARROWDOOR_ALLOCATION_CREATE_FAILED,
               YARROWDOOR_PERMISSION_CREATED, YARROWDOOR_PERMISSION_CREATE_FAILED, YARROWDOOR_CHANNEL_CREATED,
               YARROWDOOR_CHANNEL_CREATE_FAILED, YARROWDOOR_TCP_CONNECTED, YARROWDOOR_TCP_CONNECT_FAILED);
        break;
    case 3:
        list(run, which);
        break;
    default:
        kind = yarrowdoor_poll(run->client, run->now, &answer);
        EXPECT(kind, &answer, 0, YARROWDOOR_WAIT_UNTIL, YARROWDOOR_ALLOCATE_TCP_SOCKET, YARROWDOOR_TCP_CLOSE,
               YARROWDOOR_CLOSED);
        if (kind == YARROWDOOR_ALLOCATE_TCP_SOCKET) {
            run->connection = answer.id;
        }
    }
}

static void step(struct run *run, struct input *in)
{
    static const size_t rooms[] = {0, 8, 1500, MOST};
    uint8_t what = take(in);
    size_t room = rooms[what >> 4 & 3];
    run->now += (uint64_t)(what >> 6) * take(in) * (SECOND / 10);
    /* each call in a line of its own */
    /* clang-format off */
    switch (what % 16) {
    case 0: case 1: transmit(run, room); break;
    case 2: case 3: serve(run, in, 0); break;
    case 4: serve(run, in, 1); break;
    case 5: receive(run, in, 0); break;
    case 6: receive(run, in, 1); break;
    case 7: hint(in); break;
    case 8: (take(in) & 1 ? send_head : send_data)(run, in); break;
    case 9: read_rest(run, room); break;
    case 10: poll_data(run, room); break;
    case 11: case 12: request(run, take(in)); break;
    case 13:
        /* seldom, since nothing happens behind it */
        what = take(in);
        if (what >= 240) {
            give_up(run, room);
        } else {
            look(run, what);
        }
        break;
    default: look(run, take(in));
    }
    /* clang-format on */
}

/* A request that is granted, or challenged. */
static void grant(struct run *run, int is_challenge, uint8_t code)
{
    struct input in;
    in.at = &code;
    in.left = 1;
    run->now += SECOND / 10;
    transmit(run, 1500);
    serve(run, &in, is_challenge);
}

/* An allocation, and by the flags a channel, or over TCP a data connection to the peer. */
static void open_allocation(struct run *run, int is_more)
{
    grant(run, 1, 0);
    grant(run, 0, 0);
    if (!is_more) {
        return;
    }
    request(run, run->settings.allocation_transport == YARROWDOOR_TCP ? 0 : 1);
    grant(run, 0, 0);
    grant(run, 0, 0);
    if (run->settings.allocation_transport == YARROWDOOR_TCP) {
        request(run, 2);
        grant(run, 0, 0);
        look(run, 2); /* events come before what poll asks for */
        look(run, 2);
        look(run, 2);
        look(run, 3);
        request(run, 3);
        grant(run, 0, 4);
    }
}

int LLVMFuzzerTestOneInput(const uint8_t *bytes, size_t len)
{
    static const uint8_t seed[YARROWDOOR_SEED_LEN];
    const yarrowdoor_address local = yarrowdoor_ipv4(192, 168, 0, 1, 1000), server = yarrowdoor_ipv4(10, 0, 0, 2, 2000);
    struct input in = {bytes, len};
    const uint8_t flags = take(&in);
    struct run run;
    memset(&run, 0, sizeof run);
    run.settings = yarrowdoor_settings_of(flags & 1, &local, &server);
    run.settings.allocation_transport = flags & 1 && flags & 2;
    run.settings.other_family = flags & 4 ? YARROWDOOR_IPV6 : 0;
    run.settings.other_algorithm = flags & 8 ? YARROWDOOR_SHA256 : 0;
    run.settings.request_cadence = flags & 16 ? YARROWDOOR_NO_PAUSE : 0;
    run.settings.keepalive = flags & 32 ? SECOND : 0;
    run.peer = yarrowdoor_ipv4(10, 0, 0, 3, 9000);
    run.data_local = yarrowdoor_ipv4(192, 168, 0, 1, 1001);
    if (yarrowdoor_new(&run.settings, (const uint8_t *)"user", 4, (const uint8_t *)"pass", 4, seed, sizeof seed,
                       &run.client)) {
        abort();
    }
    if (flags & 64) {
        open_allocation(&run, flags & 128);
    }
    while (in.left) {
        step(&run, &in);
    }
    yarrowdoor_free(run.client);
    return 0;
}

#ifndef YARROWDOOR_FUZZER
int main(int count, char **words)
{
    static uint8_t drawn[512];
    uint64_t state = 0x9e3779b97f4a7c15u;
    long number, most = count > 1 ? strtol(words[1], NULL, 10) : 20000;
    for (number = 0; number < most; number++) {
        size_t place, len = 0;
        for (place = 0; place < sizeof drawn; place++) {
            state ^= state << 13; /* xorshift */
            state ^= state >> 7;
            state ^= state << 17;
            drawn[place] = (uint8_t)(state >> 32);
        }
        len = 1 + (size_t)(state % sizeof drawn);
        LLVMFuzzerTestOneInput(drawn, len);
    }
    printf("fuzz: %ld inputs\n", most);
    return 0;
}
#endif
