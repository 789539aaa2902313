/* usage: fields

   Makes bad requests of every kind between the calls of an exchange. Each has to be answered by the named refusal, and
   to leave the client as it was: a second client, which gets the exchange alone, answers the same to the end. */
#include "exchange.h"
#include "hex.h"
#include "yarrowdoor.h"
#include <stdio.h>
#include <stdlib.h>

enum { BUFFER = 65556, DRAWS = 20000 };

static uint8_t buffer[BUFFER + 65600], other_buffer[BUFFER + 65600];
static uint8_t payload[65600];
static unsigned long checks;

static void fail(const char *what, uint32_t found, uint32_t want)
{
    fprintf(stderr, "fields: %s: answered %u, not %u\n", what, (unsigned)found, (unsigned)want);
    exit(1);
}

static void check(const char *what, uint32_t found, uint32_t want)
{
    checks++;
    if (found != want) {
        fail(what, found, want);
    }
}

/* A generator of numbers, the same each time (xorshift). */
static uint64_t draw(void)
{
    static uint64_t state = 0x9e3779b97f4a7c15u;
    state ^= state << 13;
    state ^= state >> 7;
    state ^= state << 17;
    return state;
}

/* Where the memory of a request held other bytes, each that is not named is 0. */
static void begun(void)
{
    yarrowdoor_request r, bare;
    memset(&bare, 0, sizeof bare);
    bare.kind = YARROWDOOR_CALL_POLL;
    bare.time = 7;
    memset(&r, 0xee, sizeof r);
    yarrowdoor_begin(&r, YARROWDOOR_CALL_POLL, 7);
    check("a request that was begun", memcmp(&r, &bare, sizeof r) != 0, 0);
}

/* A request that lacks nothing. */
static yarrowdoor_request whole(uint32_t kind)
{
    yarrowdoor_request r = yarrowdoor_request_of(kind, 100000000);
    r.from = r.to = r.peer = yarrowdoor_ipv4(10, 0, 0, 3, 9000);
    return r;
}

/* What a bad request is answered. All of the answer but its kind has to stay as it was. */
static void refused(yarrowdoor *client, const yarrowdoor_request *r, size_t len, size_t buffer_len, uint32_t want,
                    const char *what)
{
    yarrowdoor_answer answer, bare;
    memset(&answer, 0xee, sizeof answer);
    memset(&bare, 0xee, sizeof bare);
    bare.kind = want;
    memset(buffer, 0xdd, 256);
    check(what, yarrowdoor_call(client, r, payload, len, buffer, buffer_len, &answer), want);
    if (memcmp(&answer, &bare, sizeof bare) != 0) {
        fail("the other fields of a refusal", answer.kind, want);
    }
    for (int i = 0; i < 256; i++) {
        if (buffer[i] != 0xdd) {
            fail("the buffer of a refusal", buffer[i], 0xdd);
        }
    }
}

/* The addresses that a request of this kind needs. */
static int needs(uint32_t kind, yarrowdoor_request *r, yarrowdoor_address *fields[4])
{
    int count = 0;
    switch (kind) {
    case YARROWDOOR_CALL_CREATE_PERMISSION:
    case YARROWDOOR_CALL_BIND_CHANNEL:
    case YARROWDOOR_CALL_TCP_CONNECT:
    case YARROWDOOR_CALL_SEND_TO:
    case YARROWDOOR_CALL_HAVE_PERMISSION:
    case YARROWDOOR_CALL_SET_PERMISSION_KEPT:
    case YARROWDOOR_CALL_SET_CHANNEL_KEPT:
    case YARROWDOOR_CALL_SEND_HEAD:
        fields[count++] = &r->peer;
        break;
    case YARROWDOOR_CALL_ALLOCATED_TCP_SOCKET:
        fields[count++] = &r->peer;
        fields[count++] = &r->from;
        fields[count++] = &r->to;
        break;
    case YARROWDOOR_CALL_TCP_CLOSED:
    case YARROWDOOR_CALL_RECV:
        fields[count++] = &r->from;
        fields[count++] = &r->to;
        break;
    case YARROWDOOR_CALL_PERMISSIONS:
        fields[count++] = &r->from;
        break;
    default:
        break;
    }
    return count;
}

static int has_transport(uint32_t kind)
{
    return kind == YARROWDOOR_CALL_CREATE_PERMISSION || kind == YARROWDOOR_CALL_BIND_CHANNEL ||
           kind == YARROWDOOR_CALL_ALLOCATED_TCP_SOCKET || kind == YARROWDOOR_CALL_SEND_TO ||
           kind == YARROWDOOR_CALL_RECV || kind == YARROWDOOR_CALL_PERMISSIONS ||
           kind == YARROWDOOR_CALL_HAVE_PERMISSION || kind == YARROWDOOR_CALL_SET_PERMISSION_KEPT ||
           kind == YARROWDOOR_CALL_SET_CHANNEL_KEPT || kind == YARROWDOOR_CALL_SEND_HEAD;
}

static void bad_times_and_kinds(yarrowdoor *client)
{
    static const uint64_t late[] = {((uint64_t)1 << 62) + 1, (uint64_t)1 << 63, UINT64_MAX};
    for (uint32_t kind = 0; kind < 40; kind++) {
        for (int i = 0; i < 3; i++) {
            yarrowdoor_request r = whole(kind);
            r.time = late[i];
            refused(client, &r, 0, BUFFER, YARROWDOOR_BAD_TIME, "a late time");
        }
    }
    for (int i = 0; i < DRAWS; i++) {
        uint32_t kind = (uint32_t)draw();
        yarrowdoor_request r = whole(kind <= YARROWDOOR_CALL_ABANDON ? 0 : kind);
        refused(client, &r, 0, BUFFER, YARROWDOOR_BAD_CALL, "a kind of no call");
    }
    for (uint32_t kind = YARROWDOOR_CALL_ABANDON + 1; kind < 300; kind++) {
        yarrowdoor_request r = whole(kind);
        refused(client, &r, 0, BUFFER, YARROWDOOR_BAD_CALL, "a kind of no call");
    }
}

static void bad_addresses(yarrowdoor *client)
{
    for (uint32_t kind = 1; kind <= YARROWDOOR_CALL_ABANDON; kind++) {
        yarrowdoor_request r = whole(kind);
        yarrowdoor_address *fields[4];
        int count = needs(kind, &r, fields);
        for (int field = 0; field < count; field++) {
            for (int family = 0; family < 256; family++) {
                fields[field]->family = (uint8_t)family;
                if (family != 4 && family != 6) {
                    refused(client, &r, 0, BUFFER, YARROWDOOR_BAD_CALL, "an address of no family");
                }
            }
            fields[field]->family = 4;
        }
        for (uint32_t i = 2; has_transport(kind) && i < 100; i++) {
            r.transport = i < 50 ? i : 2 + (uint32_t)draw() % (UINT32_MAX - 2);
            refused(client, &r, 0, BUFFER, YARROWDOOR_BAD_CALL, "a transport of no kind");
        }
    }
    for (int family = 1; family < 256; family++) {
        yarrowdoor_request r = whole(YARROWDOOR_CALL_ALLOCATED_TCP_SOCKET);
        r.local.family = (uint8_t)family;
        if (family != 4 && family != 6) {
            refused(client, &r, 0, BUFFER, YARROWDOOR_BAD_CALL, "a local address of no family");
        }
    }
}

/* Each reserved byte that a call reads, and no other number than 0 and 1 for what is kept. */
static void bad_reserved(yarrowdoor *client)
{
    for (uint32_t kind = 1; kind <= YARROWDOOR_CALL_ABANDON; kind++) {
        yarrowdoor_request r = whole(kind);
        yarrowdoor_address *fields[4];
        int count = needs(kind, &r, fields);
        for (int bit = 0; bit < 32; bit++) {
            r.reserved = (uint32_t)1 << bit;
            refused(client, &r, 0, BUFFER, YARROWDOOR_BAD_CALL, "a reserved field");
        }
        r.reserved = 0;
        for (int field = 0; field < count; field++) {
            for (int value = 1; value < 256; value++) {
                fields[field]->reserved = (uint8_t)value;
                refused(client, &r, 0, BUFFER, YARROWDOOR_BAD_CALL, "a reserved byte of an address");
            }
            fields[field]->reserved = 0;
        }
    }
    yarrowdoor_request r = whole(YARROWDOOR_CALL_ALLOCATED_TCP_SOCKET);
    r.local.reserved = 1;
    refused(client, &r, 0, BUFFER, YARROWDOOR_BAD_CALL, "a reserved byte of no local address");
    for (uint32_t id = 2; id < 300; id++) {
        r = whole(id % 2 ? YARROWDOOR_CALL_SET_PERMISSION_KEPT : YARROWDOOR_CALL_SET_CHANNEL_KEPT);
        r.id = id < 290 ? id : (uint32_t)1 << (id - 270);
        refused(client, &r, 0, BUFFER, YARROWDOOR_BAD_CALL, "neither kept nor let go");
    }
}

/* A call that only looks: kinds that do not are refused, and so is what a call refuses. */
static void bad_looks(const yarrowdoor *client)
{
    for (uint32_t kind = 0; kind < 300; kind++) {
        yarrowdoor_request r = whole(kind);
        yarrowdoor_answer answer, bare;
        memset(&answer, 0xee, sizeof answer);
        memset(&bare, 0xee, sizeof bare);
        if ((kind >= YARROWDOOR_CALL_RELAYED_ADDRESSES && kind <= YARROWDOOR_CALL_HAVE_PERMISSION) ||
            kind == YARROWDOOR_CALL_NEXT_PERMISSION) {
            r.reserved = 1;
        }
        bare.kind = YARROWDOOR_BAD_CALL;
        check("a look that is none", yarrowdoor_look(client, &r, &answer), YARROWDOOR_BAD_CALL);
        r.time = YARROWDOOR_MAX_TIME + 1;
        if (memcmp(&answer, &bare, sizeof bare) != 0) {
            fail("the other fields of a look that is none", answer.kind, YARROWDOOR_BAD_CALL);
        }
        check("a late look", yarrowdoor_look(client, &r, &answer), YARROWDOOR_BAD_TIME);
    }
}

static void bad_sizes(yarrowdoor *client)
{
    for (size_t size = 0; size <= 70; size++) {
        for (size_t len = 0; len <= 70; len++) {
            yarrowdoor_request r = whole(YARROWDOOR_CALL_SEND_TO);
            if (size < len + YARROWDOOR_MAX_OVERHEAD) {
                refused(client, &r, len, size, YARROWDOOR_SMALL_BUFFER, "a small buffer for data");
            }
        }
    }
    yarrowdoor_request r = whole(YARROWDOOR_CALL_SEND_TO);
    refused(client, &r, 65505, sizeof buffer, YARROWDOOR_BAD_PAYLOAD, "65,505 bytes for a peer");
    refused(client, &r, 65504, 65504 + YARROWDOOR_MAX_OVERHEAD - 1, YARROWDOOR_SMALL_BUFFER, "65,504 bytes");
    r = whole(YARROWDOOR_CALL_SEND_HEAD);
    refused(client, &r, 65505, BUFFER, YARROWDOOR_BAD_PAYLOAD, "a head of 65,505 bytes");
    refused(client, &r, SIZE_MAX, BUFFER, YARROWDOOR_BAD_PAYLOAD, "a head of as many bytes as a number can say");
    for (size_t size = 0; size < YARROWDOOR_MAX_OVERHEAD; size++) {
        refused(client, &r, 5, size, YARROWDOOR_SMALL_BUFFER, "a small buffer for a head");
    }
}

static void bad_requests(yarrowdoor *client)
{
    bad_times_and_kinds(client);
    bad_addresses(client);
    bad_reserved(client);
    bad_looks(client);
    bad_sizes(client);
}

static uint32_t new_client(yarrowdoor_settings *settings, size_t user_len, size_t password_len, size_t seed_len,
                           yarrowdoor **client)
{
    static uint8_t long_user[600], seed[64];
    memset(long_user, 'u', sizeof long_user);
    return yarrowdoor_new(settings, user_len == 4 ? (const uint8_t *)"user" : long_user, user_len,
                          password_len == 4 ? (const uint8_t *)"pass" : payload, password_len, seed, seed_len, client);
}

static void no_client(yarrowdoor_settings *settings, size_t user_len, size_t password_len, size_t seed_len,
                      uint32_t want)
{
    yarrowdoor *place = (yarrowdoor *)buffer;
    check("a new client", new_client(settings, user_len, password_len, seed_len, &place), want);
    if (place != (yarrowdoor *)buffer) {
        fail("the place of no client", 0, 1);
    }
}

static void bad_settings(const yarrowdoor_settings *good)
{
    static const size_t offsets[] = {
        offsetof(yarrowdoor_settings, transport), offsetof(yarrowdoor_settings, allocation_transport),
        offsetof(yarrowdoor_settings, family),    offsetof(yarrowdoor_settings, other_family),
        offsetof(yarrowdoor_settings, algorithm), offsetof(yarrowdoor_settings, other_algorithm),
        offsetof(yarrowdoor_settings, anonymous),
    };
    for (size_t i = 0; i < sizeof offsets / sizeof *offsets; i++) {
        for (int n = 0; n < 200; n++) {
            yarrowdoor_settings s = *good;
            uint32_t value = n < 100 ? 7 + (uint32_t)n : 7 + (uint32_t)draw() % (UINT32_MAX - 7);
            memcpy((char *)&s + offsets[i], &value, sizeof value);
            no_client(&s, 4, 4, 32, YARROWDOOR_BAD_SETTINGS);
        }
    }
    /* each bit of each reserved byte */
    for (size_t at = 0; at < sizeof(yarrowdoor_settings); at++) {
        int is_reserved = at >= offsetof(yarrowdoor_settings, reserved_places) ||
                          at == offsetof(yarrowdoor_settings, local) + offsetof(yarrowdoor_address, reserved) ||
                          at == offsetof(yarrowdoor_settings, remote) + offsetof(yarrowdoor_address, reserved);
        for (int bit = 0; is_reserved && bit < 8; bit++) {
            yarrowdoor_settings s = *good;
            ((uint8_t *)&s)[at] = (uint8_t)(1 << bit);
            no_client(&s, 4, 4, 32, YARROWDOOR_BAD_SETTINGS);
        }
    }
    yarrowdoor_settings s = *good;
    for (uint32_t value = 2; value <= UINT16_MAX; value++) {
        s.timed_from_send = (uint16_t)value;
        no_client(&s, 4, 4, 32, YARROWDOOR_BAD_SETTINGS);
    }
    s = *good;
    s.allocation_transport = YARROWDOOR_TCP;
    no_client(&s, 4, 4, 32, YARROWDOOR_BAD_SETTINGS);
    s = *good;
    s.local.family = 0;
    no_client(&s, 4, 4, 32, YARROWDOOR_BAD_SETTINGS);
    s = *good;
    s.remote.family = 5;
    no_client(&s, 4, 4, 32, YARROWDOOR_BAD_SETTINGS);
    s = *good;
    no_client(&s, 0, 4, 32, YARROWDOOR_BAD_CREDENTIALS);
    no_client(&s, 509, 4, 32, YARROWDOOR_BAD_CREDENTIALS);
    no_client(&s, 4, 65536, 32, YARROWDOOR_BAD_CREDENTIALS);
    for (size_t len = 0; len <= 64; len++) {
        if (len != 32) {
            no_client(&s, 4, 4, len, YARROWDOOR_BAD_SEED);
        }
    }
    s.family = 0;
    no_client(&s, 0, 4, 0, YARROWDOOR_BAD_SETTINGS);
}

/* Two clients that get the same calls, of which the first gets bad requests between them. */
static yarrowdoor *teased, *plain;

/* Makes a call of both. Their answers and bytes have to be the same. Returns the kind. */
static uint32_t both(const yarrowdoor_request *r, const uint8_t *bytes, size_t len, size_t buffer_len)
{
    yarrowdoor_answer a, b;
    bad_requests(teased);
    memset(&a, 0, sizeof a);
    memset(&b, 0, sizeof b);
    memset(buffer, 0, buffer_len);
    memset(other_buffer, 0, buffer_len);
    yarrowdoor_call(teased, r, bytes, len, buffer, buffer_len, &a);
    yarrowdoor_call(plain, r, bytes, len, other_buffer, buffer_len, &b);
    if (memcmp(&a, &b, sizeof a) != 0 || memcmp(buffer, other_buffer, buffer_len) != 0) {
        fail("a call after bad requests", a.kind, b.kind);
    }
    checks++;
    return a.kind;
}

static uint32_t call_both(uint32_t kind, uint64_t now)
{
    yarrowdoor_request r = yarrowdoor_request_of(kind, now);
    r.peer = yarrowdoor_ipv4(10, 0, 0, 3, 9000);
    r.from = yarrowdoor_ipv4(10, 0, 0, 4, 40000);
    return both(&r, (const uint8_t *)"hello",
                kind == YARROWDOOR_CALL_SEND_TO || kind == YARROWDOOR_CALL_SEND_HEAD ? 5 : 0, BUFFER);
}

/* The head of so many bytes of data, of which there are none, and the packet of one client with the data: both clients have
   sent alike before, so head, data and padding have to be the packet. */
static void head_alike(size_t len, uint64_t now)
{
    yarrowdoor_answer head, packet;
    yarrowdoor_address peer = yarrowdoor_ipv4(10, 0, 0, 3, 9000);
    static const uint8_t zeros[3];
    memset(buffer, 0xdd, YARROWDOOR_MAX_OVERHEAD);
    check("a head",
          yarrowdoor_send_head(teased, YARROWDOOR_UDP, &peer, len, now, buffer, YARROWDOOR_MAX_OVERHEAD, &head),
          YARROWDOOR_PACKET);
    check(
        "a packet",
        yarrowdoor_send_to(plain, YARROWDOOR_UDP, &peer, payload, len, now, other_buffer, sizeof other_buffer, &packet),
        YARROWDOOR_PACKET);
    check("the length of a head", (uint32_t)(head.len + len + head.start), (uint32_t)packet.len);
    check("a head", (uint32_t)(memcmp(buffer, other_buffer, head.len) != 0), 0);
    check("the data behind it", (uint32_t)(memcmp(other_buffer + head.len, payload, len) != 0), 0);
    check("the padding", head.start > 3 || memcmp(other_buffer + head.len + len, zeros, head.start) != 0, 0);
    for (size_t i = head.len; i < YARROWDOOR_MAX_OVERHEAD; i++) {
        check("a byte behind a head", buffer[i], 0xdd);
    }
    packet.len = head.len;
    packet.start = head.start;
    check("the other fields of a head", (uint32_t)(memcmp(&head, &packet, sizeof head) != 0), 0);
}

static void heads(uint64_t now)
{
    memset(payload, 0xaa, sizeof payload);
    for (size_t len = 0; len < 300; len++) {
        head_alike(len, now);
    }
    for (size_t len = 65500; len <= YARROWDOOR_MAX_PAYLOAD; len++) {
        head_alike(len, now);
    }
    memset(payload, 0, sizeof payload);
}

/* What looks says what the call says. */
static void looks_alike(uint32_t kind)
{
    yarrowdoor_answer a, b;
    yarrowdoor_request r = whole(kind);
    r.from = yarrowdoor_ipv4(10, 0, 0, 4, 40000);
    memset(&a, 0xee, sizeof a);
    memset(&b, 0xee, sizeof b);
    check("a look", yarrowdoor_look(plain, &r, &a), yarrowdoor_call(plain, &r, payload, 0, buffer, 0, &b));
    if (memcmp(&a, &b, sizeof a) != 0 || a.kind < YARROWDOOR_ADDRESS || a.kind > YARROWDOOR_NO) {
        fail("a look and a call", a.kind, b.kind);
    }
}

static uint32_t receive_both(const yarrowdoor_settings *s, int packet, uint64_t now)
{
    uint8_t bytes[256];
    size_t len = decode(RECEIVED[packet], bytes);
    yarrowdoor_request r = yarrowdoor_request_of(YARROWDOOR_CALL_RECV, now);
    r.from = s->remote;
    r.to = s->local;
    return both(&r, bytes, len, BUFFER);
}

static void exchange(const yarrowdoor_settings *s)
{
    uint64_t now = 0;
    check("ALLOCATE", call_both(YARROWDOOR_CALL_POLL_TRANSMIT, now), YARROWDOOR_PACKET);
    check("challenge", receive_both(s, 0, now), YARROWDOOR_HANDLED);
    now = 50000000;
    check("ALLOCATE again", call_both(YARROWDOOR_CALL_POLL_TRANSMIT, now), YARROWDOOR_PACKET);
    check("success", receive_both(s, 1, now), YARROWDOOR_HANDLED);
    check("event", call_both(YARROWDOOR_CALL_POLL_EVENT, now), YARROWDOOR_ALLOCATION_CREATED);
    check("permission", call_both(YARROWDOOR_CALL_CREATE_PERMISSION, now), YARROWDOOR_DONE);
    now = 100000000;
    check("CREATE_PERMISSION", call_both(YARROWDOOR_CALL_POLL_TRANSMIT, now), YARROWDOOR_PACKET);
    check("success", receive_both(s, 2, now), YARROWDOOR_HANDLED);
    check("event", call_both(YARROWDOOR_CALL_POLL_EVENT, now), YARROWDOOR_PERMISSION_CREATED);
    check("data in", receive_both(s, 3, now), YARROWDOOR_PEER_DATA_RANGE);
    check("data out", call_both(YARROWDOOR_CALL_SEND_TO, now), YARROWDOOR_PACKET);
    check("a head", call_both(YARROWDOOR_CALL_SEND_HEAD, now), YARROWDOOR_PACKET);
    heads(now);
    check("relayed", call_both(YARROWDOOR_CALL_RELAYED_ADDRESSES, now), YARROWDOOR_ADDRESS);
    check("permissions", call_both(YARROWDOOR_CALL_PERMISSIONS, now), YARROWDOOR_ADDRESS);
    check("have", call_both(YARROWDOOR_CALL_HAVE_PERMISSION, now), YARROWDOOR_YES);
    looks_alike(YARROWDOOR_CALL_RELAYED_ADDRESSES);
    looks_alike(YARROWDOOR_CALL_PERMISSIONS);
    looks_alike(YARROWDOOR_CALL_HAVE_PERMISSION);
    check("let go", call_both(YARROWDOOR_CALL_SET_PERMISSION_KEPT, now), YARROWDOOR_DONE);
    check("no channel", call_both(YARROWDOOR_CALL_SET_CHANNEL_KEPT, now), YARROWDOOR_REFUSED);
    check("read", call_both(YARROWDOOR_CALL_READ, now), YARROWDOOR_BYTES);
    check("delete", call_both(YARROWDOOR_CALL_DELETE, now), YARROWDOOR_DONE);
    check("poll", call_both(YARROWDOOR_CALL_POLL, now), YARROWDOOR_WAIT_UNTIL);
    check("end", call_both(YARROWDOOR_CALL_PROTOCOL_ERROR, now), YARROWDOOR_DONE);
    check("poll", call_both(YARROWDOOR_CALL_POLL, now), YARROWDOOR_CLOSED);
}

/* Returns what a client with this limit of challenges says once its first two requests were each challenged. */
static uint32_t challenged_twice(const yarrowdoor_settings *good, uint16_t limit)
{
    yarrowdoor_settings s = *good;
    yarrowdoor_answer answer;
    yarrowdoor *client;
    uint8_t bytes[256];
    size_t len = decode(RECEIVED[0], bytes);
    s.max_stale_nonces = limit;
    check("a new client", new_client(&s, 4, 4, 32, &client), 0);
    for (uint64_t now = 0; now <= 50000000; now += 50000000) {
        check("ALLOCATE", yarrowdoor_poll_transmit(client, now, buffer, BUFFER, &answer), YARROWDOOR_PACKET);
        memcpy(bytes + 8, buffer + 8, 12); /* the transaction ID of the request */
        bytes[27] = now == 0 ? 1 : 38;     /* a 401, and then a 438 */
        check("challenge",
              yarrowdoor_recv(client, YARROWDOOR_UDP, &s.remote, &s.local, bytes, len, now, buffer, BUFFER, &answer),
              YARROWDOOR_HANDLED);
    }
    yarrowdoor_poll_event(client, &answer);
    yarrowdoor_free(client);
    return answer.kind;
}

/* The first packet of a client in a buffer of this size, and the rest: the same bytes as in a large one. */
static void small_packets(const yarrowdoor_settings *s, size_t size)
{
    yarrowdoor_answer whole_answer, answer;
    yarrowdoor *first, *second;
    check("a new client", new_client((yarrowdoor_settings *)s, 4, 4, 32, &first), 0);
    check("a new client", new_client((yarrowdoor_settings *)s, 4, 4, 32, &second), 0);
    check("a packet", yarrowdoor_poll_transmit(first, 0, buffer, BUFFER, &whole_answer), YARROWDOOR_PACKET);
    check("no rest of it", (uint32_t)whole_answer.left, 0);
    check("a packet", yarrowdoor_poll_transmit(second, 0, other_buffer, size, &answer), YARROWDOOR_PACKET);
    size_t len = answer.len;
    while (answer.left > 0) {
        check("before the rest", yarrowdoor_poll_transmit(second, 0, other_buffer + len, size, &answer),
              YARROWDOOR_UNREAD_BYTES);
        check("the rest", yarrowdoor_read(second, other_buffer + len, size ? size : 1, &answer), YARROWDOOR_BYTES);
        len += answer.len;
    }
    check("the length", (uint32_t)len, (uint32_t)whole_answer.len);
    check("the bytes", (uint32_t)(memcmp(buffer, other_buffer, len) != 0), 0);
    yarrowdoor_free(first);
    yarrowdoor_free(second);
}

/* When a client with these times asks to be called again, after its first packet. */
static uint64_t second_time(const yarrowdoor_settings *good, uint64_t cadence)
{
    yarrowdoor_settings s = *good;
    yarrowdoor_answer answer;
    yarrowdoor *client;
    uint8_t bytes[256];
    size_t len = decode(RECEIVED[0], bytes);
    s.request_cadence = cadence;
    check("a new client", new_client(&s, 4, 4, 32, &client), 0);
    check("ALLOCATE", yarrowdoor_poll_transmit(client, 0, buffer, BUFFER, &answer), YARROWDOOR_PACKET);
    check("challenge",
          yarrowdoor_recv(client, YARROWDOOR_UDP, &s.remote, &s.local, bytes, len, 1000, buffer, BUFFER, &answer),
          YARROWDOOR_HANDLED);
    check("poll", yarrowdoor_poll(client, 1000, &answer), YARROWDOOR_WAIT_UNTIL);
    uint64_t time = answer.time;
    yarrowdoor_free(client);
    return time;
}

/* When a client with these times sends a packet after its allocation, to keep the path or to refresh it: the seconds of it. */
static uint64_t idle_until(const yarrowdoor_settings *good, uint64_t keepalive, uint64_t refresh_ahead)
{
    yarrowdoor_settings s = *good;
    yarrowdoor_answer answer;
    yarrowdoor *client;
    uint8_t bytes[256];
    s.keepalive = keepalive;
    s.refresh_ahead = refresh_ahead;
    check("a new client", new_client(&s, 4, 4, 32, &client), 0);
    for (int packet = 0; packet < 2; packet++) {
        uint64_t now = (uint64_t)packet * 50000000;
        check("ALLOCATE", yarrowdoor_poll_transmit(client, now, buffer, BUFFER, &answer), YARROWDOOR_PACKET);
        check("answer",
              yarrowdoor_recv(client, YARROWDOOR_UDP, &s.remote, &s.local, bytes, decode(RECEIVED[packet], bytes), now,
                              buffer, BUFFER, &answer),
              YARROWDOOR_HANDLED);
    }
    check("event", yarrowdoor_poll_event(client, &answer), YARROWDOOR_ALLOCATION_CREATED);
    /* after the pause that follows the last packet, for which a client also asks to be called */
    check("poll", yarrowdoor_poll(client, 100000000, &answer), YARROWDOOR_WAIT_UNTIL);
    uint64_t time = answer.time;
    yarrowdoor_free(client);
    return time / 1000000000;
}

/* Where a length is 0 the pointer before it may be null, to each export. */
static void null_pointers(const yarrowdoor_settings *s)
{
    const uint8_t *name = (const uint8_t *)"user";
    yarrowdoor_request r = yarrowdoor_request_of(YARROWDOOR_CALL_POLL_TRANSMIT, 0);
    yarrowdoor_answer answer;
    yarrowdoor *client = NULL;
    check("no user name", yarrowdoor_new(s, NULL, 0, name, 4, payload, 32, &client), YARROWDOOR_BAD_CREDENTIALS);
    check("no seed", yarrowdoor_new(s, name, 4, name, 4, NULL, 0, &client), YARROWDOOR_BAD_SEED);
    check("no client", client != NULL, 0);
    check("no password", yarrowdoor_new(s, name, 4, NULL, 0, payload, 32, &client), 0);
    yarrowdoor_clear(&answer);
    check("no buffer", yarrowdoor_call(client, &r, NULL, 0, NULL, 0, &answer), YARROWDOOR_PACKET);
    check("nothing in no buffer", answer.len == 0 && answer.left > 0, 1);
    check("all of it", yarrowdoor_read(client, buffer, BUFFER, &answer), YARROWDOOR_BYTES);
    check("an empty datagram",
          yarrowdoor_recv(client, YARROWDOOR_UDP, &s->remote, &s->local, NULL, 0, 0, NULL, 0, &answer),
          YARROWDOOR_IGNORED);
    yarrowdoor_free(client);
    yarrowdoor_free(NULL);
}

int main(void)
{
    yarrowdoor_address local = yarrowdoor_ipv4(192, 168, 0, 1, 1000), remote = yarrowdoor_ipv4(10, 0, 0, 2, 2000);
    yarrowdoor_settings settings = yarrowdoor_settings_of(YARROWDOOR_UDP, &local, &remote);
    begun();
    bad_settings(&settings);
    check("a new client", new_client(&settings, 4, 4, 32, &teased), 0);
    check("a new client", new_client(&settings, 4, 4, 32, &plain), 0);
    check("a challenge more than the limit", challenged_twice(&settings, 1), YARROWDOOR_ALLOCATION_CREATE_FAILED);
    check("as many challenges as the limit", challenged_twice(&settings, 2), YARROWDOOR_NOTHING);
    check("the default limit", challenged_twice(&settings, 0), YARROWDOOR_NOTHING);
    check("the usual limit", challenged_twice(&settings, settings.max_stale_nonces), YARROWDOOR_NOTHING);
    check("the usual limit", settings.max_stale_nonces, 256);
    check("timed from the first packet", settings.timed_from_send, 1);
    for (size_t size = 0; size < 200; size++) {
        small_packets(&settings, size);
    }
    /* so long after the first packet, which was sent at 0 */
    check("the usual pause", (uint32_t)second_time(&settings, settings.request_cadence), 5000000);
    check("the default pause", (uint32_t)second_time(&settings, 0), 50000000);
    check("a pause of 7 ms", (uint32_t)second_time(&settings, 7000000), 7000000);
    check("no pause", (uint32_t)second_time(&settings, YARROWDOOR_NO_PAUSE), 0);
    /* the lifetime is 1,000 s, from 50 ms on, when the last packet was sent */
    check("refreshed a minute before", (uint32_t)idle_until(&settings, 0, 0), 1000 - 60);
    check("refreshed 100 s before", (uint32_t)idle_until(&settings, 0, (uint64_t)100000000000), 1000 - 100);
    check("refreshed a second before", (uint32_t)idle_until(&settings, 0, 1), 1000 - 1);
    check("kept alive", (uint32_t)idle_until(&settings, (uint64_t)15000000000, 0), 15);
    check("kept alive each second", (uint32_t)idle_until(&settings, 1, 0), 1);
    null_pointers(&settings);
    check("the version", yarrowdoor_version(), YARROWDOOR_VERSION);
    exchange(&settings);
    yarrowdoor_free(teased);
    yarrowdoor_free(plain);
    printf("fields: %lu checks passed\n", checks);
    return 0;
}
