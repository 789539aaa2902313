/* libre's client. It stands between its socket and its user as a helper: what is sent to a peer by udp_send gets its head there.
   The packets go to another helper beneath it, where they would else go to the socket, and the server's are passed to turnc_recv.
   Its timers are set, and never run. (turnc_send over UDP passes by the same helper once more, and so takes longer.) */
#include <re.h>

#include "bench.h"
#include "client.h"
#include <string.h>

/* Of ../shared, where the benches in Rattle call it. */
size_t bench_answer(const uint8_t *request, size_t len, uint8_t *room, size_t room_len);

/* The room before the payload: a Send indication's header, XOR-PEER-ADDRESS over IPv4, and the head of DATA. */
enum { ROOM = 36 };

/* Helpers of a higher layer are called first where a packet is sent. */
enum { CLIENT_LAYER = 0, WIRE_LAYER = -10 };

static struct udp_sock *sock;
static struct udp_helper *wire;
static struct turnc *client;
static struct sa server, peer, other, source, peers[CHANNELS];
static int bound;
/* A packet that is sent, one that is received, and an answer of the server. */
static struct mbuf *out, *in, *reply;
static size_t input_len;
static int is_done;

/* The packet that was sent last, and a request that the server has not answered. */
static const uint8_t *packet;
static size_t packet_len;
static int is_request;
static uint8_t request[1024];

static bool take_packet(int *err, struct sa *dst, struct mbuf *mb, void *arg)
{
    (void)err, (void)dst, (void)arg;
    packet = mbuf_buf(mb);
    packet_len = mbuf_get_left(mb);
    if (packet_len < sizeof request) {
        memcpy(request, packet, packet_len);
        is_request = 1;
    }
    return true;
}

/* Nothing comes from the socket. */
static bool receive_nothing(struct sa *src, struct mbuf *mb, void *arg)
{
    (void)src, (void)mb, (void)arg;
    return false;
}

static void drop_packet(const struct sa *src, struct mbuf *mb, void *arg)
{
    (void)src, (void)mb, (void)arg;
}

int client_has(enum task row)
{
    return row != POLL && row != TRANSMIT;
}

int client_keeps_channels(void)
{
    return 1;
}

void client_prepare(void)
{
    struct sa any;
    sa_set_in(&any, 0x7f000001, 0);
    sa_set_in(&server, SERVER_IP, SERVER_PORT);
    if (libre_init() || udp_listen(&sock, &any, drop_packet, NULL) ||
        udp_register_helper(&wire, sock, WIRE_LAYER, take_packet, receive_nothing, NULL)) {
        wrong("libre's socket");
    }
    out = mbuf_alloc(ROOM + PAYLOAD);
    in = mbuf_alloc(2048);
    reply = mbuf_alloc(256);
    if (!out || !in || !reply) {
        wrong("a buffer");
    }
}

/* Passes in the first bytes of a buffer. Its position is that of the data then. */
static uint64_t receive(struct mbuf *packet_in, size_t len)
{
    packet_in->pos = 0;
    packet_in->end = len;
    return turnc_recv(client, &source, packet_in) ? 0 : mbuf_get_left(packet_in);
}

/* Passes in what the server answers, until it is done. */
static void exchange(void)
{
    is_done = 0;
    while (is_request && !is_done) {
        is_request = 0;
        receive(reply, bench_answer(request, packet_len, reply->buf, reply->size));
    }
    if (!is_done) {
        wrong("a request");
    }
}

static void allocated(int err, uint16_t code, const char *reason, const struct sa *relayed, const struct sa *mapped,
                      const struct stun_msg *msg, void *arg)
{
    (void)reason, (void)mapped, (void)msg, (void)arg;
    is_done = !err && !code && sa_isset(relayed, SA_ALL);
}

static void granted(void *arg)
{
    (void)arg;
    is_done = 1;
}

void client_open(void)
{
    bound = 0;
    if (turnc_alloc(&client, NULL, IPPROTO_UDP, sock, CLIENT_LAYER, &server, "user", "pass", TURN_DEFAULT_LIFETIME,
                    allocated, NULL)) {
        wrong("a new client");
    }
    exchange();
}

void client_bind(uint32_t ip)
{
    struct sa to;
    sa_set_in(&to, ip, PORT);
    if (turnc_add_perm(client, &to, granted, NULL)) {
        wrong("a permission");
    }
    exchange();
    if (turnc_add_chan(client, &to, granted, NULL)) {
        wrong("a channel");
    }
    exchange();
    peers[bound++] = to;
}

void client_aim(uint32_t ip, uint16_t number)
{
    (void)number;
    sa_set_in(&peer, ip, PORT);
    sa_set_in(&other, ip, OTHER_PORT);
    memcpy(out->buf + ROOM, payload, PAYLOAD);
}

void client_input(const uint8_t *bytes, size_t len)
{
    memcpy(in->buf, bytes, len);
    input_len = len;
}

/* Sends the payload from where it lies, behind the room. */
static uint64_t send_in_place(const struct sa *to)
{
    out->pos = ROOM;
    out->end = ROOM + PAYLOAD;
    return udp_send(sock, to, out) ? 0 : packet_len;
}

uint64_t client_turn(enum task row)
{
    switch (row) {
    case FRAME_OUT:
        memcpy(out->buf + ROOM, payload, payload_len);
        return send_in_place(&peer);
    case FRAME_HEAD:
        return send_in_place(&peer);
    case AROUND_OUT:
        memcpy(out->buf + ROOM, payload, payload_len);
        return send_in_place(&peers[chosen]);
    case AROUND_HEAD:
        return send_in_place(&peers[chosen]);
    case SEND_OUT:
        memcpy(out->buf + ROOM, payload, payload_len);
        return send_in_place(&other);
    case SEND_HEAD:
        return send_in_place(&other);
    case AROUND_IN:
        write_16(in->buf, (uint16_t)(FIRST_CHANNEL + chosen));
        return receive(in, input_len);
    default:
        return receive(in, input_len);
    }
}

struct made client_made(enum task row)
{
    struct made made = {.head = packet, .head_len = packet_len};
    if (row == FRAME_IN || row == AROUND_IN || row == DATA_IN) {
        made.head = mbuf_buf(in);
        made.head_len = mbuf_get_left(in);
        made.ip = sa_in(&source);
        made.port = sa_port(&source);
    }
    return made;
}

void client_close(void)
{
    client = mem_deref(client);
    is_request = 0;
}
