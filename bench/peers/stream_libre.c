/* usage: stream_libre SERVER_PORT PEER_PORT COUNT

   The stream of stream.c, by libre in its own loop. Its payload lies behind the room for a head, and is not copied. */
#include <re.h>

#include "stream.h"
#include <string.h>

/* The room before the payload, as libre.c has it. */
enum { ROOM = 36, LAYER = 0 };

static struct udp_sock *sock;
static struct turnc *client;
static struct sa server, peer;
static struct mbuf *out;
static struct tmr lost;
static uint32_t sent, echoed, count;

static void send_again(void *arg);

static void fill_window(void)
{
    while (sent < count && sent < echoed + WINDOW) {
        memcpy(out->buf + ROOM, &sent, sizeof sent);
        out->pos = ROOM;
        out->end = ROOM + STREAM_PAYLOAD;
        udp_send(sock, &peer, out);
        sent++;
    }
}

/* Also looks now and then whether nothing has come: a timer that is set anew for each packet would cost more. */
static void send_again(void *arg)
{
    static uint32_t before;
    (void)arg;
    if (echoed == before) {
        sent = echoed;
        fill_window();
    }
    before = echoed;
    tmr_start(&lost, LOST_AFTER_MS, send_again, NULL);
}

static void receive(const struct sa *from, struct mbuf *mb, void *arg)
{
    (void)arg;
    if (!sa_cmp(from, &peer, SA_ALL) || mbuf_get_left(mb) != STREAM_PAYLOAD) {
        return;
    }
    if (memcmp(mbuf_buf(mb), &echoed, sizeof echoed) == 0) {
        echoed++;
    } else {
        sent = echoed;
    }
    if (echoed == count) {
        re_cancel();
        return;
    }
    fill_window();
}

static void bound(void *arg)
{
    (void)arg;
    fill_window();
    tmr_start(&lost, LOST_AFTER_MS, send_again, NULL);
}

static void permitted(void *arg)
{
    (void)arg;
    if (turnc_add_chan(client, &peer, bound, NULL)) {
        stop("no channel");
    }
}

static void allocated(int err, uint16_t code, const char *reason, const struct sa *relayed, const struct sa *mapped,
                      const struct stun_msg *msg, void *arg)
{
    (void)reason, (void)relayed, (void)mapped, (void)msg, (void)arg;
    if (err || code || turnc_add_perm(client, &peer, permitted, NULL)) {
        stop("no allocation");
    }
}

int main(int argc, char **argv)
{
    struct sa any;
    if (argc != 4) {
        stop("usage: stream_libre SERVER_PORT PEER_PORT COUNT");
    }
    struct route route = read_route(argv + 1);
    count = (uint32_t)route.count;
    sa_set_in(&any, 0x7f000001, 0);
    sa_set_in(&server, 0x7f000001, (uint16_t)route.server_port);
    sa_set_in(&peer, 0x7f000001, (uint16_t)route.peer_port);
    tmr_init(&lost);
    if (libre_init() || udp_listen(&sock, &any, receive, NULL) || !(out = mbuf_alloc(ROOM + STREAM_PAYLOAD)) ||
        turnc_alloc(&client, NULL, IPPROTO_UDP, sock, LAYER, &server, "user", "pass", TURN_DEFAULT_LIFETIME, allocated,
                    NULL)) {
        stop("no client");
    }
    re_main(NULL);
    return 0;
}
