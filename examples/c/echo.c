/* usage: echo SERVER PORT USER PASSWORD PEER PORT TEXT

   Sends a text to a peer through a TURN server over UDP, prints what the peer sends back, deletes the allocation and
   ends. It is the whole caller of the library: a socket, a clock, and poll(2). docs/start/C.md says how to run it. */
#define _DEFAULT_SOURCE
#include <errno.h>
#include <netdb.h>
#include <poll.h>
#include <stdio.h>
#include <stdlib.h>
#include <string.h>
#include <time.h>
#include <unistd.h>
#include <yarrowdoor.h>

static yarrowdoor *client;
static int connection, is_echoed;
static yarrowdoor_address local, server, peer;
static const char *text;
/* When what is awaited is given up: the echo ten seconds after the text was sent, and then the end of the client. */
static uint64_t give_up = UINT64_MAX;
/* A packet to send, or the data of a packet that was received in pieces. */
static uint8_t buffer[YARROWDOOR_MAX_PACKET];

static void stop(const char *why)
{
    fprintf(stderr, "echo: %s\n", why);
    exit(1);
}

static uint64_t now(void)
{
    struct timespec t;
    clock_gettime(CLOCK_MONOTONIC, &t);
    return (uint64_t)t.tv_sec * 1000000000 + (uint64_t)t.tv_nsec;
}

static yarrowdoor_address resolve(const char *host, const char *port)
{
    struct addrinfo hints, *found;
    memset(&hints, 0, sizeof hints);
    hints.ai_socktype = SOCK_DGRAM;
    if (getaddrinfo(host, port, &hints, &found) != 0) {
        stop("no such address");
    }
    yarrowdoor_address address = yarrowdoor_of_sockaddr(found->ai_addr);
    freeaddrinfo(found);
    return address;
}

/* Opens the socket to the server. Its local address is the client's. */
static void open_connection(void)
{
    struct sockaddr_storage to, at;
    socklen_t to_len = yarrowdoor_to_sockaddr(&server, &to), len = sizeof at;
    connection = socket(to.ss_family, SOCK_DGRAM, 0);
    if (connection < 0 || connect(connection, (struct sockaddr *)&to, to_len) != 0 ||
        getsockname(connection, (struct sockaddr *)&at, &len) != 0) {
        stop(strerror(errno));
    }
    local = yarrowdoor_of_sockaddr((struct sockaddr *)&at);
}

static void make_client(const char *user, const char *password)
{
    uint8_t seed[YARROWDOOR_SEED_LEN];
    yarrowdoor_settings settings = yarrowdoor_settings_of(YARROWDOOR_UDP, &local, &server);
    settings.family = peer.family; /* the relayed address has the peer's IP version */
    /* a NAT forgets a path that is silent for a while, some after 30 s, and with it the server's way to this socket */
    settings.keepalive = 15000000000;
    /* grants are refreshed two and a half minutes before they expire, so that a link that is down for one loses none */
    settings.refresh_ahead = 150000000000;
    if (getentropy(seed, sizeof seed) != 0) {
        stop(strerror(errno));
    }
    uint32_t error = yarrowdoor_new(&settings, (const uint8_t *)user, strlen(user), (const uint8_t *)password,
                                    strlen(password), seed, sizeof seed, &client);
    if (error) {
        stop(error == YARROWDOOR_BAD_CREDENTIALS ? "no such user name or password" : "no client");
    }
}

/* A request that is lost, or that the socket does not take, is retransmitted by the client; data is not. */
static void send_packet(const yarrowdoor_answer *packet)
{
    if (send(connection, buffer, packet->len, 0) < 0) {
        fprintf(stderr, "echo: not sent: %s\n", strerror(errno));
    }
}

static void send_text(void)
{
    yarrowdoor_answer packet;
    size_t len = strlen(text) < 1000 ? strlen(text) : 1000;
    if (yarrowdoor_send_to(client, YARROWDOOR_UDP, &peer, (const uint8_t *)text, len, now(), buffer, sizeof buffer,
                           &packet) != YARROWDOOR_PACKET) {
        stop("the text cannot be sent");
    }
    send_packet(&packet);
    give_up = now() + 10000000000;
}

static void handle_event(const yarrowdoor_answer *event)
{
    yarrowdoor_answer answer;
    switch (event->kind) {
    case YARROWDOOR_ALLOCATION_CREATED:
        printf("relayed at port %d\n", event->peer.port);
        fflush(stdout);
        yarrowdoor_create_permission(client, YARROWDOOR_UDP, &peer, now(), &answer);
        break;
    case YARROWDOOR_PERMISSION_CREATED:
        send_text();
        break;
    case YARROWDOOR_ALLOCATION_CREATE_FAILED:
        stop("the server gives no relayed address");
        break;
    case YARROWDOOR_PERMISSION_CREATE_FAILED:
        stop("the server does not permit the peer");
        break;
    }
}

/* Prints what a peer sent, and lets the client go. */
static void handle_data(const uint8_t *data, size_t len)
{
    yarrowdoor_answer answer;
    printf("%.*s\n", (int)len, (const char *)data);
    is_echoed = 1;
    /* the server's answer ends the client, or 39.5 s without one; where it refuses to delete, nothing does */
    give_up = now() + 40000000000;
    yarrowdoor_delete(client, now(), &answer);
}

/* Sends what is due, handles what has happened, and returns the wake-up time. */
static uint64_t drive(void)
{
    yarrowdoor_answer answer;
    for (;;) {
        while (yarrowdoor_poll_transmit(client, now(), buffer, sizeof buffer, &answer) == YARROWDOOR_PACKET) {
            send_packet(&answer);
        }
        if (yarrowdoor_poll_event(client, &answer) != YARROWDOOR_NOTHING) {
            handle_event(&answer);
            continue;
        }
        /* data connections are not polled: only an allocation over TCP has them */
        uint32_t kind = yarrowdoor_poll(client, now(), &answer);
        if (kind == YARROWDOOR_WAIT_UNTIL && answer.time > now()) {
            return answer.time;
        }
        if (kind == YARROWDOOR_CLOSED) {
            yarrowdoor_free(client);
            if (!is_echoed) {
                stop("no answer, or a wrong user name or password");
            }
            exit(0);
        }
        if (kind == YARROWDOOR_OUT_OF_MEMORY) {
            stop("out of memory");
        }
    }
}

/* Names what the client passes over or tells without a reason: that a signed request was not authenticated, and the code of an
   error. Nobody has verified it: a caller with more at stake than this one waits for the client. */
static void name_error(const uint8_t *bytes, size_t len)
{
    static uint8_t challenge[12];
    static int is_challenged;
    static yarrowdoor_message said; /* initialised once, as all that is passed in has to be */
    if (yarrowdoor_read_message(YARROWDOOR_UDP, bytes, len, &said) != YARROWDOOR_MESSAGE || said.code == 0) {
        return;
    }
    if (said.code != 401) {
        fprintf(stderr, "echo: the server answers %d %.*s\n", said.code, (int)said.reason_len,
                (const char *)bytes + said.reason_at);
    } else if (!is_challenged) {
        is_challenged = 1;
        memcpy(challenge, said.id, sizeof challenge);
    } else if (memcmp(challenge, said.id, sizeof challenge) != 0) {
        stop("a wrong user name or password"); /* the 401 is to another request than the first */
    }
}

/* Waits for a packet of the server, up to a time. */
static void receive(uint64_t until)
{
    static uint8_t bytes[65536];
    struct pollfd one = {connection, POLLIN, 0};
    uint64_t start = now(), wait = until > start ? (until - start) / 1000000 + 1 : 0;
    yarrowdoor_answer answer;
    if (poll(&one, 1, wait < 3600000 ? (int)wait : 3600000) <= 0) {
        return;
    }
    ssize_t len = recv(connection, bytes, sizeof bytes, 0);
    if (len < 0) {
        fprintf(stderr, "echo: no answer: %s\n", strerror(errno));
        return;
    }
    name_error(bytes, (size_t)len);
    /* over UDP the data of a peer always lies in the bytes of one datagram */
    if (yarrowdoor_recv(client, YARROWDOOR_UDP, &server, &local, bytes, (size_t)len, now(), buffer, sizeof buffer,
                        &answer) == YARROWDOOR_PEER_DATA_RANGE) {
        handle_data(bytes + answer.start, answer.len);
    }
}

int main(int argc, char **argv)
{
    if (argc != 8) {
        stop("usage: echo SERVER PORT USER PASSWORD PEER PORT TEXT");
    }
    server = resolve(argv[1], argv[2]);
    peer = resolve(argv[5], argv[6]);
    text = argv[7];
    open_connection();
    make_client(argv[3], argv[4]);
    for (;;) {
        uint64_t until = drive();
        receive(until < give_up ? until : give_up);
        if (now() >= give_up) {
            stop(is_echoed ? "the server does not delete the allocation" : "the peer sent nothing back within 10 s");
        }
    }
}
