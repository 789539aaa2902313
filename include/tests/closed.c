/* SPDX-License-Identifier: MIT OR Apache-2.0 */
/* A data connection that was closed before its CONNECTION_BIND left: with timed_from_send no packet is given for it any more. Without,
   one still is after YARROWDOOR_TCP_CLOSE, from its own address, by which a caller knows that it is to be dropped, as the header says;
   and none after that. */
#include "server.h"
#include "yarrowdoor.h"
#include <stdio.h>
#include <stdlib.h>

enum { CONNECTION_BIND = 0x0b, TRIES = 1000 };

static const uint64_t PAUSE = 50000000;

static yarrowdoor *client;
static yarrowdoor_settings settings;
static yarrowdoor_answer answer;
static yarrowdoor_address local, server, peer, data_local;
static uint64_t now;
static uint8_t packet[2048];

static void check(int is_right, const char *what)
{
    if (!is_right) {
        printf("%s, at %lu ns\n", what, (unsigned long)now);
        exit(1);
    }
}

/* Sends the request that is due, and passes in the answer. */
static void exchange(void)
{
    uint8_t text[ANSWER_ROOM];
    size_t len;
    check(yarrowdoor_poll_transmit(client, now, packet, sizeof packet, &answer) == YARROWDOOR_PACKET, "no request");
    len = write_answer(packet, answer.len, text);
    check(yarrowdoor_recv(client, YARROWDOOR_TCP, &server, &local, text, len, now, packet, sizeof packet, &answer) ==
              YARROWDOOR_HANDLED,
          "an answer that is not handled");
    now += PAUSE;
    while (yarrowdoor_poll_event(client, &answer) != YARROWDOOR_NOTHING) {
    }
}

/* An allocation over TCP, and a data connection that was opened, whose CONNECTION_BIND waits in the queue. */
static void open_connection(uint16_t timed_from_send)
{
    static const uint8_t seed[32];
    settings = yarrowdoor_settings_of(YARROWDOOR_TCP, &local, &server);
    settings.allocation_transport = YARROWDOOR_TCP;
    settings.timed_from_send = timed_from_send;
    check(yarrowdoor_new(&settings, (const uint8_t *)"user", 4, (const uint8_t *)"pass", 4, seed, sizeof seed,
                         &client) == 0,
          "new");
    exchange();
    exchange();
    check(yarrowdoor_create_permission(client, YARROWDOOR_TCP, &peer, now, &answer) == YARROWDOOR_DONE, "a permission");
    exchange();
    check(yarrowdoor_tcp_connect(client, &peer, now, &answer) == YARROWDOOR_DONE, "tcp_connect");
    exchange();
    check(yarrowdoor_poll(client, now, &answer) == YARROWDOOR_ALLOCATE_TCP_SOCKET, "an offer");
    check(yarrowdoor_allocated_tcp_socket(client, answer.id, YARROWDOOR_TCP, &local, &server, &peer, &data_local, now,
                                          &answer) == YARROWDOOR_DONE,
          "a socket");
}

/* Closes the connection before its CONNECTION_BIND has left. */
static void close_connection(void)
{
    check(yarrowdoor_tcp_closed(client, &data_local, &server, now, &answer) == YARROWDOOR_DONE, "tcp_closed");
    check(yarrowdoor_poll(client, now, &answer) == YARROWDOOR_TCP_CLOSE &&
              yarrowdoor_is_same_address(&answer.from, &data_local),
          "the connection is not to be closed");
}

/* No packet is given for the closed connection. */
static void expect_no_more(void)
{
    for (int i = 0; i < TRIES; i++) {
        check(yarrowdoor_poll_transmit(client, now, packet, sizeof packet, &answer) == YARROWDOOR_NOTHING ||
                  !yarrowdoor_is_same_address(&answer.from, &data_local),
              "a packet of the closed connection");
        now += PAUSE;
    }
    yarrowdoor_free(client);
}

int main(void)
{
    local = yarrowdoor_ipv4(192, 168, 0, 1, 1000);
    server = yarrowdoor_ipv4(10, 0, 0, 2, 2000);
    peer = yarrowdoor_ipv4(10, 0, 0, 3, 9000);
    data_local = yarrowdoor_ipv4(192, 168, 0, 1, 1001);
    open_connection(1);
    close_connection();
    expect_no_more();
    open_connection(0);
    close_connection();
    check(yarrowdoor_poll_transmit(client, now, packet, sizeof packet, &answer) == YARROWDOOR_PACKET &&
              packet[1] == CONNECTION_BIND,
          "no CONNECTION_BIND of the closed connection: the header says that one may come");
    check(yarrowdoor_is_same_address(&answer.from, &data_local),
          "a packet of the closed connection from another address");
    expect_no_more();
    printf("closed: %d times without a further packet\n", 2 * TRIES);
    return 0;
}
