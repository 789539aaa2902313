/* SPDX-License-Identifier: MIT OR Apache-2.0 */
/* Data of peers, in and out, makes nothing due: the header says after which calls a caller need not poll again. Clients with a
   channel and a permission send and receive at drawn times, with and without a keepalive; after each such call nothing is to be
   sent, there is no event, and the wake-up time is no earlier. A call that does make something due is seen by the same check.
   A caller who is late with the first request is given a wake-up time that is before now.
   The last line says how long after yarrowdoor_delete its request is sent, at the usual pause, right after another one. */
#include "bench.h"
#include "yarrowdoor.h"
#include <stdio.h>
#include <stdlib.h>
#include <string.h>

size_t bench_answer(const uint8_t *request, size_t len, uint8_t *room, size_t room_len);

enum { PAYLOAD = 300, DRAWS = 20000 };

static const uint64_t MILLISECOND = 1000000, REST = 5000000000, NEVER = ~(uint64_t)0;

static yarrowdoor *client;
static yarrowdoor_address local, server, with_channel, without;
static uint64_t now;
static uint8_t packet[2048], data[PAYLOAD];
static unsigned long calls;

static void check(int is_right, const char *what)
{
    if (!is_right) {
        printf("%s, at %lu ns\n", what, (unsigned long)now);
        exit(1);
    }
}

/* Draws a number below another one. */
static uint64_t draw(uint64_t below)
{
    static uint64_t state = 1;
    state = state * 6364136223846793005u + 1442695040888963407u;
    return (state >> 33) % below;
}

/* The wake-up time, of a client that has nothing to send and no event; else 0. */
static uint64_t wake_up(void)
{
    yarrowdoor_answer answer;
    check(yarrowdoor_poll(client, now, &answer) == YARROWDOOR_WAIT_UNTIL, "the client waits for nothing");
    return answer.time > now ? answer.time : 0;
}

/* Sends what is due, passes in what the server answers, and takes the events, until nothing is due for a while. */
static void settle(void)
{
    for (int turns = 0; turns < 1000; turns++) {
        yarrowdoor_answer answer;
        uint8_t reply[256];
        while (yarrowdoor_poll_transmit(client, now, packet, sizeof packet, &answer) == YARROWDOOR_PACKET) {
            size_t len = bench_answer(packet, answer.len, reply, sizeof reply);
            if (len) {
                yarrowdoor_recv(client, YARROWDOOR_UDP, &server, &local, reply, len, now, NULL, 0, &answer);
            }
        }
        while (yarrowdoor_poll_event(client, &answer) != YARROWDOOR_NOTHING) {
        }
        check(yarrowdoor_poll(client, now, &answer) == YARROWDOOR_WAIT_UNTIL, "the client has ended");
        if (answer.time > now + REST) {
            return;
        }
        now = answer.time > now ? answer.time : now + MILLISECOND;
    }
    check(0, "the client is never at rest");
}

static void make(uint64_t keepalive)
{
    static const uint8_t seed[32] = {7};
    yarrowdoor_settings settings = yarrowdoor_settings_of(YARROWDOOR_UDP, &local, &server);
    settings.keepalive = keepalive;
    now = 0;
    check(yarrowdoor_new(&settings, (const uint8_t *)"user", 4, (const uint8_t *)"pass", 4, seed, sizeof seed,
                         &client) == 0,
          "new");
}

static void start(uint64_t keepalive)
{
    yarrowdoor_answer answer;
    make(keepalive);
    settle();
    check(yarrowdoor_bind_channel(client, YARROWDOOR_UDP, &with_channel, now, &answer) == YARROWDOOR_DONE, "a channel");
    check(yarrowdoor_create_permission(client, YARROWDOOR_UDP, &without, now, &answer) == YARROWDOOR_DONE,
          "a permission");
    settle();
}

/* A frame of the channel, which is the first one. */
static void receive(void)
{
    yarrowdoor_answer answer;
    uint8_t frame[4 + PAYLOAD] = {0x40, 0x00, PAYLOAD >> 8, PAYLOAD & 0xff};
    check(yarrowdoor_recv(client, YARROWDOOR_UDP, &server, &local, frame, sizeof frame, now, NULL, 0, &answer) ==
              YARROWDOOR_PEER_DATA_RANGE,
          "data of a peer");
}

static void call(void)
{
    yarrowdoor_answer answer;
    const yarrowdoor_address *peer = draw(2) ? &with_channel : &without;
    uint64_t kind = draw(3);
    calls++;
    if (kind == 0) {
        receive();
    } else if (kind == 1) {
        check(yarrowdoor_send_to(client, YARROWDOOR_UDP, peer, data, sizeof data, now, packet, sizeof packet,
                                 &answer) == YARROWDOOR_PACKET,
              "send_to");
    } else {
        check(yarrowdoor_send_head(client, YARROWDOOR_UDP, peer, sizeof data, now, packet, sizeof packet, &answer) ==
                  YARROWDOOR_PACKET,
              "send_head");
    }
}

/* Whether nothing is due before the wake-up time that was told. */
static int is_as_told(uint64_t told)
{
    yarrowdoor_answer answer;
    return yarrowdoor_poll_transmit(client, now, packet, sizeof packet, &answer) == YARROWDOOR_NOTHING &&
           yarrowdoor_poll_event(client, &answer) == YARROWDOOR_NOTHING && wake_up() >= told;
}

static void draw_calls(void)
{
    for (int i = 0; i < DRAWS; i++) {
        uint64_t told = wake_up(), step = draw(3) ? draw(1000 * MILLISECOND) : draw(30 * REST);
        if (!told || now + step >= told) {
            now = told ? told : now;
            settle();
            continue;
        }
        now += step;
        call();
        check(is_as_told(told), "data made something due");
    }
}

/* The first request, whose second transmission is due after 500 ms (RFC 8489, section 6.2.1), while the caller sleeps: the wake-up
   time is that time, long before now. */
static void fall_behind(void)
{
    yarrowdoor_answer answer;
    make(0);
    check(yarrowdoor_poll(client, now, &answer) == YARROWDOOR_WAIT_UNTIL && answer.time == now, "a new client waits");
    check(yarrowdoor_poll_transmit(client, now, packet, sizeof packet, &answer) == YARROWDOOR_PACKET,
          "no first request");
    for (now = 100 * MILLISECOND; now < REST; now += 100 * MILLISECOND) {
        check(yarrowdoor_poll(client, now, &answer) == YARROWDOOR_WAIT_UNTIL && answer.time == 500 * MILLISECOND,
              "another time");
    }
    check(yarrowdoor_poll_transmit(client, now, packet, sizeof packet, &answer) == YARROWDOOR_PACKET,
          "no second transmission");
    yarrowdoor_free(client);
}

int main(void)
{
    yarrowdoor_answer answer;
    yarrowdoor_address other = yarrowdoor_ipv4(10, 1, 0, 9, 9);
    uint64_t start_of_delete, told;
    local = yarrowdoor_ipv4(192, 168, 0, 1, 1000);
    server = yarrowdoor_ipv4(10, 0, 0, 2, 2000);
    with_channel = yarrowdoor_ipv4(10, 1, 0, 1, 1);
    without = yarrowdoor_ipv4(10, 1, 0, 2, 2);
    fall_behind();
    for (int kept = 0; kept < 2; kept++) {
        start(kept ? 15000 * MILLISECOND : 0);
        draw_calls();
        settle();
        told = wake_up();
        check(yarrowdoor_create_permission(client, YARROWDOOR_UDP, &other, now, &answer) == YARROWDOOR_DONE,
              "a permission");
        check(told != NEVER && !is_as_told(told), "a request makes nothing due");
        start_of_delete = now;
        check(yarrowdoor_delete(client, now, &answer) == YARROWDOOR_DONE, "delete");
        while (yarrowdoor_poll_transmit(client, now, packet, sizeof packet, &answer) != YARROWDOOR_PACKET ||
               packet[1] != 4) {
            now += MILLISECOND;
        }
        check(now - start_of_delete == 5 * MILLISECOND, "a REFRESH behind one request, at the usual pause");
        yarrowdoor_free(client);
    }
    printf("due: %lu calls; the REFRESH of a delete leaves after %lu ms\n", calls,
           (unsigned long)((now - start_of_delete) / MILLISECOND));
    return 0;
}
