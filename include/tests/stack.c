/* SPDX-License-Identifier: MIT OR Apache-2.0 */
/* usage: stack

   How many bytes of the stack each call takes: it is made in a thread whose stack was painted before, and the paint that is gone is
   counted, less that of a thread which does nothing. No call takes more than docs/LIBRARY.md ("Stack") says of it, and none writes
   below the stack of its thread, which is as small as that page allows; what lies below is painted too. It is to be linked
   with -z now, since a function that is bound when it is first called takes 2 KB for that. */
#include "bench.h"
#include "yarrowdoor.h"
#include <pthread.h>
#include <stdio.h>
#include <stdlib.h>
#include <string.h>

size_t bench_answer(const uint8_t *request, size_t len, uint8_t *room, size_t room_len);

enum { STACK = 256 * 1024, THREAD = 32 * 1024, PAINT = 0xa5, ROOM = 65556 };

/* The most that a new client takes, and each other call. */
enum { MOST_OF_NEW = 8 * 1024, MOST = 16 * 1024 };

static const uint64_t PAUSE = 50000000;

static unsigned char *stack;
static yarrowdoor *client;
static yarrowdoor_settings settings;
static yarrowdoor_address local, server, peer;
static yarrowdoor_answer answer;
static uint64_t now;
static uint8_t buffer[ROOM], reply[256], data[1200];
static size_t reply_len;

static void check(int is_right, const char *what)
{
    if (!is_right) {
        printf("%s\n", what);
        exit(1);
    }
}

/* The calls, each in a function of its own that a thread runs. */
static void *nothing(void *argument)
{
    return argument;
}

static void *new_client(void *argument)
{
    static const uint8_t seed[32] = {7};
    check(yarrowdoor_new(&settings, (const uint8_t *)"user", 4, (const uint8_t *)"pass", 4, seed, sizeof seed,
                         &client) == 0,
          "new");
    return argument;
}

static void *poll_transmit(void *argument)
{
    check(yarrowdoor_poll_transmit(client, now, buffer, sizeof buffer, &answer) == YARROWDOOR_PACKET, "poll_transmit");
    return argument;
}

static void *receive(void *argument)
{
    uint32_t kind = yarrowdoor_recv(client, settings.transport, &server, &local, reply, reply_len, now, buffer,
                                    sizeof buffer, &answer);
    check(kind == YARROWDOOR_HANDLED, "recv");
    return argument;
}

static void *poll_event(void *argument)
{
    check(yarrowdoor_poll_event(client, &answer) != YARROWDOOR_NOTHING, "poll_event");
    return argument;
}

static void *poll_client(void *argument)
{
    check(yarrowdoor_poll(client, now, &answer) == YARROWDOOR_WAIT_UNTIL, "poll");
    return argument;
}

static void *create_permission(void *argument)
{
    check(yarrowdoor_create_permission(client, YARROWDOOR_UDP, &peer, now, &answer) == YARROWDOOR_DONE,
          "create_permission");
    return argument;
}

static void *bind_channel(void *argument)
{
    check(yarrowdoor_bind_channel(client, YARROWDOOR_UDP, &peer, now, &answer) == YARROWDOOR_DONE, "bind_channel");
    return argument;
}

static void *send_to(void *argument)
{
    uint32_t kind =
        yarrowdoor_send_to(client, YARROWDOOR_UDP, &peer, data, sizeof data, now, buffer, sizeof buffer, &answer);
    check(kind == YARROWDOOR_PACKET, "send_to");
    return argument;
}

static void *delete_allocations(void *argument)
{
    check(yarrowdoor_delete(client, now, &answer) == YARROWDOOR_DONE, "delete");
    return argument;
}

static void *abandon(void *argument)
{
    check(yarrowdoor_abandon(client, now, buffer, sizeof buffer, &answer) == YARROWDOOR_PACKET, "abandon");
    return argument;
}

static void *free_client(void *argument)
{
    yarrowdoor_free(client);
    return argument;
}

/* The bytes of the painted stack that a thread wrote to. */
static size_t painted_over(void *(*call)(void *))
{
    pthread_attr_t attributes;
    pthread_t thread;
    size_t at = 0;
    memset(stack, PAINT, STACK);
    check(pthread_attr_init(&attributes) == 0 &&
              pthread_attr_setstack(&attributes, stack + STACK - THREAD, THREAD) == 0,
          "a stack");
    check(pthread_create(&thread, &attributes, call, NULL) == 0 && pthread_join(thread, NULL) == 0, "a thread");
    pthread_attr_destroy(&attributes);
    while (at < STACK && stack[at] == PAINT) {
        at++;
    }
    return STACK - at;
}

/* Makes a call, and holds what it takes to the most that is said of it. */
static void measure(const char *name, void *(*call)(void *), size_t most)
{
    size_t all = painted_over(call), spent = painted_over(nothing), taken = all > spent ? all - spent : 0;
    printf("%s: %zu bytes of the stack\n", name, taken);
    if (taken > most) {
        printf("%s may take %zu\n", name, most);
        exit(1);
    }
    check(all <= THREAD, "it writes below the stack of its thread");
}

/* Sends what is due at the next time of the pause, and gets the answer. */
static void exchange(void)
{
    measure("yarrowdoor_poll_transmit", poll_transmit, MOST);
    reply_len = bench_answer(buffer, answer.len, reply, sizeof reply);
    measure("yarrowdoor_recv", receive, MOST);
    now += PAUSE;
}

static void over(uint32_t transport)
{
    settings = yarrowdoor_settings_of(transport, &local, &server);
    now = 0;
    measure("yarrowdoor_new", new_client, MOST_OF_NEW);
    exchange();
    exchange();
    measure("yarrowdoor_poll_event", poll_event, MOST);
    measure("yarrowdoor_create_permission", create_permission, MOST);
    exchange();
    measure("yarrowdoor_bind_channel", bind_channel, MOST);
    exchange();
    while (yarrowdoor_poll_event(client, &answer) != YARROWDOOR_NOTHING) {
    }
    measure("yarrowdoor_poll", poll_client, MOST);
    measure("yarrowdoor_send_to", send_to, MOST);
    measure("yarrowdoor_delete", delete_allocations, MOST);
    measure("yarrowdoor_abandon", abandon, MOST);
    measure("yarrowdoor_free", free_client, MOST);
}

int main(void)
{
    stack = aligned_alloc(4096, STACK);
    check(stack != NULL, "a stack");
    local = yarrowdoor_ipv4(192, 168, 0, 1, 1000);
    server = yarrowdoor_ipv4(10, 0, 0, 2, 2000);
    peer = yarrowdoor_ipv4(10, 1, 0, 1, 9);
    over(YARROWDOOR_UDP);
    over(YARROWDOOR_TCP);
    free(stack);
    return 0;
}
