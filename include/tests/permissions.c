/* SPDX-License-Identifier: MIT OR Apache-2.0 */
/* The permissions of a client with 4,000 of them, some with channels between: by a cursor they are those at each index, each found
   from where the last one stood, within milliseconds for all. A cursor at the end or behind it, and an allocation that there is not,
   give nothing; what is no request is refused. A permission that is granted while they are listed is listed too. */
#define _POSIX_C_SOURCE 199309L
#include "server.h"
#include "yarrowdoor.h"
#include <stdio.h>
#include <stdlib.h>
#include <string.h>
#include <time.h>

enum { COUNT = 4000, PEERS_OF_CHANNEL = 100, ROUNDS = 5 };

/* The most that a list of all takes, in nanoseconds. */
static const long MOST = 10000000;

static yarrowdoor_address local, server, relayed, other;
static yarrowdoor *client;
static unsigned long checks;

static void check(int is_right, const char *what)
{
    checks++;
    if (!is_right) {
        printf("%s\n", what);
        exit(1);
    }
}

static yarrowdoor_address peer(uint32_t number)
{
    return yarrowdoor_ipv4(10, 2, (uint8_t)(number >> 8), (uint8_t)number, 0);
}

/* Sends what is due, passes in what the server answers, and drops the events. */
static void serve(void)
{
    static uint8_t packet[2048], text[ANSWER_ROOM];
    yarrowdoor_answer answer;
    while (yarrowdoor_poll_transmit(client, 0, packet, sizeof packet, &answer) == YARROWDOOR_PACKET) {
        size_t len = write_answer(packet, answer.len, text);
        yarrowdoor_recv(client, YARROWDOOR_UDP, &server, &local, text, len, 0, NULL, 0, &answer);
    }
    while (yarrowdoor_poll_event(client, &answer) != YARROWDOOR_NOTHING) {
    }
}

static void permit(uint32_t number)
{
    yarrowdoor_address to = peer(number);
    yarrowdoor_answer answer;
    check(yarrowdoor_create_permission(client, YARROWDOOR_UDP, &to, 0, &answer) == YARROWDOOR_DONE, "a permission");
    serve();
    to.port = 9;
    if (number % PEERS_OF_CHANNEL == 0) {
        check(yarrowdoor_bind_channel(client, YARROWDOOR_UDP, &to, 0, &answer) == YARROWDOOR_DONE, "a channel");
        serve();
    }
}

static void open_client(void)
{
    static const uint8_t seed[32] = {7};
    yarrowdoor_settings settings = yarrowdoor_settings_of(YARROWDOOR_UDP, &local, &server);
    settings.request_cadence = YARROWDOOR_NO_PAUSE;
    check(yarrowdoor_new(&settings, (const uint8_t *)"user", 4, (const uint8_t *)"pass", 4, seed, sizeof seed,
                         &client) == 0,
          "new");
    serve();
    for (uint32_t number = 0; number < COUNT; number++) {
        permit(number);
    }
}

static long nanoseconds(void)
{
    struct timespec now;
    clock_gettime(CLOCK_MONOTONIC, &now);
    return now.tv_sec * 1000000000L + now.tv_nsec;
}

/* How many there are from a cursor on. The cursor is the end then. */
static uint32_t count_from(uint32_t *cursor)
{
    yarrowdoor_answer answer;
    uint32_t count = 0;
    while (yarrowdoor_next_permission(client, YARROWDOOR_UDP, &relayed, *cursor, &answer) == YARROWDOOR_ADDRESS) {
        check(answer.id > *cursor, "a cursor that does not move on");
        *cursor = answer.id;
        count++;
    }
    return count;
}

static void same_as_at_each_index(void)
{
    yarrowdoor_answer next, at;
    uint32_t cursor = 0;
    for (uint32_t index = 0; index < COUNT; index++) {
        yarrowdoor_address wanted = peer(index);
        check(yarrowdoor_permission(client, YARROWDOOR_UDP, &relayed, index, &at) == YARROWDOOR_ADDRESS, "an index");
        check(yarrowdoor_next_permission(client, YARROWDOOR_UDP, &relayed, cursor, &next) == YARROWDOOR_ADDRESS,
              "a cursor");
        check(yarrowdoor_is_same_address(&next.peer, &wanted), "another permission");
        cursor = next.id;
        next.id = 0;
        check(memcmp(&next, &at, sizeof at) == 0, "another answer than at the index");
    }
    check(yarrowdoor_permission(client, YARROWDOOR_UDP, &relayed, COUNT, &at) == YARROWDOOR_NOTHING,
          "an index behind the end");
    check(yarrowdoor_next_permission(client, YARROWDOOR_UDP, &relayed, cursor, &next) == YARROWDOOR_NOTHING,
          "a cursor at the end");
    check(memcmp(&next, &at, sizeof at) == 0, "another answer than behind the end");
}

/* All of them, in the least of some rounds, so that what else runs on this machine does not count. */
static void within_milliseconds(void)
{
    long least = MOST * 1000;
    for (int round = 0; round < ROUNDS; round++) {
        uint32_t cursor = 0;
        long start = nanoseconds(), taken;
        check(count_from(&cursor) == COUNT, "not all permissions");
        taken = nanoseconds() - start;
        least = taken < least ? taken : least;
    }
    printf("permissions: %d are listed in %ld us\n", COUNT, least / 1000);
    check(least < MOST, "the list takes too long");
}

/* The answer to a look or a call whose request is this one. */
static uint32_t looked_at(const yarrowdoor_request *request)
{
    yarrowdoor_answer answer;
    memset(&answer, 0, sizeof answer);
    return yarrowdoor_look(client, request, &answer);
}

static void nothing_or_refused(void)
{
    static const uint32_t behind[] = {2 * COUNT, UINT32_MAX - 1, UINT32_MAX};
    yarrowdoor_request request, bad;
    yarrowdoor_answer answer;
    for (size_t i = 0; i < sizeof behind / sizeof behind[0]; i++) {
        uint32_t cursor = behind[i];
        check(count_from(&cursor) == 0, "a cursor behind the end");
    }
    check(yarrowdoor_next_permission(client, YARROWDOOR_UDP, &other, 0, &answer) == YARROWDOOR_NOTHING,
          "another relayed address");
    check(yarrowdoor_next_permission(client, YARROWDOOR_TCP, &relayed, 0, &answer) == YARROWDOOR_NOTHING,
          "another transport");
    check(yarrowdoor_next_permission(client, 2, &relayed, 0, &answer) == YARROWDOOR_BAD_CALL, "no transport");
    request = yarrowdoor_request_of(YARROWDOOR_CALL_NEXT_PERMISSION, 0);
    check(looked_at(&request) == YARROWDOOR_BAD_CALL, "no relayed address");
    request.from = relayed;
    check(looked_at(&request) == YARROWDOOR_ADDRESS, "the first permission");
    bad = request;
    bad.reserved = 1;
    check(looked_at(&bad) == YARROWDOOR_BAD_CALL, "a reserved field");
    bad.time = YARROWDOOR_MAX_TIME + 1;
    check(looked_at(&bad) == YARROWDOOR_BAD_TIME, "a late time");
    memset(&answer, 0, sizeof answer);
    check(yarrowdoor_call(client, &request, NULL, 0, NULL, 0, &answer) == YARROWDOOR_BAD_CALL,
          "a call that only looks");
}

/* A permission is granted while they are listed. */
static void granted_meanwhile(void)
{
    yarrowdoor_answer answer;
    uint32_t cursor = 0;
    check(yarrowdoor_next_permission(client, YARROWDOOR_UDP, &relayed, cursor, &answer) == YARROWDOOR_ADDRESS,
          "the first one");
    cursor = answer.id;
    permit(COUNT + 1);
    check(count_from(&cursor) == COUNT, "one that was granted meanwhile");
}

int main(void)
{
    local = yarrowdoor_ipv4(192, 168, 0, 1, 1000);
    server = yarrowdoor_ipv4(10, 0, 0, 2, 2000);
    relayed = yarrowdoor_ipv4(10, 0, 0, 4, 40000);
    other = yarrowdoor_ipv4(10, 0, 0, 4, 40001);
    open_client();
    same_as_at_each_index();
    within_milliseconds();
    nothing_or_refused();
    granted_meanwhile();
    yarrowdoor_free(client);
    printf("permissions: %lu checks\n", checks);
    return 0;
}
