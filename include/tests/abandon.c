/* SPDX-License-Identifier: MIT OR Apache-2.0 */
/* usage: [LD_PRELOAD=shim.so] abandon

   A client that is given up at once: its REFRESH with lifetime 0 leaves within the pause and before what is queued, and after it
   the client has ended and holds nothing. Without an allocation there is nothing to send. What is refused leaves the client as it
   was, and so does each memory allocation that is refused, where shim.so is preloaded. Over a buffer of each size the packet is the
   same. */
#include "server.h"
#include "shim.h"
#include "yarrowdoor.h"
#include <stdio.h>
#include <stdlib.h>
#include <string.h>

#pragma weak shim_refuse

enum { QUEUED = 250, MOST = 2048 };

static const uint64_t PAUSE = 50000000;

static yarrowdoor_address local, server;
static uint64_t now;
static uint8_t packet[MOST];
static unsigned long checks;

static void check(int is_right, const char *what)
{
    checks++;
    if (!is_right) {
        printf("%s, at %lu ns\n", what, (unsigned long)now);
        exit(1);
    }
}

static yarrowdoor *new_client(void)
{
    static const uint8_t seed[32] = {7};
    yarrowdoor_settings settings = yarrowdoor_settings_of(YARROWDOOR_UDP, &local, &server);
    yarrowdoor *client = NULL;
    check(yarrowdoor_new(&settings, (const uint8_t *)"user", 4, (const uint8_t *)"pass", 4, seed, sizeof seed,
                         &client) == 0,
          "new");
    return client;
}

/* Sends what is due, and passes in what the server answers. */
static void serve(yarrowdoor *client)
{
    yarrowdoor_answer answer;
    uint8_t text[ANSWER_ROOM];
    while (yarrowdoor_poll_transmit(client, now, packet, sizeof packet, &answer) == YARROWDOOR_PACKET) {
        size_t len = write_answer(packet, answer.len, text);
        yarrowdoor_recv(client, YARROWDOOR_UDP, &server, &local, text, len, now, NULL, 0, &answer);
    }
}

/* A client with an allocation and a permission. The last packet has just left, so that the pause runs. */
static yarrowdoor *with_allocation(void)
{
    yarrowdoor *client = new_client();
    yarrowdoor_address peer = yarrowdoor_ipv4(10, 1, 0, 1, 1);
    yarrowdoor_answer answer;
    now = 0;
    serve(client);
    now += PAUSE;
    serve(client);
    check(yarrowdoor_poll_event(client, &answer) == YARROWDOOR_ALLOCATION_CREATED, "an allocation");
    check(yarrowdoor_create_permission(client, YARROWDOOR_UDP, &peer, now, &answer) == YARROWDOOR_DONE, "a permission");
    now += PAUSE;
    serve(client);
    check(yarrowdoor_have_permission(client, YARROWDOOR_UDP, &peer, &answer) == YARROWDOOR_YES, "the permission");
    return client;
}

/* Requests that wait in the queue, since the pause runs. */
static void queue_requests(yarrowdoor *client)
{
    yarrowdoor_answer answer;
    for (uint32_t i = 0; i < QUEUED; i++) {
        yarrowdoor_address peer = yarrowdoor_ipv4(10, 2, (uint8_t)(i >> 8), (uint8_t)i, 1);
        check(yarrowdoor_create_permission(client, YARROWDOOR_UDP, &peer, now, &answer) == YARROWDOOR_DONE,
              "a queued request");
    }
}

/* Whether a packet is a REFRESH whose first attribute is a LIFETIME of 0 (RFC 8656, sections 7.2 and 18.2). */
static int deletes(const uint8_t *bytes, size_t len)
{
    static const uint8_t lifetime[] = {0x00, 0x0d, 0x00, 0x04, 0x00, 0x00, 0x00, 0x00};
    return len > 28 && bytes[0] == 0x00 && bytes[1] == 0x04 && memcmp(bytes + 20, lifetime, sizeof lifetime) == 0;
}

/* A client that was given up holds nothing, and has only its events left. */
static void has_ended(yarrowdoor *client)
{
    yarrowdoor_address peer = yarrowdoor_ipv4(10, 1, 0, 1, 1);
    yarrowdoor_answer answer;
    while (yarrowdoor_poll_event(client, &answer) != YARROWDOOR_NOTHING) {
    }
    check(yarrowdoor_poll(client, now, &answer) == YARROWDOOR_CLOSED, "the client has not ended");
    check(yarrowdoor_poll_transmit(client, now + 100 * PAUSE, packet, sizeof packet, &answer) == YARROWDOOR_NOTHING,
          "a packet is left");
    check(yarrowdoor_relayed_address(client, 0, &answer) == YARROWDOOR_NOTHING, "an allocation is left");
    check(yarrowdoor_have_permission(client, YARROWDOOR_UDP, &peer, &answer) == YARROWDOOR_NO, "a permission is left");
    check(yarrowdoor_create_permission(client, YARROWDOOR_UDP, &peer, now, &answer) == YARROWDOOR_REFUSED &&
              answer.error == YARROWDOOR_ERROR_NO_ALLOCATION,
          "a client that has ended makes a request");
    check(yarrowdoor_abandon(client, now, packet, sizeof packet, &answer) == YARROWDOOR_NOTHING, "a second REFRESH");
    yarrowdoor_free(client);
}

/* The packet in a buffer of so many bytes, and the rest read into `whole`. Returns its length. */
static size_t give_up(size_t room, uint8_t *whole)
{
    yarrowdoor *client = with_allocation();
    yarrowdoor_answer answer;
    size_t len;
    queue_requests(client);
    memset(packet, 0xdd, sizeof packet);
    check(yarrowdoor_abandon(client, now, packet, room, &answer) == YARROWDOOR_PACKET, "no REFRESH at once");
    check(answer.transport == YARROWDOOR_UDP && yarrowdoor_is_same_address(&answer.from, &local) &&
              yarrowdoor_is_same_address(&answer.to, &server),
          "not from the client to its server");
    check(answer.len <= room && packet[room] == 0xdd, "a byte behind the buffer");
    memcpy(whole, packet, answer.len);
    len = answer.len;
    while (answer.left) {
        yarrowdoor_answer before;
        check(yarrowdoor_abandon(client, now, packet, sizeof packet, &before) == YARROWDOOR_UNREAD_BYTES,
              "before the rest");
        check(yarrowdoor_read(client, whole + len, 16, &answer) == YARROWDOOR_BYTES && answer.len, "the rest");
        len += answer.len;
    }
    check(deletes(whole, len), "another packet than a REFRESH with lifetime 0");
    has_ended(client);
    return len;
}

static void same_in_each_buffer(void)
{
    static const size_t rooms[] = {0, 1, 20, 64, 100};
    static uint8_t whole[MOST], part[MOST];
    size_t len = give_up(1500, whole);
    for (size_t i = 0; i < sizeof rooms / sizeof *rooms; i++) {
        check(give_up(rooms[i], part) == len && memcmp(whole, part, len) == 0, "another packet in a small buffer");
    }
}

/* What is refused leaves the client as it was: its next packet is the one that was due. */
static void refusals_change_nothing(void)
{
    yarrowdoor *client = with_allocation();
    yarrowdoor_address relayed, peer = yarrowdoor_ipv4(10, 3, 0, 1, 1);
    yarrowdoor_answer answer;
    yarrowdoor_request request = yarrowdoor_request_of(YARROWDOOR_CALL_ABANDON, now);
    check(yarrowdoor_relayed_address(client, 0, &answer) == YARROWDOOR_ADDRESS, "an allocation");
    relayed = answer.peer;
    check(yarrowdoor_abandon(client, YARROWDOOR_MAX_TIME + 1, packet, sizeof packet, &answer) == YARROWDOOR_BAD_TIME,
          "a late time");
    request.reserved = 1;
    check(yarrowdoor_call(client, &request, NULL, 0, packet, sizeof packet, &answer) == YARROWDOOR_BAD_CALL,
          "a reserved place");
    check(yarrowdoor_look(client, &request, &answer) == YARROWDOOR_BAD_CALL, "a look that ends a client");
    check(yarrowdoor_create_permission(client, YARROWDOOR_UDP, &peer, now, &answer) == YARROWDOOR_DONE, "a permission");
    now += PAUSE;
    check(yarrowdoor_poll_transmit(client, now, packet, 10, &answer) == YARROWDOOR_PACKET && answer.left,
          "a packet and its rest");
    check(yarrowdoor_abandon(client, now, packet, sizeof packet, &answer) == YARROWDOOR_UNREAD_BYTES,
          "before the rest");
    check(yarrowdoor_read(client, packet, sizeof packet, &answer) == YARROWDOOR_BYTES && answer.left == 0, "the rest");
    check(yarrowdoor_relayed_address(client, 0, &answer) == YARROWDOOR_ADDRESS &&
              yarrowdoor_is_same_address(&answer.peer, &relayed),
          "the allocation after refusals");
    check(yarrowdoor_abandon(client, now, packet, sizeof packet, &answer) == YARROWDOOR_PACKET, "a REFRESH");
    has_ended(client);
}

/* Without an allocation there is nothing to send, and the client ends all the same: new, challenged, and after delete. */
static void without_allocation(void)
{
    yarrowdoor *client = new_client();
    yarrowdoor_answer answer;
    now = 0;
    check(yarrowdoor_abandon(client, now, packet, 0, &answer) == YARROWDOOR_NOTHING, "a packet of a new client");
    has_ended(client);
    client = new_client();
    serve(client);
    check(yarrowdoor_abandon(client, now, packet, 0, &answer) == YARROWDOOR_NOTHING,
          "a packet of a client that asks for an allocation");
    has_ended(client);
    client = with_allocation();
    check(yarrowdoor_protocol_error(client, &answer) == YARROWDOOR_DONE, "a protocol error");
    check(yarrowdoor_abandon(client, now, packet, 0, &answer) == YARROWDOOR_NOTHING,
          "a packet of a client that has ended");
    has_ended(client);
}

/* Each allocation of the call refused in turn: the client is as it was, and its next try gives the packet. */
static void without_memory(void)
{
    yarrowdoor_address peer = yarrowdoor_ipv4(10, 1, 0, 1, 1);
    yarrowdoor_answer answer;
    uint32_t kind = YARROWDOOR_OUT_OF_MEMORY;
    for (long number = 1; kind == YARROWDOOR_OUT_OF_MEMORY; number++) {
        yarrowdoor *client = with_allocation();
        shim_refuse(number);
        kind = yarrowdoor_abandon(client, now, packet, sizeof packet, &answer);
        shim_refuse(0);
        if (kind == YARROWDOOR_OUT_OF_MEMORY) {
            check(yarrowdoor_relayed_address(client, 0, &answer) == YARROWDOOR_ADDRESS, "the allocation is gone");
            check(yarrowdoor_have_permission(client, YARROWDOOR_UDP, &peer, &answer) == YARROWDOOR_YES,
                  "the permission is gone");
            check(yarrowdoor_poll(client, now, &answer) == YARROWDOOR_WAIT_UNTIL, "the client has ended");
            check(yarrowdoor_abandon(client, now, packet, sizeof packet, &answer) == YARROWDOOR_PACKET, "the next try");
        } else {
            check(kind == YARROWDOOR_PACKET && number > 1, "no allocation was refused");
        }
        check(deletes(packet, answer.len), "another packet than a REFRESH with lifetime 0");
        has_ended(client);
    }
}

/* The time that a delete takes, which an abandon spares. */
static uint64_t time_of_delete(void)
{
    yarrowdoor *client = with_allocation();
    yarrowdoor_answer answer;
    uint64_t begin = now;
    queue_requests(client);
    check(yarrowdoor_delete(client, now, &answer) == YARROWDOOR_DONE, "delete");
    while (yarrowdoor_poll_transmit(client, now, packet, sizeof packet, &answer) != YARROWDOOR_PACKET ||
           !deletes(packet, answer.len)) {
        check(now < begin + 2 * QUEUED * PAUSE, "no REFRESH of a delete");
        now += PAUSE / 50;
    }
    yarrowdoor_free(client);
    return now - begin;
}

int main(void)
{
    local = yarrowdoor_ipv4(192, 168, 0, 1, 1000);
    server = yarrowdoor_ipv4(10, 0, 0, 2, 2000);
    same_in_each_buffer();
    refusals_change_nothing();
    without_allocation();
    if (shim_refuse) {
        without_memory();
    }
    check(time_of_delete() > 10 * PAUSE, "a delete that waits for nothing");
    printf("abandon: %lu checks\n", checks);
    return 0;
}
