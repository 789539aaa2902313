/* SPDX-License-Identifier: MIT OR Apache-2.0 */
/* A burst by the library's usual settings: 250 permissions are requested at one time, by a caller who calls at each pause, or every
   50 ms, and of a server that answers at once. No request is first sent within the pause after another one, and none again after its
   answer. A permission that is requested once the others were answered leaves within one pause. Without timed_from_send, and with a
   pause of 50 ms, most requests leave at one time, and again after their answers, as the header says. */
#include "server.h"
#include "yarrowdoor.h"
#include <stdio.h>
#include <stdlib.h>
#include <string.h>

enum { BURST = 250, REQUESTS = 2 * BURST, ID = 12, ENOUGH = 20000 };

static const uint64_t MILLISECOND = 1000000, SETTLED = 1000000000;

struct counts {
    unsigned most;     /* requests that were first sent at one time */
    unsigned answered; /* packets of requests that had their answer */
    uint64_t soonest;  /* the shortest time between two times at which a request was first sent, in nanoseconds */
};

static yarrowdoor *client;
static yarrowdoor_address local, server;
static uint64_t now, last_first;
static uint8_t ids[REQUESTS][ID], packet[2048];
static unsigned known, granted;

static void check(int is_right, const char *what)
{
    if (!is_right) {
        printf("%s, at %lu ms\n", what, (unsigned long)(now / MILLISECOND));
        exit(1);
    }
}

/* Whether no packet with this transaction ID was sent before. All that were have their answer. */
static int is_first(const uint8_t *id)
{
    for (unsigned i = 0; i < known; i++) {
        if (memcmp(ids[i], id, ID) == 0) {
            return 0;
        }
    }
    check(known < REQUESTS, "too many requests");
    memcpy(ids[known++], id, ID);
    return 1;
}

/* Sends what is due now, answers it at once, and takes the events. */
static void turn(struct counts *counts)
{
    static uint8_t replies[REQUESTS][ANSWER_ROOM];
    static size_t lens[REQUESTS];
    unsigned first = 0, sent = 0;
    yarrowdoor_answer answer;
    while (yarrowdoor_poll_transmit(client, now, packet, sizeof packet, &answer) == YARROWDOOR_PACKET) {
        if (is_first(packet + 8)) {
            first++;
        } else {
            counts->answered++;
        }
        check(sent < REQUESTS, "too many packets at one time");
        lens[sent] = write_answer(packet, answer.len, replies[sent]);
        sent++;
    }
    for (unsigned i = 0; i < sent; i++) {
        yarrowdoor_recv(client, YARROWDOOR_UDP, &server, &local, replies[i], lens[i], now, NULL, 0, &answer);
    }
    if (first && last_first && now - last_first < counts->soonest) {
        counts->soonest = now - last_first;
    }
    counts->most = first > counts->most ? first : counts->most;
    last_first = first ? now : last_first;
    for (uint32_t kind; (kind = yarrowdoor_poll_event(client, &answer)) != YARROWDOOR_NOTHING;) {
        granted += kind == YARROWDOOR_PERMISSION_CREATED;
    }
    check(yarrowdoor_poll(client, now, &answer) == YARROWDOOR_WAIT_UNTIL, "the client has ended");
}

static void request(uint8_t network, unsigned host)
{
    yarrowdoor_answer answer;
    yarrowdoor_address peer = yarrowdoor_ipv4(network, 0, (uint8_t)(host / 250), (uint8_t)(1 + host % 250), 9);
    check(yarrowdoor_create_permission(client, YARROWDOOR_UDP, &peer, now, &answer) == YARROWDOOR_DONE, "a request");
}

static void start(const yarrowdoor_settings *settings)
{
    static const uint8_t seed[32] = {9};
    struct counts unused = {0, 0, 0};
    now = last_first = known = granted = 0;
    check(yarrowdoor_new(settings, (const uint8_t *)"user", 4, (const uint8_t *)"pass", 4, seed, sizeof seed,
                         &client) == 0,
          "new");
    for (int i = 0; i < 5; i++) {
        turn(&unused);
        now += SETTLED;
    }
    last_first = 0;
}

/* Requests the burst, and returns what was counted until long after each was granted. */
static struct counts burst(const yarrowdoor_settings *settings, uint64_t step)
{
    struct counts counts = {0, 0, ~(uint64_t)0};
    start(settings);
    for (unsigned host = 0; host < BURST; host++) {
        request(11, host);
    }
    for (int turns = 0; turns < ENOUGH && now < 40 * SETTLED; turns++) {
        turn(&counts);
        now += step;
    }
    check(granted == BURST, "a permission of the burst was not granted");
    return counts;
}

/* How long after it is requested a permission leaves, once the burst was answered. */
static uint64_t one_more(uint64_t step)
{
    struct counts counts = {0, 0, 0};
    uint64_t start_of_request = now;
    unsigned before = known;
    request(12, 0);
    while (known == before) {
        turn(&counts);
        now += known == before ? step : 0;
        check(now < start_of_request + SETTLED, "the last request does not leave");
    }
    return now - start_of_request;
}

int main(void)
{
    local = yarrowdoor_ipv4(192, 168, 0, 1, 1000);
    server = yarrowdoor_ipv4(10, 0, 0, 2, 2000);
    yarrowdoor_settings usual = yarrowdoor_settings_of(YARROWDOOR_UDP, &local, &server), plain = usual;
    const uint64_t pause = usual.request_cadence, steps[] = {pause, MILLISECOND, 50 * MILLISECOND};
    struct counts counts;
    for (unsigned i = 0; i < sizeof steps / sizeof *steps; i++) {
        counts = burst(&usual, steps[i]);
        check(counts.most == 1 && counts.soonest >= pause, "two requests within one pause");
        check(counts.answered == 0, "a request that was answered is sent again");
        check(one_more(steps[i]) <= pause, "a request waits behind others that were answered");
        yarrowdoor_free(client);
    }
    plain.timed_from_send = 0;
    plain.request_cadence = 50 * MILLISECOND;
    counts = burst(&plain, 50 * MILLISECOND);
    check(counts.most > BURST / 2 && counts.answered > BURST / 2,
          "a request that waits from its call waits for the pause");
    yarrowdoor_free(client);
    printf("bursts: 1 request at one time, none after its answer; without the setting %u, and %u\n", counts.most,
           counts.answered);
    return 0;
}
