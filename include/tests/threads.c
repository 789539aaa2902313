/* usage: threads [ROUNDS]

   Several threads look at one client, each so many times. Then one of them makes calls of it, after the others have ended. What
   they see is what one thread sees. Under a checker of races it shows that a call that looks writes nothing that another reads,
   also in the library, which was compiled without the checker. */
#include "exchange.h"
#include "hex.h"
#include "yarrowdoor.h"
#include <pthread.h>
#include <stdio.h>
#include <stdlib.h>

enum { THREADS = 4, BUFFER = 65556 };

static yarrowdoor *client;
static yarrowdoor_address local, server, relayed, peer;
static uint8_t buffer[BUFFER];
static long rounds;

static void check(const char *what, uint32_t found, uint32_t want)
{
    if (found != want) {
        fprintf(stderr, "threads: %s: answered %u, not %u\n", what, (unsigned)found, (unsigned)want);
        exit(1);
    }
}

static void receive(size_t number, uint64_t now)
{
    uint8_t bytes[256];
    size_t len = decode(RECEIVED[number], bytes);
    yarrowdoor_answer answer;
    check("a response",
          yarrowdoor_recv(client, YARROWDOOR_UDP, &server, &local, bytes, len, now, buffer, BUFFER, &answer),
          YARROWDOOR_HANDLED);
}

/* A client with an allocation and a permission. */
static void begin(void)
{
    static const uint8_t seed[32];
    yarrowdoor_answer answer;
    local = yarrowdoor_ipv4(192, 168, 0, 1, 1000);
    server = yarrowdoor_ipv4(10, 0, 0, 2, 2000);
    peer = yarrowdoor_ipv4(10, 0, 0, 3, 9000);
    yarrowdoor_settings settings = yarrowdoor_settings_of(YARROWDOOR_UDP, &local, &server);
    check("a new client",
          yarrowdoor_new(&settings, (const uint8_t *)"user", 4, (const uint8_t *)"pass", 4, seed, 32, &client), 0);
    for (size_t number = 0; number < 3; number++) {
        uint64_t now = number * 50000000;
        if (number == 2) {
            check("an event", yarrowdoor_poll_event(client, &answer), YARROWDOOR_ALLOCATION_CREATED);
            relayed = answer.peer;
            check("a request", yarrowdoor_create_permission(client, YARROWDOOR_UDP, &peer, now, &answer),
                  YARROWDOOR_DONE);
        }
        check("a packet", yarrowdoor_poll_transmit(client, now, buffer, BUFFER, &answer), YARROWDOOR_PACKET);
        receive(number, now);
    }
}

static void look(void)
{
    yarrowdoor_answer answer;
    yarrowdoor_address other = yarrowdoor_ipv4(10, 0, 0, 5, 9000);
    check("a relayed address", yarrowdoor_relayed_address(client, 0, &answer), YARROWDOOR_ADDRESS);
    check("the same", (uint32_t)yarrowdoor_is_same_address(&answer.peer, &relayed), 1);
    check("no more", yarrowdoor_relayed_address(client, 1, &answer), YARROWDOOR_NOTHING);
    check("a permission", yarrowdoor_permission(client, YARROWDOOR_UDP, &relayed, 0, &answer), YARROWDOOR_ADDRESS);
    check("no more", yarrowdoor_permission(client, YARROWDOOR_UDP, &relayed, 1, &answer), YARROWDOOR_NOTHING);
    check("its peer", yarrowdoor_have_permission(client, YARROWDOOR_UDP, &peer, &answer), YARROWDOOR_YES);
    check("another peer", yarrowdoor_have_permission(client, YARROWDOOR_UDP, &other, &answer), YARROWDOOR_NO);
}

static void *look_often(void *unused)
{
    for (long i = 0; i < rounds; i++) {
        look();
    }
    return unused;
}

static void *end(void *unused)
{
    yarrowdoor_answer answer;
    check("the permission", yarrowdoor_poll_event(client, &answer), YARROWDOOR_PERMISSION_CREATED);
    check("the end", yarrowdoor_protocol_error(client, &answer), YARROWDOOR_DONE);
    check("closed", yarrowdoor_poll(client, 100000000, &answer), YARROWDOOR_CLOSED);
    yarrowdoor_free(client);
    return unused;
}

static void start(pthread_t *thread, void *(*run)(void *))
{
    check("a thread", (uint32_t)pthread_create(thread, NULL, run, NULL), 0);
}

int main(int argc, char **argv)
{
    pthread_t threads[THREADS];
    rounds = argc == 2 ? strtol(argv[1], NULL, 10) : 20000;
    begin();
    for (int i = 0; i < THREADS; i++) {
        start(&threads[i], look_often);
    }
    for (int i = 0; i < THREADS; i++) {
        pthread_join(threads[i], NULL);
    }
    start(&threads[0], end);
    pthread_join(threads[0], NULL);
    return 0;
}
