/* usage: peers keep COUNT CADENCE BURST SECONDS
          peers churn COUNT SECONDS

   Runs a client of the library over UDP, with a clock of its own, against the server of bench/shared, which answers
   each request after 50 ms.

   keep: binds COUNT channels to as many IP addresses, BURST of them in each half second, at a cadence of so many milliseconds
   (0: that of the settings). It prints how many permissions and channels failed in so many seconds, how many channels are open
   in the end, and how many requests were sent.

   churn: COUNT peers come and go in so many seconds, ten at a time. Each is bound, sent to and heard, and let go. It ends with
   1 where a call is refused, where more numbers or permissions are used than ten peers at a time need, where the client holds
   more memory in the last hour than in the first, or where a packet costs more than it does in a client that never had
   others. */
#include "bench.h"
#include "yarrowdoor.h"
#include <malloc.h>
#include <stdio.h>
#include <stdlib.h>
#include <string.h>
#include <time.h>

/* Of bench/shared. */
size_t bench_answer(const uint8_t *request, size_t len, uint8_t *room, size_t room_len);

static const uint64_t MILLISECOND = 1000000, SECOND = 1000000000, DELAY = 50000000;

enum { PORT = 10000, FIRST_NUMBER = 0x4000, CHANNEL_BIND = 9 };

/* More replies than are on their way at once, and more bytes than each has. */
enum { REPLIES = 8192, REPLY = 256 };

/* What ten peers at a time need where each grant ends after 300 s, or 900 s with the time for which a number is reserved. */
enum { AT_A_TIME = 10, NUMBERS = 0xdc, PERMISSIONS = 90 };

/* How often a frame is received for one measurement, and how many of these there are. */
enum { TURNS = 1000, BATCHES = 50 };

struct reply {
    uint64_t due;
    size_t len;
    uint8_t bytes[REPLY];
};

/* A client, its clock, and the replies that are on their way to it. */
struct run {
    yarrowdoor *client;
    yarrowdoor_address local, server;
    uint64_t now;
    struct reply replies[REPLIES];
    size_t first, end;
    uint32_t requests, failed_permissions, failed_channels;
    uint16_t last_number;
};

static struct run runs[2];
static uint8_t buffer[YARROWDOOR_MAX_PACKET];

void wrong(const char *what)
{
    fprintf(stderr, "peers: %s\n", what);
    exit(1);
}

/* The clock of the benches, which is not looked at here. */
void pause_clock(void)
{
}

void resume_clock(void)
{
}

/* Each peer has an IP address of its own. */
static yarrowdoor_address peer_of(uint32_t number)
{
    return yarrowdoor_ipv4(10, (uint8_t)(1 + (number >> 16)), (uint8_t)(number >> 8), (uint8_t)number, PORT);
}

/* Notes the channel number that a CHANNEL_BIND asks for, which is its first attribute (RFC 8656, section 12.1). */
static void note_number(struct run *run, const uint8_t *packet, size_t len)
{
    if (len >= 28 && (packet[0] << 8 | packet[1]) == CHANNEL_BIND) {
        uint16_t number = (uint16_t)(packet[24] << 8 | packet[25]);
        if (packet[20] != 0 || packet[21] != 0x0c) {
            wrong("a CHANNEL_BIND does not begin with its number");
        }
        run->last_number = number > run->last_number ? number : run->last_number;
    }
}

/* Takes what is due to the server, whose replies are then on their way. */
static void send_due(struct run *run)
{
    yarrowdoor_answer answer;
    while (yarrowdoor_poll_transmit(run->client, run->now, buffer, sizeof buffer, &answer) == YARROWDOOR_PACKET) {
        struct reply *reply = &run->replies[run->end++ % REPLIES];
        if (run->end - run->first > REPLIES) {
            wrong("too many replies are on their way");
        }
        note_number(run, buffer, answer.len);
        reply->due = run->now + DELAY;
        reply->len = bench_answer(buffer, answer.len, reply->bytes, sizeof reply->bytes);
        run->requests++;
    }
}

/* Passes in the replies that have arrived. */
static void receive_due(struct run *run)
{
    yarrowdoor_answer answer;
    while (run->first < run->end && run->replies[run->first % REPLIES].due <= run->now) {
        struct reply *reply = &run->replies[run->first++ % REPLIES];
        enum yarrowdoor_kind kind = yarrowdoor_recv(run->client, YARROWDOOR_UDP, &run->server, &run->local,
                                                    reply->bytes, reply->len, run->now, buffer, sizeof buffer, &answer);
        /* a request that waited for the pause may have been sent twice, and its second reply is ignored */
        if (kind != YARROWDOOR_HANDLED && kind != YARROWDOOR_IGNORED) {
            wrong("a reply is neither handled nor ignored");
        }
    }
}

static void take_events(struct run *run)
{
    yarrowdoor_answer answer;
    enum yarrowdoor_kind kind;
    while ((kind = yarrowdoor_poll_event(run->client, &answer)) != YARROWDOOR_NOTHING) {
        run->failed_permissions += kind == YARROWDOOR_PERMISSION_CREATE_FAILED;
        run->failed_channels += kind == YARROWDOOR_CHANNEL_CREATE_FAILED;
    }
}

/* Does all that is due up to this time, each at its own. */
static void run_until(struct run *run, uint64_t end)
{
    for (;;) {
        yarrowdoor_answer answer;
        receive_due(run);
        send_due(run);
        take_events(run);
        if (yarrowdoor_poll(run->client, run->now, &answer) != YARROWDOOR_WAIT_UNTIL) {
            wrong("the client has ended");
        }
        uint64_t next = answer.time;
        if (run->first < run->end && run->replies[run->first % REPLIES].due < next) {
            next = run->replies[run->first % REPLIES].due;
        }
        if (next > end) {
            run->now = end;
            return;
        }
        run->now = next > run->now ? next : run->now;
    }
}

/* A new client, which has its allocation after a second. */
static void start(struct run *run, uint64_t cadence)
{
    static const uint8_t seed[32];
    memset(run, 0, sizeof *run);
    run->local = yarrowdoor_ipv4(192, 168, 0, 1, 1000);
    run->server = yarrowdoor_ipv4(10, 0, 0, 2, 2000);
    yarrowdoor_settings settings = yarrowdoor_settings_of(YARROWDOOR_UDP, &run->local, &run->server);
    settings.request_cadence = cadence;
    if (yarrowdoor_new(&settings, (const uint8_t *)"user", 4, (const uint8_t *)"pass", 4, seed, 32, &run->client)) {
        wrong("a new client");
    }
    run_until(run, SECOND);
}

static void bind_peer(struct run *run, uint32_t number)
{
    yarrowdoor_answer answer;
    yarrowdoor_address peer = peer_of(number);
    if (yarrowdoor_bind_channel(run->client, YARROWDOOR_UDP, &peer, run->now, &answer) != YARROWDOOR_DONE) {
        wrong("a channel is refused");
    }
}

static void let_go(struct run *run, uint32_t number)
{
    yarrowdoor_answer answer;
    yarrowdoor_address peer = peer_of(number);
    if (yarrowdoor_set_channel_kept(run->client, YARROWDOOR_UDP, &peer, 0, &answer) != YARROWDOOR_DONE ||
        yarrowdoor_set_permission_kept(run->client, YARROWDOOR_UDP, &peer, 0, &answer) != YARROWDOOR_DONE) {
        wrong("a peer is not let go");
    }
}

/* The number of the channel over which data is sent to this peer, or 0 where it takes none. */
static uint16_t number_to(struct run *run, uint32_t number)
{
    yarrowdoor_answer answer;
    yarrowdoor_address peer = peer_of(number);
    if (yarrowdoor_send_to(run->client, YARROWDOOR_UDP, &peer, (const uint8_t *)"a", 1, run->now, buffer, sizeof buffer,
                           &answer) != YARROWDOOR_PACKET) {
        return 0;
    }
    uint16_t first = (uint16_t)(buffer[0] << 8 | buffer[1]);
    return first >= FIRST_NUMBER ? first : 0;
}

/* Receives a frame of this channel, which has to be data of this peer. */
static void hear(struct run *run, uint16_t channel, uint32_t number)
{
    uint8_t frame[8];
    yarrowdoor_answer answer;
    yarrowdoor_address peer = peer_of(number);
    size_t len = write_frame(frame, channel, 4);
    if (yarrowdoor_recv(run->client, YARROWDOOR_UDP, &run->server, &run->local, frame, len, run->now, buffer,
                        sizeof buffer, &answer) != YARROWDOOR_PEER_DATA_RANGE ||
        !yarrowdoor_is_same_address(&answer.peer, &peer)) {
        wrong("data of a peer does not arrive");
    }
}

/* The times of a request run from the call that makes it: so a burst is to be no more than is sent in half a second. */
static void keep(uint32_t count, uint64_t cadence, uint32_t burst, uint64_t seconds)
{
    struct run *run = &runs[0];
    start(run, cadence * MILLISECOND);
    for (uint32_t made = 0; made < count; made++) {
        bind_peer(run, made);
        if ((made + 1) % burst == 0) {
            run_until(run, run->now + 500 * MILLISECOND);
        }
    }
    run_until(run, seconds * SECOND);
    uint32_t open = 0;
    for (uint32_t number = 0; number < count; number++) {
        open += number_to(run, number) != 0;
    }
    printf("%u %u %u %u\n", run->failed_permissions, run->failed_channels, open, run->requests);
    yarrowdoor_free(run->client);
}

static uint32_t count_permissions(struct run *run)
{
    yarrowdoor_answer answer;
    yarrowdoor_relayed_address(run->client, 0, &answer);
    yarrowdoor_address relayed = answer.peer;
    uint32_t count = 0;
    while (yarrowdoor_permission(run->client, YARROWDOOR_UDP, &relayed, count, &answer) == YARROWDOOR_ADDRESS) {
        count++;
    }
    return count;
}

/* What it takes to receive a frame of this channel, in nanoseconds: the least of all batches. */
static double cost_of_a_frame(struct run *run, uint16_t channel, uint32_t number)
{
    double least = 1e9;
    for (int batch = 0; batch < BATCHES; batch++) {
        struct timespec begin, end;
        clock_gettime(CLOCK_MONOTONIC, &begin);
        for (int turn = 0; turn < TURNS; turn++) {
            hear(run, channel, number);
        }
        clock_gettime(CLOCK_MONOTONIC, &end);
        double took = ((double)(end.tv_sec - begin.tv_sec) * 1e9 + (double)(end.tv_nsec - begin.tv_nsec)) / TURNS;
        least = took < least ? took : least;
    }
    return least;
}

/* A client that has so many channels, and never had others. */
static double cost_with(uint32_t count)
{
    struct run *run = &runs[1];
    start(run, 5 * MILLISECOND);
    for (uint32_t number = 0; number < count; number++) {
        bind_peer(run, number);
        run_until(run, run->now + 100 * MILLISECOND);
    }
    double cost = cost_of_a_frame(run, number_to(run, count - 1), count - 1);
    yarrowdoor_free(run->client);
    return cost;
}

static size_t greater(size_t a, size_t b)
{
    return a > b ? a : b;
}

/* One peer comes, and the tenth before it goes. Returns the number of its channel. */
static uint16_t come_and_go(struct run *run, uint32_t number, uint64_t every)
{
    bind_peer(run, number);
    run_until(run, run->now + every);
    uint16_t channel = number_to(run, number);
    if (!channel) {
        wrong("a channel was not granted");
    }
    hear(run, channel, number);
    if (number >= AT_A_TIME) {
        let_go(run, number - AT_A_TIME);
    }
    return channel;
}

static void churn(uint32_t count, uint64_t seconds)
{
    struct run *run = &runs[0];
    uint64_t every = seconds * SECOND / count, hour = 3600 * SECOND, end = seconds * SECOND;
    size_t first_hour = 0, last_hour = 0;
    uint32_t permissions = 0;
    uint16_t channel = 0;
    start(run, 0);
    for (uint32_t number = 0; number < count; number++) {
        channel = come_and_go(run, number, every);
        size_t held = mallinfo2().uordblks;
        if (run->now <= hour) {
            first_hour = greater(first_hour, held);
        }
        if (run->now + hour >= end) {
            last_hour = greater(last_hour, held);
        }
        permissions = (uint32_t)greater(permissions, number % 100 ? 0 : count_permissions(run));
    }
    double cost = cost_of_a_frame(run, channel, count - 1), usual = cost_with(NUMBERS);
    uint32_t numbers = (uint32_t)(run->last_number - FIRST_NUMBER + 1);
    printf(
        "%u peers came and went: %u channel numbers, at most %u permissions, %zu and %zu bytes in the first and the last "
        "hour, %.0f ns for a frame and %.0f ns with %d channels\n",
        count, numbers, permissions, first_hour, last_hour, cost, usual, NUMBERS);
    if (numbers > NUMBERS || permissions > PERMISSIONS || last_hour > first_hour || cost > 2 * usual) {
        wrong("more than ten peers at a time need");
    }
    yarrowdoor_free(run->client);
}

static uint32_t number_in(const char *text)
{
    return (uint32_t)strtoul(text, NULL, 10);
}

int main(int argc, char **argv)
{
    if (argc == 6 && strcmp(argv[1], "keep") == 0 && number_in(argv[4])) {
        keep(number_in(argv[2]), number_in(argv[3]), number_in(argv[4]), number_in(argv[5]));
    } else if (argc == 4 && strcmp(argv[1], "churn") == 0) {
        churn(number_in(argv[2]), number_in(argv[3]));
    } else {
        fputs("usage: peers keep COUNT CADENCE BURST SECONDS | peers churn COUNT SECONDS\n", stderr);
        return 2;
    }
    return 0;
}
