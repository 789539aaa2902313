/* Times the calls of the library for C, on clients over UDP that have 1, 100 and 4,096 channels, and prints what each
   takes. The rows that tools/measure/bench has too are the same calls: the difference is what the library adds. */
#include "bench.h"
#include "yarrowdoor.h"
#include <math.h>
#include <stdio.h>
#include <string.h>

/* Of ../shared, where the benches in Rattle call them. */
size_t bench_answer(const uint8_t *request, size_t len, uint8_t *room, size_t room_len);
uint64_t bench_next(uint32_t row, uint64_t sum);

/* What peers send, and what is sent to them. */
enum { PAYLOAD = 1200 };

/* Each peer has one port, and an IP address of its own: 10.1.x.y. To another port of the last one no channel is bound. */
enum { PORT = 10000, OTHER_PORT = 10001 };

/* A Send indication is a header, XOR-PEER-ADDRESS over IPv4, and DATA (RFC 8656, section 11.1). */
enum { INDICATION = 20 + 12 + 4 + PAYLOAD };

enum {
    NO_CALL,
    NO_LOOK,
    FRAME_IN,
    DATA_IN,
    FRAME_OUT,
    SEND,
    HAVE,
    RELAYED,
    POLL,
    TRANSMIT,
    EVENT,
    FRAME_READ,
    DATA_READ,
    FOUND,
    ROWS
};

static const struct row rows[ROWS] = {
    [NO_CALL] = {"a request of no call, refused", YARROWDOOR_BAD_CALL},
    [NO_LOOK] = {"the same, of yarrowdoor_look", YARROWDOOR_BAD_CALL},
    [FRAME_IN] = {"channel frame of 1,200 bytes in", PAYLOAD},
    [DATA_IN] = {"DATA indication of 1,200 bytes in", PAYLOAD},
    [FRAME_OUT] = {"frame of 1,200 bytes out, written into a place", 4 + PAYLOAD},
    [SEND] = {"Send indication of 1,200 bytes out, into a place", INDICATION},
    [HAVE] = {"have_permission", YARROWDOOR_YES},
    [RELAYED] = {"relayed_address", YARROWDOOR_ADDRESS},
    [POLL] = {"poll, nothing to be done", YARROWDOOR_WAIT_UNTIL},
    [TRANSMIT] = {"poll_transmit, nothing to be sent", YARROWDOOR_NOTHING},
    [EVENT] = {"poll_event, no event", YARROWDOOR_NOTHING},
    [FRAME_READ] = {"read_message, of a channel frame of 1,200 bytes", 4 + PAYLOAD},
    [DATA_READ] = {"read_message, of a DATA indication of 1,200 bytes", INDICATION},
    [FOUND] = {"read_attribute, DATA of the same", PAYLOAD},
};

static const int counts[] = {1, 100, 4096};

enum { COUNTS = sizeof counts / sizeof counts[0] };

/* More than a client ever sends or waits for before it has nothing to do for ten seconds. */
enum { MANY = 1024 };
static const uint64_t REST = 10000000000, MILLISECOND = 1000000;

static yarrowdoor *client;
static yarrowdoor_address local, server, peer, other;
static uint64_t now;
static uint8_t packet[65556], input[2048], data[PAYLOAD];
static size_t input_len;

static int is_right(uint32_t row, uint64_t turns, uint64_t sum)
{
    return sum == turns * rows[row].answer;
}

static void new_client(void)
{
    static const uint8_t seed[32];
    yarrowdoor_settings settings = yarrowdoor_settings_of(YARROWDOOR_UDP, &local, &server);
    if (yarrowdoor_new(&settings, (const uint8_t *)"user", 4, (const uint8_t *)"pass", 4, seed, 32, &client)) {
        wrong("a new client");
    }
    now = 0;
}

/* Sends what is due, and passes in what the server answers. */
static void exchange(void)
{
    yarrowdoor_answer answer;
    uint8_t reply[256];
    while (yarrowdoor_poll_transmit(client, now, packet, sizeof packet, &answer) == YARROWDOOR_PACKET) {
        size_t len = bench_answer(packet, answer.len, reply, sizeof reply);
        yarrowdoor_recv(client, YARROWDOOR_UDP, &server, &local, reply, len, now, packet, sizeof packet, &answer);
    }
    while (yarrowdoor_poll_event(client, &answer) != YARROWDOOR_NOTHING) {
    }
}

/* Goes on until the client has nothing to do for long. */
static void settle(void)
{
    for (int i = 0; i < MANY; i++) {
        yarrowdoor_answer answer;
        exchange();
        if (yarrowdoor_poll(client, now, &answer) != YARROWDOOR_WAIT_UNTIL) {
            wrong("poll");
        }
        if (answer.time > now + REST) {
            return;
        }
        now = answer.time > now ? answer.time : now + MILLISECOND;
    }
    wrong("a client that is never at rest");
}

static void bind_channels(int count)
{
    for (int i = 0; i < count; i++) {
        yarrowdoor_answer answer;
        peer = other = yarrowdoor_ipv4(10, 1, (uint8_t)(i >> 8), (uint8_t)i, PORT);
        other.port = OTHER_PORT;
        if (yarrowdoor_bind_channel(client, YARROWDOOR_UDP, &peer, now, &answer) != YARROWDOOR_DONE) {
            wrong("a channel");
        }
        settle();
    }
}

/* Data of the last peer (RFC 8656, section 11.6). */
static size_t write_data(uint8_t *at)
{
    static const uint8_t head[] = {0x00, 0x12, 0x00, 0x08, 0x00, 0x01, 0x00, 0x00, 0x21, 0x12, 0xa4, 0x42};
    write_header(at, 0x0017, sizeof head + 4 + PAYLOAD, 1);
    memcpy(at + 20, head, sizeof head);
    write_16(at + 26, peer.port ^ 0x2112);
    for (int i = 0; i < 4; i++) {
        at[28 + i] ^= peer.ip[i];
    }
    write_16(at + 32, 0x0013);
    write_16(at + 34, PAYLOAD);
    memset(at + 36, 0x55, PAYLOAD);
    return 36 + PAYLOAD;
}

static uint64_t receive(yarrowdoor_answer *answer)
{
    yarrowdoor_recv(client, YARROWDOOR_UDP, &server, &local, input, input_len, now, packet, sizeof packet, answer);
    return answer->len;
}

/* Sends the data, and returns the length of the packet. */
static uint64_t send_out(const yarrowdoor_address *to, yarrowdoor_answer *answer)
{
    yarrowdoor_send_to(client, YARROWDOOR_UDP, to, data, sizeof data, now, packet, sizeof packet, answer);
    return answer->len;
}

/* Reads what the first frame says, and returns the length of that. */
static uint64_t read_frame(void)
{
    yarrowdoor_message said;
    yarrowdoor_read_message(YARROWDOOR_UDP, input, input_len, &said);
    return said.len;
}

/* Finds the data, and returns the length of it. */
static uint64_t find_data(void)
{
    size_t start, len;
    yarrowdoor_read_attribute(input, input_len, 0x0013, &start, &len);
    return len;
}

/* A request of no call. */
static uint64_t no_call(uint32_t row, yarrowdoor_answer *answer)
{
    yarrowdoor_request request;
    yarrowdoor_begin(&request, 0, now);
    return row == NO_LOOK ? yarrowdoor_look_at(client, &request, answer)
                          : yarrowdoor_call_plain(client, &request, answer);
}

static uint64_t turn(uint32_t row)
{
    yarrowdoor_answer answer;
    switch (row) {
    case FRAME_IN:
    case DATA_IN:
        return receive(&answer);
    case FRAME_OUT:
        return send_out(&peer, &answer);
    case SEND:
        return send_out(&other, &answer);
    case POLL:
        return yarrowdoor_poll(client, now, &answer);
    case TRANSMIT:
        return yarrowdoor_poll_transmit(client, now, packet, sizeof packet, &answer);
    case EVENT:
        return yarrowdoor_poll_event(client, &answer);
    case HAVE:
        return yarrowdoor_have_permission(client, YARROWDOOR_UDP, &peer, &answer);
    case RELAYED:
        return yarrowdoor_relayed_address(client, 0, &answer);
    case FRAME_READ:
    case DATA_READ:
        return read_frame();
    case FOUND:
        return find_data();
    default:
        return no_call(row, &answer);
    }
}

/* Measures a new client with so many channels. */
static void measure(int count, double found[ROWS])
{
    new_client();
    settle();
    bind_channels(count);
    begin(is_right);
    for (uint32_t row = 0; row < ROWS; row++) {
        uint64_t turns, sum = 0;
        int is_data = row == DATA_IN || row == DATA_READ || row == FOUND;
        input_len = is_data ? write_data(input) : write_frame(input, (uint16_t)(0x3fff + count), PAYLOAD);
        while ((turns = bench_next(row, sum)) > 0) {
            sum = 0;
            for (uint64_t i = 0; i < turns; i++) {
                sum += turn(row);
            }
        }
        keep_least(row, &found[row]);
    }
    yarrowdoor_free(client);
}

int main(void)
{
    static double found[COUNTS][ROWS];
    for (int i = 0; i < COUNTS * ROWS; i++) {
        found[i / ROWS][i % ROWS] = NAN;
    }
    local = yarrowdoor_ipv4(192, 168, 0, 1, 1000);
    server = yarrowdoor_ipv4(10, 0, 0, 2, 2000);
    for (int i = 0; i < ROUNDS * COUNTS; i++) {
        measure(counts[i % COUNTS], found[i % COUNTS]);
    }
    printf("%-52s %9s %9s %9s\n", "library for C: nanoseconds, by number of channels", "1", "100", "4,096");
    for (int row = 0; row < ROWS; row++) {
        printf("%-52s", rows[row].name);
        for (int i = 0; i < COUNTS; i++) {
            printf(" %9.0f", found[i][row]);
        }
        printf("\n");
    }
    print_machine();
    return 0;
}
