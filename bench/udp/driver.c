/* Times the calls of a client over UDP that has 1, 100 or 4,096 channels, and prints what each takes. */
#include "bench.h"
#include <math.h>
#include <stdio.h>
#include <string.h>

uint32_t bench_udp(uint16_t channels, uint8_t *room, size_t room_len, uint8_t *place, size_t place_len);
uint32_t bench_unanswered(uint16_t channels, uint8_t *room, size_t room_len);

/* What peers send, and what is sent to them. */
enum { PAYLOAD = 1200 };

/* A hostile message is the longest that a datagram over IPv4 carries, up to a multiple of four. Its attributes have
   no value, so there are as many as can be. */
enum { HOSTILE_BODY = 65484 };

enum { SOFTWARE = 0x8022, DATA_ATTRIBUTE = 0x0013 };

enum {
    FRAME_IN,
    DATA_IN,
    SUCCESS,
    ERROR,
    CHALLENGE,
    REQUEST,
    SIGNED,
    DATA,
    DATA_ALONE,
    PARSE,
    WRITE,
    BUILD,
    POLL,
    SEND,
    TRANSMIT,
    PERMITTED,
    RESPONSE,
    WAVE,
    SETUP,
    ROWS
};

/* A Send indication is a header, XOR-PEER-ADDRESS over IPv4, and DATA (RFC 8656, section 11.1). */
enum { INDICATION = 20 + 12 + 4 + PAYLOAD };

/* Each peer has one port, and an IP address of its own: 10.1.x.y. */
enum { PORT = 10000 };

static const struct row rows[ROWS] = {
    [FRAME_IN] = {"channel frame of 1,200 bytes in", PAYLOAD},
    [DATA_IN] = {"DATA indication of 1,200 bytes in", PAYLOAD},
    [WRITE] = {"frame of 1,200 bytes out, written into a place", 4 + PAYLOAD},
    [BUILD] = {"frame of 1,200 bytes out, built as a vector", 4 + PAYLOAD},
    [SEND] = {"Send indication of 1,200 bytes out, into a place", INDICATION},
    [PERMITTED] = {"have_permission", 1},
    [POLL] = {"poll, nothing to be done", 1},
    [TRANSMIT] = {"poll_transmit, nothing to be sent", 1},
    [RESPONSE] = {"response to no request, so many outstanding", 1},
    [WAVE] = {"one of so many requests sent again", 1},
    [SETUP] = {"one of so many channels bound", 1},
    [PARSE] = {"16,371 empty attributes: parsed, one walk", 1},
    [SUCCESS] = {"  as a success to no request", 1},
    [ERROR] = {"  as an error to no request", 1},
    [CHALLENGE] = {"  as an error to no request, REALM and NONCE last", 1},
    [REQUEST] = {"  as a request", 1},
    [SIGNED] = {"  as a request that a stranger signed", 1},
    [DATA] = {"  as a DATA indication", 1},
    [DATA_ALONE] = {"  as a DATA indication, each of them DATA", 1},
};

/* The order in which they are printed. */
static const int printed[ROWS] = {
    FRAME_IN, DATA_IN, WRITE,   BUILD, SEND,      PERMITTED, POLL,   TRANSMIT, RESPONSE,   WAVE,
    SETUP,    PARSE,   SUCCESS, ERROR, CHALLENGE, REQUEST,   SIGNED, DATA,     DATA_ALONE,
};

static const int counts[] = {1, 100, 4096};

enum { COUNTS = sizeof counts / sizeof counts[0] };

static uint8_t room[1 << 16];
static uint8_t place[1 << 11];
static int channels;

/* What is timed once has a turn for each channel. */
static int is_right(uint32_t row, uint64_t turns, uint64_t sum)
{
    if ((row == WAVE || row == SETUP) && turns != (uint64_t)channels) {
        return 0;
    }
    return sum == turns * rows[row].answer;
}

/* Data of the last peer (RFC 8656, section 11.6), whose address has the magic cookie's bits flipped. */
static size_t write_data(uint8_t *at)
{
    static const uint8_t head[] = {0x00, 0x12, 0x00, 0x08, 0x00, 0x01, 0x00, 0x00, 0x2b, 0x13, 0xa4, 0x42};
    write_header(at, 0x0017, sizeof head + 4 + PAYLOAD, 1);
    memcpy(at + 20, head, sizeof head);
    write_16(at + 26, PORT ^ 0x2112);
    write_16(at + 30, (uint16_t)(channels - 1) ^ 0xa442);
    write_16(at + 32, DATA_ATTRIBUTE);
    write_16(at + 34, PAYLOAD);
    memset(at + 36, 0x55, PAYLOAD);
    return 36 + PAYLOAD;
}

/* A message of that type, all of whose attributes are empty ones of that type, but for these last bytes. */
static size_t write_hostile(uint8_t *at, uint16_t type, uint16_t attribute, const uint8_t *last, size_t len)
{
    write_header(at, type, HOSTILE_BODY, 1);
    for (size_t i = 20; i < 20 + HOSTILE_BODY; i += 4) {
        write_16(at + i, attribute);
        write_16(at + i + 2, 0);
    }
    if (len > 0) {
        memcpy(at + 20 + HOSTILE_BODY - len, last, len);
    }
    return 20 + HOSTILE_BODY;
}

size_t bench_input(uint32_t row, uint8_t *at, size_t len)
{
    static const uint8_t challenge[] = {
        0x00, 0x14, 0x00, 0x05, 'r', 'e', 'a', 'l', 'm', 0, 0, 0,
        0x00, 0x15, 0x00, 0x05, 'n', 'o', 'n', 'c', 'e', 0, 0, 0,
    };
    static const uint8_t integrity[24] = {0x00, 0x08, 0x00, 0x14};
    if (len < sizeof room) {
        wrong("the room");
    }
    switch (row) {
    case FRAME_IN:
        return write_frame(at, (uint16_t)(0x3fff + channels), PAYLOAD);
    case DATA_IN:
        return write_data(at);
    case ERROR:
        return write_hostile(at, 0x0113, SOFTWARE, NULL, 0);
    case CHALLENGE:
        return write_hostile(at, 0x0113, SOFTWARE, challenge, sizeof challenge);
    case REQUEST:
        return write_hostile(at, 0x0001, SOFTWARE, NULL, 0);
    case SIGNED:
        return write_hostile(at, 0x0001, SOFTWARE, integrity, sizeof integrity);
    case DATA:
        return write_hostile(at, 0x0017, SOFTWARE, NULL, 0);
    case DATA_ALONE:
        return write_hostile(at, 0x0017, DATA_ATTRIBUTE, NULL, 0);
    case WRITE:
    case BUILD:
    case SEND:
        return PAYLOAD;
    case RESPONSE:
        write_header(at, 0x0109, 0, 1);
        return 20;
    default:
        return write_hostile(at, 0x0103, SOFTWARE, NULL, 0);
    }
}

size_t bench_turn(uint8_t *at, size_t len)
{
    (void)at;
    (void)len;
    return 0;
}

/* Measures a new client with so many channels, and one with so many requests outstanding. Returns how many bytes
   a channel and its permission hold. What is hostile costs the same however many there are. */
static double measure(int count, double found[ROWS])
{
    begin(is_right);
    for (uint32_t row = SUCCESS; row <= PARSE && count > 1; row++) {
        skip(row);
    }
    channels = count;
    switch (bench_udp((uint16_t)count, room, sizeof room, place, sizeof place)) {
    case 0:
        break;
    case 2:
        wrong("the channel after the last");
        break;
    default:
        wrong("memory");
    }
    double channel_bytes = bytes_of(SETUP) / count;
    if (bench_unanswered((uint16_t)count, room, sizeof room) != 0) {
        wrong("memory");
    }
    for (uint32_t row = 0; row < ROWS; row++) {
        keep_least(row, &found[row]);
    }
    return channel_bytes;
}

static void print(double found[COUNTS][ROWS], const double bytes[COUNTS])
{
    printf("%-52s %9s %9s %9s\n", "UDP: nanoseconds, by the number of channels", "1", "100", "4,096");
    for (int i = 0; i < ROWS; i++) {
        printf("%-52s", rows[printed[i]].name);
        for (int j = 0; j < COUNTS; j++) {
            double spent = found[j][printed[i]];
            isnan(spent) ? printf(" %9s", "") : printf(" %9.0f", spent);
        }
        printf("\n");
    }
    printf("%-52s", "bytes of a channel and its permission");
    for (int j = 0; j < COUNTS; j++) {
        printf(" %9.0f", bytes[j]);
    }
    printf("\n");
}

int main(void)
{
    static double found[COUNTS][ROWS];
    double bytes[COUNTS];
    for (int i = 0; i < COUNTS * ROWS; i++) {
        found[i / ROWS][i % ROWS] = NAN;
    }
    for (int i = 0; i < ROUNDS * COUNTS; i++) {
        bytes[i % COUNTS] = measure(counts[i % COUNTS], found[i % COUNTS]);
    }
    print(found, bytes);
    print_machine();
    return 0;
}
