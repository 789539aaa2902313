/* Times a stream of channel frames into a client over TCP, and into its buffer alone. */
#include "bench.h"
#include <math.h>
#include <stdio.h>

uint32_t bench_tcp(uint8_t *room, size_t len);

enum { PAYLOAD = 1200, FRAME = 4 + PAYLOAD, PIECE = 65536 };

enum { CLIENT, CLIENT_LENT, LENT, OWNED, ROWS };

/* What comes of each frame: its payload, or the whole of it. */
static const struct row rows[ROWS] = {
    [CLIENT] = {"client: recv, and poll_recv until there is none", PAYLOAD},
    [CLIENT_LENT] = {"client: recv, and poll_recv_with likewise", PAYLOAD},
    [LENT] = {"TurnTcpBuffer alone, frames lent", FRAME},
    [OWNED] = {"TurnTcpBuffer alone, frames given out", FRAME},
};

/* Frames one behind the other. A piece may begin in the middle of the first of them. */
static uint8_t room[PIECE + 2 * FRAME];

/* How many bytes of the stream were handed in, and how many of those were looked at. */
static uint64_t fed;
static uint64_t seen;

static int is_right(uint32_t row, uint64_t turns, uint64_t sum)
{
    uint64_t frames = fed / FRAME - seen / FRAME;
    uint64_t bytes = fed - seen;
    seen = fed;
    return bytes == turns * PIECE && sum == frames * rows[row].answer;
}

size_t bench_input(uint32_t row, uint8_t *at, size_t len)
{
    if (len < sizeof room) {
        wrong("the room");
    }
    for (size_t i = 0; i + FRAME <= sizeof room; i += FRAME) {
        write_frame(at + i, 0x4000, PAYLOAD);
    }
    /* both rows of the client have one stream */
    if (row != CLIENT_LENT) {
        fed = 0;
        seen = 0;
    }
    return 0;
}

size_t bench_turn(uint8_t *at, size_t len)
{
    (void)at;
    (void)len;
    size_t start = fed % FRAME;
    fed += PIECE;
    return start;
}

/* Measures a new client, and two new buffers. */
static void measure(double found[ROWS])
{
    begin(is_right);
    if (bench_tcp(room, sizeof room) != 0) {
        wrong("memory");
    }
    for (uint32_t row = 0; row < ROWS; row++) {
        keep_least(row, &found[row]);
    }
}

int main(void)
{
    double found[ROWS] = {NAN, NAN, NAN, NAN};
    for (int i = 0; i < ROUNDS; i++) {
        measure(found);
    }
    printf("%-52s %9s %9s\n", "TCP: channel frames of 1,200 bytes, pieces of 64 KiB", "us/piece", "GB/s");
    for (uint32_t row = 0; row < ROWS; row++) {
        printf("%-52s %9.1f %9.1f\n", rows[row].name, found[row] / 1000, PIECE / found[row]);
    }
    print_machine();
    return 0;
}
