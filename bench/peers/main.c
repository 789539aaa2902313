/* usage: PROGRAM bytes|times|heap CHANNELS

   Brings a client to so many channels, and prints by lines of a word and a figure

   bytes   the packets that it sends and the data that it receives, in hexadecimal digits
   times   the nanoseconds that a turn of each row takes, in the least of its batches, and those of the quickest handshake
   heap    the allocations of a handshake, and the bytes of heap that the client holds then and with its channels, and has asked for */
#include "bench.h"
#include "client.h"
#include "heap.h"
#include "inputs.h"
#include <math.h>
#include <stdio.h>
#include <stdlib.h>
#include <string.h>

/* Of ../shared, where the benches in Rattle call them. */
uint64_t bench_next(uint32_t row, uint64_t sum);
void bench_start(uint32_t row);
void bench_stop(uint32_t row, uint64_t turns);

static const char *const names[] = {
    "frame_out", "frame_head", "frame_in", "around_out", "around_head", "around_in",
    "send_out",  "send_head",  "data_in",  "poll",       "transmit",    "handshake",
};
enum { HANDSHAKE = ROWS, HANDSHAKES = 300 };

uint8_t payload[PAYLOAD];
size_t payload_len = PAYLOAD;
int chosen;
static int channels;
static uint8_t frame[4 + PAYLOAD], indication[36 + PAYLOAD];

/* What a turn of each row answers, so that no refused call is timed. */
static const uint64_t wanted[ROWS] = {
    [FRAME_OUT] = 4 + PAYLOAD,
    [FRAME_HEAD] = 4 + PAYLOAD,
    [FRAME_IN] = PAYLOAD,
    [AROUND_OUT] = 4 + PAYLOAD,
    [AROUND_HEAD] = 4 + PAYLOAD,
    [AROUND_IN] = PAYLOAD,
    [SEND_OUT] = 36 + PAYLOAD,
    [SEND_HEAD] = 36 + PAYLOAD,
    [DATA_IN] = PAYLOAD,
    [POLL] = 1,
    [TRANSMIT] = 1,
};

static uint32_t peer_ip(int index)
{
    return 0x0a010000u + (uint32_t)index;
}

/* Binds so many channels. The turns use the one in the middle, which a search finds halfway from either end. */
static void open_with(int count)
{
    int middle = count / 2;
    uint16_t number = (uint16_t)(FIRST_CHANNEL + middle);
    channels = count;
    chosen = middle;
    client_open();
    for (int i = 0; i < count; i++) {
        client_bind(peer_ip(i));
    }
    client_aim(peer_ip(middle), number);
    write_channel_data(frame, number);
    write_data_indication(indication, peer_ip(middle), PORT);
}

/* Goes on to another channel. The step has no divisor in common with the numbers of channels that are measured, so each has its
   turn, and not in the order in which they were bound. */
static void go_around(void)
{
    static const int step = 1031;
    chosen = (chosen + step) % channels;
}

static void take_input(enum task row)
{
    if (row == FRAME_IN || row == AROUND_IN) {
        client_input(frame, sizeof frame);
    } else if (row == DATA_IN) {
        client_input(indication, sizeof indication);
    }
}

static void print_hex(const uint8_t *bytes, size_t len)
{
    for (size_t i = 0; i < len; i++) {
        printf("%02x", bytes[i]);
    }
}

static void print_bytes(void)
{
    for (enum task row = 0; row < POLL; row++) {
        if (!client_has(row)) {
            continue;
        }
        take_input(row);
        client_turn(row);
        struct made made = client_made(row);
        printf("%s ", names[row]);
        if (row == FRAME_IN || row == AROUND_IN || row == DATA_IN) {
            printf("%08x:%u:", made.ip, made.port);
        }
        print_hex(made.head, made.head_len);
        print_hex(made.body, made.body_len);
        printf("\n");
    }
}

static int is_right(uint32_t row, uint64_t turns, uint64_t sum)
{
    return row == HANDSHAKE || sum == turns * wanted[row];
}

static void time_handshakes(void)
{
    for (int i = 0; i < HANDSHAKES; i++) {
        bench_start(HANDSHAKE);
        client_open();
        bench_stop(HANDSHAKE, 1);
        client_close();
    }
}

static void time_row(enum task row)
{
    uint64_t turns, sum = 0;
    int is_around = row == AROUND_OUT || row == AROUND_HEAD || row == AROUND_IN;
    take_input(row);
    while ((turns = bench_next(row, sum)) > 0) {
        sum = 0;
        for (uint64_t i = 0; i < turns; i++) {
            sum += client_turn(row);
            if (is_around) {
                go_around();
            }
        }
    }
}

static void print_times(int count)
{
    begin(is_right);
    time_handshakes();
    open_with(count);
    for (enum task row = 0; row < ROWS; row++) {
        if (client_has(row)) {
            time_row(row);
        }
    }
    for (uint32_t row = 0; row <= HANDSHAKE; row++) {
        double found = NAN;
        keep_least(row, &found);
        if (!isnan(found)) {
            printf("%s %.1f\n", names[row], found);
        }
    }
    client_close();
}

static void print_heap(int count)
{
    if (!heap_held || !heap_asked || !heap_calls) {
        wrong("LD_PRELOAD");
    }
    client_open();
    client_close(); /* what is made once for all clients is there */
    size_t held = heap_held(), asked = heap_asked(), calls = heap_calls();
    client_open();
    size_t handshake = heap_calls() - calls, idle = heap_held() - held, asked_idle = heap_asked() - asked;
    for (int i = 0; i < count; i++) {
        client_bind(peer_ip(i));
    }
    size_t full = heap_held() - held, asked_full = heap_asked() - asked;
    printf("allocations %zu\nheld_idle %zu\nasked_idle %zu\nheld %zu\nasked %zu\n", handshake, idle, asked_idle, full,
           asked_full);
    client_close();
}

int main(int argc, char **argv)
{
    int count = argc == 3 ? atoi(argv[2]) : 0;
    if (count < 1 || count > CHANNELS || (count > 1 && !client_keeps_channels())) {
        wrong("the number of channels");
    }
    for (size_t i = 0; i < PAYLOAD; i++) {
        payload[i] = (uint8_t)(5 * i + 1);
    }
    client_prepare();
    if (strcmp(argv[1], "bytes") == 0) {
        open_with(count);
        print_bytes();
        client_close();
    } else if (strcmp(argv[1], "times") == 0) {
        print_times(count);
    } else if (strcmp(argv[1], "heap") == 0) {
        print_heap(count);
    } else {
        wrong("what is to be printed");
    }
    return 0;
}
