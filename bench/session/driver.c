/* Times a datagram of a channel into a client and into a session over one, in turn, with 1 and 100 channels, and prints what each
   takes. */
#include "bench.h"
#include <math.h>
#include <stdio.h>

uint32_t bench_session(uint16_t channels, uint8_t *room, size_t room_len);

/* What the peer sends. */
enum { PAYLOAD = 1200 };

/* By how many nanoseconds a session may take longer than its client. */
enum { MOST = 8 };

enum { CLIENT, SESSION, ROWS };

static const struct row rows[ROWS] = {
    [CLIENT] = {"channel frame of 1,200 bytes into a client", PAYLOAD},
    [SESSION] = {"the same into a session", PAYLOAD},
};

static const int counts[] = {1, 100};

enum { COUNTS = sizeof counts / sizeof counts[0] };

static uint8_t room[1 << 16];
static int channels;

static int is_right(uint32_t row, uint64_t turns, uint64_t sum)
{
    return sum == turns * rows[row].answer;
}

/* The frame comes from the last peer. */
size_t bench_input(uint32_t row, uint8_t *at, size_t len)
{
    (void)row;
    if (len < sizeof room) {
        wrong("the room");
    }
    return write_frame(at, (uint16_t)(0x3fff + channels), PAYLOAD);
}

size_t bench_turn(uint8_t *at, size_t len)
{
    (void)at;
    (void)len;
    return 0;
}

/* Measures a client with so many channels, and then a session. */
static void measure(int count, double found[ROWS])
{
    begin(is_right);
    channels = count;
    if (bench_session((uint16_t)count, room, sizeof room) != 0) {
        wrong("memory");
    }
    for (uint32_t row = 0; row < ROWS; row++) {
        keep_least(row, &found[row]);
    }
}

/* Prints a row of the table, for each number of channels. */
static void print_row(const char *name, const double spent[COUNTS])
{
    printf("%-52s", name);
    for (int i = 0; i < COUNTS; i++) {
        printf(" %9.1f", spent[i]);
    }
    printf("\n");
}

/* Prints the table. Returns whether a session takes no longer than it may. */
static int print(double found[COUNTS][ROWS])
{
    int is_quick = 1;
    double more[COUNTS];
    printf("%-52s %9s %9s\n", "Session: nanoseconds, by the number of channels", "1", "100");
    for (int row = 0; row < ROWS; row++) {
        double spent[COUNTS];
        for (int i = 0; i < COUNTS; i++) {
            spent[i] = found[i][row];
        }
        print_row(rows[row].name, spent);
    }
    for (int i = 0; i < COUNTS; i++) {
        more[i] = found[i][SESSION] - found[i][CLIENT];
        is_quick = is_quick && more[i] <= MOST;
    }
    print_row("more than the client", more);
    return is_quick;
}

int main(void)
{
    double found[COUNTS][ROWS];
    for (int i = 0; i < COUNTS * ROWS; i++) {
        found[i / ROWS][i % ROWS] = NAN;
    }
    for (int i = 0; i < ROUNDS * COUNTS; i++) {
        measure(counts[i % COUNTS], found[i % COUNTS]);
    }
    int is_quick = print(found);
    print_machine();
    if (!is_quick) {
        wrong("the time of a session");
    }
    return 0;
}
