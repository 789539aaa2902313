/* Batches of turns, and what the least of them took. */
#include "bench.h"
#include <malloc.h>
#include <math.h>
#include <stdio.h>
#include <stdlib.h>
#include <string.h>
#include <time.h>

enum { ROWS = 32, BATCHES = 16 };

/* A batch is to take that many nanoseconds at least. */
static const double LEAST_BATCH = 2e6;

static int (*is_right)(uint32_t, uint64_t, uint64_t);
static double least[ROWS];
static int skipped[ROWS];

/* The row that is under way, its next batch, and what began. */
static uint32_t now_row;
static int batch;
static uint64_t turns;
static double began;

/* What is timed once: how long the clock stood still, and how many bytes were in use when it began. */
static double paused, pause_began;
static double held, bytes[ROWS];

static double nanos(void)
{
    struct timespec now;
    clock_gettime(CLOCK_MONOTONIC, &now);
    return 1e9 * (double)now.tv_sec + (double)now.tv_nsec;
}

void begin(int (*judge)(uint32_t, uint64_t, uint64_t))
{
    is_right = judge;
    now_row = UINT32_MAX;
    for (int row = 0; row < ROWS; row++) {
        least[row] = NAN;
        bytes[row] = NAN;
        skipped[row] = 0;
    }
}

void skip(uint32_t row)
{
    skipped[row] = 1;
}

void keep_least(uint32_t row, double *found)
{
    if (!(*found <= least[row])) {
        *found = least[row];
    }
}

double bytes_of(uint32_t row)
{
    return bytes[row];
}

/* How many bytes of memory are in use. */
static double in_use(void)
{
    struct mallinfo2 info = mallinfo2();
    return (double)info.uordblks + (double)info.hblkhd;
}

/* How long it takes to read the clock. */
static double reading(void)
{
    double quickest = INFINITY;
    for (int i = 0; i < 100; i++) {
        double start = nanos();
        quickest = fmin(quickest, nanos() - start);
    }
    return quickest;
}

void pause_clock(void)
{
    pause_began = nanos();
}

void resume_clock(void)
{
    paused += nanos() - pause_began;
}

void bench_start(uint32_t row)
{
    if (row >= ROWS) {
        wrong("a row");
    }
    held = in_use();
    paused = reading();
    began = nanos();
}

void bench_stop(uint32_t row, uint64_t count)
{
    double spent = nanos() - began - paused;
    if (row >= ROWS || !is_right(row, count, count)) {
        wrong("what is timed once");
    }
    bytes[row] = in_use() - held;
    if (!(least[row] <= spent / (double)count)) {
        least[row] = spent / (double)count;
    }
}

/* Takes the time of the batch that ends. A row's first batches find out how many turns one needs. */
static void end_batch(uint32_t row, double spent, uint64_t sum)
{
    if (!is_right(row, turns, sum)) {
        fprintf(stderr, "row %u: %llu turns answered %llu\n", row, (unsigned long long)turns, (unsigned long long)sum);
        wrong("a call");
    }
    if (batch == 0 && spent < LEAST_BATCH) {
        turns *= 2;
        return;
    }
    batch++;
    if (!(least[row] <= spent / (double)turns)) {
        least[row] = spent / (double)turns;
    }
}

uint64_t bench_next(uint32_t row, uint64_t sum)
{
    double end = nanos();
    if (row >= ROWS || skipped[row]) {
        return 0;
    }
    if (row != now_row) {
        now_row = row;
        batch = 0;
        turns = 1;
    } else {
        end_batch(row, end - began, sum);
    }
    if (batch == BATCHES) {
        return 0;
    }
    began = nanos();
    return turns;
}

void wrong(const char *what)
{
    fprintf(stderr, "bench: %s is not what it should be\n", what);
    exit(1);
}

/* The part of a line of the file behind this word. */
static void print_line(const char *file, const char *word)
{
    char line[256];
    FILE *in = fopen(file, "r");
    while (in && fgets(line, sizeof line, in)) {
        if (strncmp(line, word, strlen(word)) == 0) {
            char *colon = strchr(line, ':');
            printf("%s", colon ? colon + 2 : line);
            break;
        }
    }
    if (in) {
        fclose(in);
    }
}

void print_machine(void)
{
    double load = 0;
    getloadavg(&load, 1);
    printf("load %.1f on ", load);
    fflush(stdout);
    print_line("/proc/cpuinfo", "model name");
}
