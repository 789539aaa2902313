/* What the parts of a driver share. */
#ifndef BENCH_H
#define BENCH_H

#include <stddef.h>
#include <stdint.h>

/* A row of the table. */
struct row {
    const char *name;
    /* What a turn has to answer. */
    uint64_t answer;
};

/* How often all is measured. So a row's time is found also where much else ran in some of the rounds. */
enum { ROUNDS = 5 };

/* Keeps what the least batch of a row took, in nanoseconds a turn, where nothing less was found before. */
void keep_least(uint32_t row, double *found);

/* Begins a measurement. The answers of a batch are looked at by `is_right`. */
void begin(int (*is_right)(uint32_t row, uint64_t turns, uint64_t sum));

/* How many bytes the program held more at the end of what a row timed once than at its beginning. */
double bytes_of(uint32_t row);

/* Stops the clock of what is timed once, while the driver itself has work to do, and lets it go on. */
void pause_clock(void);
void resume_clock(void);

/* Leaves a row out of the measurement. */
void skip(uint32_t row);

/* Ends the program, since a call answered something else. */
void wrong(const char *what);

/* Says what the machine is, and how much else it does. */
void print_machine(void);

/* Writes a channel frame of so many bytes of payload, and answers its length. */
size_t write_frame(uint8_t *place, uint16_t channel, size_t len);

/* Writes 16 bits. */
void write_16(uint8_t *place, uint16_t value);

/* Writes a STUN header with this transaction ID, of 12 bytes all alike (RFC 8489, section 5). */
void write_header(uint8_t *place, uint16_t type, uint16_t len, uint8_t id);

#endif
