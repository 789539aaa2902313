/* Traces: a head and a line for each call, as docs/rattle/LINES.md has them (section Traces). */
#ifndef TRACE_H
#define TRACE_H

#include "yarrowdoor.h"
#include <stdio.h>

enum { MAX_TRACE = 1048576, MAX_CALLS = 10000 };

/* A text, or a part of one. */
struct text {
    const char *at;
    size_t len;
};

/* The client of a trace. */
struct head {
    yarrowdoor_settings settings;
    const uint8_t *user, *password;
    size_t user_len, password_len;
    uint8_t seed[32];
};

/* A call of a trace: its request, and the bytes that go with it. */
struct call {
    yarrowdoor_request request;
    const uint8_t *bytes;
    size_t len;
};

struct trace {
    struct head head;
    struct call calls[MAX_CALLS];
    size_t count;
    /* Where the next bytes of a field are decoded to. */
    uint8_t bytes[MAX_TRACE];
    size_t used;
};

/* Parses a trace. Returns null, or which kind of line is bad, and its number. Whether the head has credentials is not
   tested: yarrowdoor_new tests it. */
const char *parse_trace(struct trace *trace, struct text text, size_t *number);

/* Makes a client by a head, as yarrowdoor_new does. */
uint32_t make_client(const struct head *head, yarrowdoor **client);

/* Whether make_call puts each packet for a peer together of its head, the data and zeros. */
extern int sends_heads;

/* Makes a call by the function of the header that is its own, with a buffer for packets and one for data of peers. Of a
   list it looks at the first address. */
uint32_t make_call(yarrowdoor *client, const struct call *call, uint8_t *buffer, size_t packet_len, size_t data_len,
                   yarrowdoor_answer *answer);

/* Looks at one address of a list. */
uint32_t make_look(yarrowdoor *client, const yarrowdoor_request *request, uint32_t index, yarrowdoor_answer *answer);

/* Prints the answer to a call, but for the addresses of a list. */
void print_answer(FILE *out, const yarrowdoor_answer *answer, const uint8_t *bytes, size_t len);

/* Prints an address of a list. */
void print_listed(FILE *out, const yarrowdoor_request *request, const yarrowdoor_answer *answer);

#endif
