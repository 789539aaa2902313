/* usage: replay [-s] [-r ROOM] [OUT FILE..]

   Runs a client by the calls of a trace, and prints the answer of each call, as turn_replay does: the trace of standard
   input, or of each FILE, whose answers go into a file of its name in the folder OUT. Its status is that of turn_replay,
   0, 2 or 3. With files it is 0, or 4 where one could not be answered.

   With -s each packet for a peer is put together of its head, the data and zeros. With -r only so many bytes of what a peer
   sent are taken at a time, and the others are read. */
#include "trace.h"
#include <inttypes.h>
#include <stdlib.h>
#include <string.h>
#ifdef _WIN32
#include <fcntl.h>
#include <io.h>
#endif

enum { ANSWERED = 0, BAD_LINE = 2, NO_MEMORY = 3, FAILED = 4 };

static struct trace trace;
static char input[MAX_TRACE + 1];
/* More than all bytes of a trace, so that all fits that a peer can have sent in it. */
static uint8_t buffer[MAX_TRACE + 65556];
static size_t buffer_len = sizeof buffer;

/* Prints a list. The number of its addresses stands before them, so they are counted first. */
static uint32_t list(yarrowdoor *client, const yarrowdoor_request *r, FILE *out)
{
    yarrowdoor_answer answer;
    uint32_t count = 0, kind;
    while ((kind = make_look(client, r, count, &answer)) == YARROWDOOR_ADDRESS) {
        count++;
    }
    fprintf(out, "list %" PRIu32, count);
    for (uint32_t i = 0; i < count && make_look(client, r, i, &answer) == YARROWDOOR_ADDRESS; i++) {
        print_listed(out, r, &answer);
    }
    putc('\n', out);
    return kind;
}

/* While bytes are left to be read, no call is made that may give more. */
static void check_unread(yarrowdoor *client, const yarrowdoor_request *r)
{
    static uint8_t place[65556];
    yarrowdoor_answer answer;
    yarrowdoor_address at = yarrowdoor_ipv4(10, 0, 0, 2, 2000);
    if (yarrowdoor_poll_transmit(client, r->time, place, sizeof place, &answer) != YARROWDOOR_UNREAD_BYTES ||
        yarrowdoor_poll_recv(client, r->time, place, sizeof place, &answer) != YARROWDOOR_UNREAD_BYTES ||
        yarrowdoor_recv(client, YARROWDOOR_TCP, &at, &at, place, 4, r->time, place + 4, 4, &answer) !=
            YARROWDOOR_UNREAD_BYTES) {
        fputs("replay: a call is made although bytes are left\n", stderr);
        exit(FAILED);
    }
}

/* Reads what did not fit into the buffer. Returns how many bytes there are in all. */
static size_t read_rest(yarrowdoor *client, const yarrowdoor_request *r, const yarrowdoor_answer *first)
{
    yarrowdoor_answer answer = *first;
    size_t len = first->len;
    while (answer.left > 0) {
        check_unread(client, r);
        size_t left = answer.left;
        uint32_t kind = yarrowdoor_read(client, buffer + len, buffer_len ? buffer_len : 1, &answer);
        if (kind != YARROWDOOR_BYTES || answer.len + answer.left != left) {
            fputs("replay: the rest cannot be read\n", stderr);
            exit(FAILED);
        }
        len += answer.len;
    }
    return len;
}

/* Makes a call and prints its answer. Returns its kind. */
static uint32_t answer_call(yarrowdoor *client, const struct call *call, FILE *out)
{
    yarrowdoor_answer answer;
    uint32_t kind = call->request.kind;
    if (kind == YARROWDOOR_CALL_RELAYED_ADDRESSES || kind == YARROWDOOR_CALL_PERMISSIONS) {
        return list(client, &call->request, out);
    }
    /* so that what the library leaves out shows */
    memset(&answer, 0xee, sizeof answer);
    kind = make_call(client, call, buffer, sizeof buffer, buffer_len, &answer);
    if (kind != answer.kind) {
        fputs("replay: two kinds of one answer\n", stderr);
        exit(FAILED);
    }
    if (kind == YARROWDOOR_OUT_OF_MEMORY) {
        return kind;
    }
    if (kind == YARROWDOOR_PEER_DATA_RANGE) {
        print_answer(out, &answer, call->bytes + answer.start, answer.len);
    } else if (kind == YARROWDOOR_PEER_DATA || kind == YARROWDOOR_PACKET) {
        size_t len = read_rest(client, &call->request, &answer);
        print_answer(out, &answer, buffer, len);
    } else {
        print_answer(out, &answer, buffer, 0);
    }
    return kind;
}

static int bad_line(FILE *out, size_t number, const char *kind)
{
    fprintf(out, "line %zu: bad %s\n", number, kind);
    return BAD_LINE;
}

static int no_memory(FILE *out)
{
    fputs("no memory\n", out);
    return NO_MEMORY;
}

static int run(struct text text, FILE *out)
{
    yarrowdoor *client;
    size_t number;
    int status = ANSWERED;
    const char *bad = parse_trace(&trace, text, &number);
    if (bad && number < 2) {
        return bad_line(out, number, bad);
    }
    uint32_t error = make_client(&trace.head, &client);
    if (error) {
        return error == YARROWDOOR_OUT_OF_MEMORY ? no_memory(out) : bad_line(out, 1, "head");
    }
    if (bad) {
        status = bad_line(out, number, bad);
    }
    for (size_t i = 0; status == ANSWERED && i < trace.count; i++) {
        if (answer_call(client, &trace.calls[i], out) == YARROWDOOR_OUT_OF_MEMORY) {
            status = no_memory(out);
        }
    }
    yarrowdoor_free(client);
    return status;
}

static int run_file(FILE *in, FILE *out)
{
    struct text text = {input, fread(input, 1, sizeof input, in)};
    if (ferror(in)) {
        return FAILED;
    }
    int status = run(text, out);
    return fflush(out) ? FAILED : status;
}

static int run_named(const char *folder, const char *name)
{
    char path[4096];
    const char *base = strrchr(name, '/');
    snprintf(path, sizeof path, "%s/%s", folder, base ? base + 1 : name);
    FILE *in = fopen(name, "rb"), *out = fopen(path, "wb");
    int status = in && out ? run_file(in, out) : FAILED;
    if (in) {
        fclose(in);
    }
    if (out && fclose(out)) {
        status = FAILED;
    }
    return status;
}

/* The standard streams as they are: Windows would write two bytes for the end of a line. */
static int run_streams(void)
{
#ifdef _WIN32
    if (_setmode(_fileno(stdin), _O_BINARY) == -1 || _setmode(_fileno(stdout), _O_BINARY) == -1) {
        return FAILED;
    }
#endif
    return run_file(stdin, stdout);
}

int main(int argc, char **argv)
{
    int first = 1;
    if (argc > first && strcmp(argv[first], "-s") == 0) {
        sends_heads = 1;
        first++;
    }
    if (argc > first + 1 && strcmp(argv[first], "-r") == 0) {
        buffer_len = strtoul(argv[first + 1], NULL, 10);
        first += 2;
    }
    if (first == argc) {
        return run_streams();
    }
    for (int i = first + 1; i < argc; i++) {
        int status = run_named(argv[first], argv[i]);
        if (status != ANSWERED && status != BAD_LINE) {
            fprintf(stderr, "replay: %s ended with status %d\n", argv[i], status);
            return FAILED;
        }
    }
    return 0;
}
