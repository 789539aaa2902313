/* usage: LD_PRELOAD=shim.so refusals FILE..

   Runs each trace once for each of its allocations, and has that one refused. Up to there the answers have to be the
   same; the call that wanted the memory has to answer YARROWDOOR_OUT_OF_MEMORY, and to be one that takes memory; each
   later call has to answer; and all memory has to be freed. */
#include "shim.h"
#include "trace.h"
#include <stdlib.h>
#include <string.h>

#pragma weak shim_refuse
#pragma weak shim_count
#pragma weak shim_live

static struct trace trace;
static char input[MAX_TRACE + 1];
static uint8_t buffer[MAX_TRACE + 65556];
/* What each call answered with all memory, as a sum of the answer and its bytes. */
static uint64_t sums[MAX_CALLS];
static const char *name;
static unsigned long refusals;

static void fail(const char *what, size_t call)
{
    fprintf(stderr, "refusals: %s, call %zu: %s\n", name, call, what);
    exit(1);
}

/* FNV-1a. */
static uint64_t add(uint64_t sum, const void *bytes, size_t len)
{
    const uint8_t *at = bytes;
    for (size_t i = 0; i < len; i++) {
        sum = (sum ^ at[i]) * 1099511628211u;
    }
    return sum;
}

static uint64_t sum_of(const yarrowdoor_answer *answer)
{
    int has_bytes = answer->kind == YARROWDOOR_PACKET || answer->kind == YARROWDOOR_PEER_DATA;
    return add(add(14695981039346656037u, answer, sizeof *answer), buffer, has_bytes ? answer->len : 0);
}

static int takes_no_memory(uint32_t kind)
{
    return kind == YARROWDOOR_CALL_SEND_TO || kind == YARROWDOOR_CALL_POLL_EVENT ||
           kind == YARROWDOOR_CALL_HAVE_PERMISSION || kind == YARROWDOOR_CALL_RELAYED_ADDRESSES ||
           kind == YARROWDOOR_CALL_PERMISSIONS || kind == YARROWDOOR_CALL_SET_PERMISSION_KEPT ||
           kind == YARROWDOOR_CALL_SET_CHANNEL_KEPT;
}

/* Makes a call, and looks at what it says of memory. Returns whether it was refused. */
static int call_is_refused(yarrowdoor *client, size_t i, int was_refused)
{
    yarrowdoor_answer answer;
    const struct call *call = &trace.calls[i];
    uint32_t kind = make_call(client, call, buffer, sizeof buffer, sizeof buffer, &answer);
    int is_refused = kind == YARROWDOOR_OUT_OF_MEMORY;
    if (kind == 0 || kind > YARROWDOOR_NO_FRAME || kind != answer.kind) {
        fail("no such answer", i);
    }
    if (is_refused && (was_refused || takes_no_memory(call->request.kind))) {
        fail("it wants no memory", i);
    }
    if (!was_refused && !is_refused && sum_of(&answer) != sums[i]) {
        fail("another answer", i);
    }
    return is_refused;
}

/* Runs the trace with one allocation refused. */
static void run_refused(long number)
{
    yarrowdoor *client = (yarrowdoor *)input;
    long before = shim_live();
    int was_refused;
    shim_refuse(number);
    uint32_t error = make_client(&trace.head, &client);
    was_refused = error == YARROWDOOR_OUT_OF_MEMORY;
    if ((error && !was_refused) || (error && client != (yarrowdoor *)input)) {
        fail("a new client", 0);
    }
    for (size_t i = 0; !error && i < trace.count; i++) {
        was_refused |= call_is_refused(client, i, was_refused);
    }
    if (!error) {
        yarrowdoor_free(client);
    }
    shim_refuse(0);
    if (!was_refused) {
        fail("no call answered that memory was refused", trace.count);
    }
    if (shim_live() != before) {
        fail("memory is not freed", trace.count);
    }
    refusals++;
}

/* Runs the trace with all memory. Returns how many allocations it has. */
static long run_whole(void)
{
    yarrowdoor *client;
    long before = shim_live();
    shim_refuse(0);
    if (make_client(&trace.head, &client)) {
        return 0;
    }
    for (size_t i = 0; i < trace.count; i++) {
        yarrowdoor_answer answer;
        make_call(client, &trace.calls[i], buffer, sizeof buffer, sizeof buffer, &answer);
        sums[i] = sum_of(&answer);
    }
    yarrowdoor_free(client);
    long count = shim_count();
    if (shim_live() != before) {
        fail("memory is not freed", trace.count);
    }
    return count;
}

static void run_file(FILE *in)
{
    size_t number;
    struct text text = {input, fread(input, 1, sizeof input, in)};
    if (parse_trace(&trace, text, &number)) {
        return;
    }
    long count = run_whole();
    for (long i = 1; i <= count; i++) {
        run_refused(i);
    }
}

int main(int argc, char **argv)
{
    if (!shim_refuse) {
        fputs("refusals: shim.so is not preloaded\n", stderr);
        return 2;
    }
    for (int i = 1; i < argc; i++) {
        name = argv[i];
        FILE *in = fopen(name, "rb");
        if (!in) {
            fail("cannot be opened", 0);
        }
        run_file(in);
        fclose(in);
    }
    printf("refusals: %lu allocations refused in %d traces\n", refusals, argc - 1);
    return 0;
}
