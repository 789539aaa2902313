/* Answers to lines. */
#include "trace.h"
#include <inttypes.h>

static void print_hex(FILE *out, const uint8_t *bytes, size_t len)
{
    static const char digits[] = "0123456789abcdef";
    for (size_t i = 0; i < len; i++) {
        putc(digits[bytes[i] >> 4], out);
        putc(digits[bytes[i] & 15], out);
    }
}

static void print_bytes(FILE *out, const uint8_t *bytes, size_t len)
{
    putc(' ', out);
    print_hex(out, bytes, len);
    if (len == 0) {
        putc('-', out);
    }
}

static void print_ip(FILE *out, const yarrowdoor_address *at)
{
    if (at->family == YARROWDOOR_IPV4) {
        fprintf(out, " %d.%d.%d.%d", at->ip[0], at->ip[1], at->ip[2], at->ip[3]);
        return;
    }
    fputs(" [", out);
    print_hex(out, at->ip, 16);
    putc(']', out);
}

static void print_address(FILE *out, const yarrowdoor_address *at)
{
    print_ip(out, at);
    fprintf(out, ":%d", at->port);
}

static void print_transport(FILE *out, uint32_t transport)
{
    fputs(transport == YARROWDOOR_TCP ? " tcp" : " udp", out);
}

static void print_refusal(FILE *out, const yarrowdoor_answer *a)
{
    static const char *const words[] = {"", "already-exists", "no-allocation", "no-permission", "no-socket",
                                        "", "not-granted"};
    if (a->error == YARROWDOOR_ERROR_EXPIRED) {
        fprintf(out, "refused expired %" PRIu64, a->time);
    } else {
        fprintf(out, "refused %s", a->error < 7 ? words[a->error] : "");
    }
}

/* The word of an answer that has a peer, over a transport or over none. */
static const char *word_of(uint32_t kind)
{
    switch (kind) {
    case YARROWDOOR_PEER_DATA:
    case YARROWDOOR_PEER_DATA_RANGE:
        return "data";
    case YARROWDOOR_PEER_ICMP:
        return "icmp";
    case YARROWDOOR_ALLOCATION_CREATED:
        return "allocated";
    case YARROWDOOR_PERMISSION_CREATED:
        return "permitted";
    case YARROWDOOR_PERMISSION_CREATE_FAILED:
        return "permit-failed";
    case YARROWDOOR_CHANNEL_CREATED:
        return "bound";
    case YARROWDOOR_CHANNEL_CREATE_FAILED:
        return "bind-failed";
    case YARROWDOOR_TCP_CONNECTED:
        return "connected";
    case YARROWDOOR_TCP_CONNECT_FAILED:
        return "connect-failed";
    default:
        return NULL;
    }
}

static void print_peer(FILE *out, const yarrowdoor_answer *a, const char *word)
{
    fputs(word, out);
    if (a->kind != YARROWDOOR_TCP_CONNECTED && a->kind != YARROWDOOR_TCP_CONNECT_FAILED) {
        print_transport(out, a->transport);
    }
    if (a->kind == YARROWDOOR_PERMISSION_CREATED || a->kind == YARROWDOOR_PERMISSION_CREATE_FAILED) {
        print_ip(out, &a->peer);
    } else {
        print_address(out, &a->peer);
    }
}

static void print_ends(FILE *out, const yarrowdoor_answer *a)
{
    print_address(out, &a->from);
    print_address(out, &a->to);
}

/* The word of an answer that says nothing else. */
static const char *lone_word_of(uint32_t kind)
{
    switch (kind) {
    case YARROWDOOR_DONE:
        return "ok";
    case YARROWDOOR_NOTHING:
        return "none";
    case YARROWDOOR_CLOSED:
        return "closed";
    case YARROWDOOR_HANDLED:
        return "handled";
    case YARROWDOOR_IGNORED:
        return "ignored";
    case YARROWDOOR_YES:
        return "yes";
    case YARROWDOOR_NO:
        return "no";
    default:
        return NULL;
    }
}

static void print_other(FILE *out, const yarrowdoor_answer *a)
{
    switch (a->kind) {
    case YARROWDOOR_REFUSED:
        print_refusal(out, a);
        break;
    case YARROWDOOR_WAIT_UNTIL:
        fprintf(out, "wait %" PRIu64, a->time);
        break;
    case YARROWDOOR_ALLOCATE_TCP_SOCKET:
        fprintf(out, "socket %" PRIu32, a->id);
        print_transport(out, a->transport);
        print_ends(out, a);
        print_address(out, &a->peer);
        break;
    case YARROWDOOR_TCP_CLOSE:
        fputs("close", out);
        print_ends(out, a);
        break;
    case YARROWDOOR_PACKET:
        fputs("send", out);
        print_transport(out, a->transport);
        print_ends(out, a);
        break;
    case YARROWDOOR_ALLOCATION_CREATE_FAILED:
        fprintf(out, "allocate-failed %" PRIu32, a->family);
        break;
    default:
        fprintf(out, "unexpected answer %" PRIu32, a->kind);
    }
}

void print_answer(FILE *out, const yarrowdoor_answer *a, const uint8_t *bytes, size_t len)
{
    const char *lone = lone_word_of(a->kind), *word = word_of(a->kind);
    if (lone) {
        fputs(lone, out);
    } else if (word) {
        print_peer(out, a, word);
    } else {
        print_other(out, a);
    }
    if (a->kind == YARROWDOOR_PEER_ICMP) {
        fprintf(out, " %d %d %" PRIu32, a->icmp_type, a->icmp_code, a->icmp_data);
    }
    if (a->kind == YARROWDOOR_PACKET || a->kind == YARROWDOOR_PEER_DATA || a->kind == YARROWDOOR_PEER_DATA_RANGE) {
        print_bytes(out, bytes, len);
    }
    putc('\n', out);
}

void print_listed(FILE *out, const yarrowdoor_request *request, const yarrowdoor_answer *answer)
{
    if (request->kind == YARROWDOOR_CALL_PERMISSIONS) {
        print_ip(out, &answer->peer);
    } else {
        print_transport(out, answer->transport);
        print_address(out, &answer->peer);
    }
}
