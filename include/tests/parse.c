/* Lines of a trace to requests. */
#include "trace.h"
#include <string.h>

/* Takes the part up to the next separator. Returns 0 where no part is left. */
static int next_part(struct text *rest, char separator, struct text *part)
{
    if (!rest->at) {
        return 0;
    }
    const char *end = rest->len ? memchr(rest->at, separator, rest->len) : NULL;
    part->at = rest->at;
    part->len = end ? (size_t)(end - rest->at) : rest->len;
    rest->len = end ? rest->len - part->len - 1 : 0;
    rest->at = end ? end + 1 : NULL;
    return 1;
}

static int is_word(struct text text, const char *word)
{
    return text.len == strlen(word) && memcmp(text.at, word, text.len) == 0;
}

/* A decimal without leading zeros, at most so great. */
static int parse_decimal(struct text text, uint64_t most, uint64_t *value)
{
    uint64_t found = 0;
    if (text.len == 0 || text.len > 20 || (text.len > 1 && text.at[0] == '0')) {
        return 0;
    }
    for (size_t i = 0; i < text.len; i++) {
        uint64_t digit = (uint64_t)(text.at[i] - '0');
        if (text.at[i] < '0' || text.at[i] > '9' || found > (UINT64_MAX - digit) / 10) {
            return 0;
        }
        found = 10 * found + digit;
    }
    *value = found;
    return found <= most;
}

static int parse_decimal_32(struct text text, uint32_t most, uint32_t *value)
{
    uint64_t found = 0;
    int is_one = parse_decimal(text, most, &found);
    *value = (uint32_t)found;
    return is_one;
}

/* Parses the next part as a decimal. */
static int take_decimal(struct text *rest, char separator, uint32_t most, uint32_t *value)
{
    struct text part;
    return next_part(rest, separator, &part) && parse_decimal_32(part, most, value);
}

static int digit_of(char c)
{
    return c >= '0' && c <= '9' ? c - '0' : c >= 'a' && c <= 'f' ? c - 'a' + 10 : -1;
}

static int parse_hex(struct text text, uint8_t *bytes)
{
    for (size_t i = 0; i < text.len / 2; i++) {
        int high = digit_of(text.at[2 * i]), low = digit_of(text.at[2 * i + 1]);
        if (high < 0 || low < 0) {
            return 0;
        }
        bytes[i] = (uint8_t)(16 * high + low);
    }
    return text.len % 2 == 0;
}

/* Bytes, or `-` for none. */
static int take_bytes(struct trace *trace, struct text *fields, const uint8_t **bytes, size_t *len)
{
    struct text field;
    uint8_t *place = trace->bytes + trace->used;
    if (!next_part(fields, ' ', &field) || field.len == 0) {
        return 0;
    }
    int is_none = is_word(field, "-");
    *bytes = place;
    *len = is_none ? 0 : field.len / 2;
    trace->used += *len;
    return is_none || parse_hex(field, place);
}

static int take_transport(struct text *fields, uint32_t *transport)
{
    struct text field;
    if (!next_part(fields, ' ', &field)) {
        return 0;
    }
    *transport = is_word(field, "tcp") ? YARROWDOOR_TCP : YARROWDOOR_UDP;
    return is_word(field, "udp") || is_word(field, "tcp");
}

static int parse_ip(struct text text, yarrowdoor_address *address)
{
    memset(address, 0, sizeof *address);
    if (text.len == 34 && text.at[0] == '[' && text.at[33] == ']') {
        struct text digits = {text.at + 1, 32};
        address->family = YARROWDOOR_IPV6;
        return parse_hex(digits, address->ip);
    }
    address->family = YARROWDOOR_IPV4;
    for (int i = 0; i < 4; i++) {
        uint32_t value;
        if (!take_decimal(&text, '.', 255, &value)) {
            return 0;
        }
        address->ip[i] = (uint8_t)value;
    }
    return !text.at;
}

static int parse_address(struct text text, yarrowdoor_address *address)
{
    struct text ip;
    uint32_t port;
    if (!next_part(&text, ':', &ip) || !parse_ip(ip, address) || !take_decimal(&text, ':', 65535, &port)) {
        return 0;
    }
    address->port = (uint16_t)port;
    return !text.at;
}

static int take_ip(struct text *fields, yarrowdoor_address *address)
{
    struct text field;
    return next_part(fields, ' ', &field) && parse_ip(field, address);
}

static int take_address(struct text *fields, yarrowdoor_address *address)
{
    struct text field;
    return next_part(fields, ' ', &field) && parse_address(field, address);
}

static int take_address_or_none(struct text *fields, yarrowdoor_address *address)
{
    struct text field;
    if (!next_part(fields, ' ', &field)) {
        return 0;
    }
    memset(address, 0, sizeof *address);
    return is_word(field, "-") || parse_address(field, address);
}

/* One of some words, and the two numbers beside it. */
struct choice {
    const char *word;
    uint32_t first, other;
};

static int take_choice(struct text *fields, const struct choice *choices, uint32_t *first, uint32_t *other)
{
    struct text field;
    if (!next_part(fields, ' ', &field)) {
        return 0;
    }
    for (; choices->word; choices++) {
        if (is_word(field, choices->word)) {
            *first = choices->first;
            *other = choices->other;
            return 1;
        }
    }
    return 0;
}

static const struct choice FAMILIES[] = {{"4", 4, 0}, {"6", 6, 0}, {"4,6", 4, 6}, {"6,4", 6, 4}, {NULL, 0, 0}};
static const struct choice ALGORITHMS[] = {
    {"sha1", YARROWDOOR_SHA1, 0},
    {"sha256", YARROWDOOR_SHA256, 0},
    {"sha1,sha256", YARROWDOOR_SHA1, YARROWDOOR_SHA256},
    {"sha256,sha1", YARROWDOOR_SHA256, YARROWDOOR_SHA1},
    {NULL, 0, 0},
};
static const struct choice HIDING[] = {
    {"auto", YARROWDOOR_AUTO, 0},
    {"required", YARROWDOOR_REQUIRED, 0},
    {"disabled", YARROWDOOR_DISABLED, 0},
    {NULL, 0, 0},
};

static int take_time(struct text *parts, uint64_t *value)
{
    struct text part;
    return next_part(parts, ',', &part) && parse_decimal(part, UINT64_MAX, value);
}

static int parse_waits(struct text parts, yarrowdoor_settings *s)
{
    s->has_waits = 1;
    return take_time(&parts, &s->wait_initial) && take_time(&parts, &s->wait_max) &&
           take_decimal(&parts, ',', UINT32_MAX, &s->wait_count) && take_time(&parts, &s->wait_last) && !parts.at;
}

/* The waits, if there is a field for them, and the word for requests that are timed from when they are sent, if it is the last. */
static int take_timing(struct text *fields, yarrowdoor_settings *s)
{
    static const char FROM_SEND[] = "timed_from_send";
    struct text field;
    while (fields->at) {
        next_part(fields, ' ', &field);
        if (field.len == sizeof FROM_SEND - 1 && memcmp(field.at, FROM_SEND, field.len) == 0) {
            s->timed_from_send = 1;
            return !fields->at;
        }
        if (s->has_waits || !parse_waits(field, s)) {
            return 0;
        }
    }
    return 1;
}

static int take_seed(struct text *fields, uint8_t seed[32])
{
    struct text field;
    return next_part(fields, ' ', &field) && field.len == 64 && parse_hex(field, seed);
}

static int parse_head(struct trace *trace, struct text line)
{
    struct head *head = &trace->head;
    yarrowdoor_settings *s = &head->settings;
    uint32_t none;
    memset(head, 0, sizeof *head);
    return take_transport(&line, &s->transport) && take_address(&line, &s->local) && take_address(&line, &s->remote) &&
           take_transport(&line, &s->allocation_transport) &&
           take_choice(&line, FAMILIES, &s->family, &s->other_family) &&
           take_choice(&line, ALGORITHMS, &s->algorithm, &s->other_algorithm) &&
           take_choice(&line, HIDING, &s->anonymous, &none) && take_bytes(trace, &line, &head->user, &head->user_len) &&
           take_bytes(trace, &line, &head->password, &head->password_len) && take_seed(&line, head->seed) &&
           take_timing(&line, s);
}

static const struct choice NAMES[] = {
    {"poll", YARROWDOOR_CALL_POLL, 0},
    {"transmit", YARROWDOOR_CALL_POLL_TRANSMIT, 0},
    {"event", YARROWDOOR_CALL_POLL_EVENT, 0},
    {"recv", YARROWDOOR_CALL_RECV, 0},
    {"poll_recv", YARROWDOOR_CALL_POLL_RECV, 0},
    {"send", YARROWDOOR_CALL_SEND_TO, 0},
    {"permit", YARROWDOOR_CALL_CREATE_PERMISSION, 0},
    {"bind", YARROWDOOR_CALL_BIND_CHANNEL, 0},
    {"connect", YARROWDOOR_CALL_TCP_CONNECT, 0},
    {"socket", YARROWDOOR_CALL_ALLOCATED_TCP_SOCKET, 0},
    {"delete", YARROWDOOR_CALL_DELETE, 0},
    {"closed", YARROWDOOR_CALL_TCP_CLOSED, 0},
    {"error", YARROWDOOR_CALL_PROTOCOL_ERROR, 0},
    {"relayed", YARROWDOOR_CALL_RELAYED_ADDRESSES, 0},
    {"permissions", YARROWDOOR_CALL_PERMISSIONS, 0},
    {"have", YARROWDOOR_CALL_HAVE_PERMISSION, 0},
    {"release", YARROWDOOR_CALL_SET_PERMISSION_KEPT, 0},
    {"keep", YARROWDOOR_CALL_SET_PERMISSION_KEPT, 1},
    {NULL, 0, 0},
};

/* The grant that is kept or let go: a permission by its IP address, or a channel by its peer. */
static int take_grant(struct text *fields, yarrowdoor_request *r)
{
    struct text field;
    if (!next_part(fields, ' ', &field)) {
        return 0;
    }
    if (parse_ip(field, &r->peer)) {
        return 1;
    }
    r->kind = YARROWDOOR_CALL_SET_CHANNEL_KEPT;
    return parse_address(field, &r->peer);
}

static int take_arguments(struct trace *trace, struct text *fields, struct call *call)
{
    yarrowdoor_request *r = &call->request;
    switch (r->kind) {
    case YARROWDOOR_CALL_RECV:
        return take_transport(fields, &r->transport) && take_address(fields, &r->from) &&
               take_address(fields, &r->to) && take_bytes(trace, fields, &call->bytes, &call->len);
    case YARROWDOOR_CALL_SEND_TO:
        return take_transport(fields, &r->transport) && take_address(fields, &r->peer) &&
               take_bytes(trace, fields, &call->bytes, &call->len);
    case YARROWDOOR_CALL_CREATE_PERMISSION:
    case YARROWDOOR_CALL_HAVE_PERMISSION:
        return take_transport(fields, &r->transport) && take_ip(fields, &r->peer);
    case YARROWDOOR_CALL_SET_PERMISSION_KEPT:
        return take_transport(fields, &r->transport) && take_grant(fields, r);
    case YARROWDOOR_CALL_BIND_CHANNEL:
        return take_transport(fields, &r->transport) && take_address(fields, &r->peer);
    case YARROWDOOR_CALL_TCP_CONNECT:
        return take_address(fields, &r->peer);
    case YARROWDOOR_CALL_ALLOCATED_TCP_SOCKET:
        return take_decimal(fields, ' ', UINT32_MAX, &r->id) && take_transport(fields, &r->transport) &&
               take_address(fields, &r->from) && take_address(fields, &r->to) && take_address(fields, &r->peer) &&
               take_address_or_none(fields, &r->local);
    case YARROWDOOR_CALL_TCP_CLOSED:
        return take_address(fields, &r->from) && take_address(fields, &r->to);
    case YARROWDOOR_CALL_PERMISSIONS:
        return take_transport(fields, &r->transport) && take_address(fields, &r->from);
    default:
        return 1;
    }
}

static const char *parse_call(struct trace *trace, struct text line, struct call *call)
{
    struct text field;
    memset(call, 0, sizeof *call);
    if (!next_part(&line, ' ', &field) || !parse_decimal(field, YARROWDOOR_MAX_TIME, &call->request.time)) {
        return "moment";
    }
    if (!take_choice(&line, NAMES, &call->request.kind, &call->request.id)) {
        return "call";
    }
    if (!take_arguments(trace, &line, call) || line.at) {
        return "argument";
    }
    if (call->request.kind == YARROWDOOR_CALL_SEND_TO && trace->head.settings.allocation_transport == YARROWDOOR_UDP &&
        call->len > YARROWDOOR_MAX_PAYLOAD) {
        return "payload";
    }
    return NULL;
}

const char *parse_trace(struct trace *trace, struct text text, size_t *number)
{
    struct text line;
    const char *bad = NULL;
    trace->used = trace->count = *number = 0;
    if (text.len > MAX_TRACE) {
        return "size";
    }
    if (text.len > 0 && text.at[text.len - 1] == '\n') {
        text.len--;
    }
    *number = 1;
    if (!next_part(&text, '\n', &line) || !parse_head(trace, line)) {
        return "head";
    }
    while (!bad && next_part(&text, '\n', &line)) {
        *number = trace->count + 2;
        bad = trace->count == MAX_CALLS ? "size" : parse_call(trace, line, &trace->calls[trace->count]);
        trace->count++;
    }
    return bad;
}
