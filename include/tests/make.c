/* Requests to calls, each by the function of the header that is its own. */
#include "trace.h"
#include <string.h>

int sends_heads;

uint32_t make_client(const struct head *h, yarrowdoor **client)
{
    return yarrowdoor_new(&h->settings, h->user, h->user_len, h->password, h->password_len, h->seed, sizeof h->seed,
                          client);
}

uint32_t make_look(yarrowdoor *client, const yarrowdoor_request *r, uint32_t index, yarrowdoor_answer *answer)
{
    if (r->kind == YARROWDOOR_CALL_PERMISSIONS) {
        return yarrowdoor_permission(client, r->transport, &r->from, index, answer);
    }
    return yarrowdoor_relayed_address(client, index, answer);
}

/* Sends data to a peer by its head. The library does not see the data, which is put behind the head here. */
static uint32_t make_head(yarrowdoor *client, const struct call *call, uint8_t *buffer, yarrowdoor_answer *answer)
{
    const yarrowdoor_request *r = &call->request;
    uint32_t kind = yarrowdoor_send_head(client, r->transport, &r->peer, call->len, r->time, buffer,
                                         YARROWDOOR_MAX_OVERHEAD, answer);
    if (kind == YARROWDOOR_PACKET) {
        if (call->len > 0) {
            memcpy(buffer + answer->len, call->bytes, call->len);
        }
        memset(buffer + answer->len + call->len, 0, answer->start);
        answer->len += call->len + answer->start;
        answer->start = 0;
    }
    return kind;
}

/* A call that takes or gives bytes, or 0 where it is none. */
static uint32_t make_bytes_call(yarrowdoor *client, const struct call *call, uint8_t *buffer, size_t packet_len,
                                size_t data_len, yarrowdoor_answer *answer)
{
    const yarrowdoor_request *r = &call->request;
    switch (r->kind) {
    case YARROWDOOR_CALL_POLL_TRANSMIT:
        return yarrowdoor_poll_transmit(client, r->time, buffer, packet_len, answer);
    case YARROWDOOR_CALL_RECV:
        return yarrowdoor_recv(client, r->transport, &r->from, &r->to, call->bytes, call->len, r->time, buffer,
                               data_len, answer);
    case YARROWDOOR_CALL_POLL_RECV:
        return yarrowdoor_poll_recv(client, r->time, buffer, data_len, answer);
    case YARROWDOOR_CALL_SEND_TO:
        if (sends_heads) {
            return make_head(client, call, buffer, answer);
        }
        return yarrowdoor_send_to(client, r->transport, &r->peer, call->bytes, call->len, r->time, buffer,
                                  call->len + YARROWDOOR_MAX_OVERHEAD, answer);
    default:
        return 0;
    }
}

uint32_t make_call(yarrowdoor *client, const struct call *call, uint8_t *buffer, size_t packet_len, size_t data_len,
                   yarrowdoor_answer *answer)
{
    const yarrowdoor_request *r = &call->request;
    switch (r->kind) {
    case YARROWDOOR_CALL_POLL:
        return yarrowdoor_poll(client, r->time, answer);
    case YARROWDOOR_CALL_POLL_EVENT:
        return yarrowdoor_poll_event(client, answer);
    case YARROWDOOR_CALL_CREATE_PERMISSION:
        return yarrowdoor_create_permission(client, r->transport, &r->peer, r->time, answer);
    case YARROWDOOR_CALL_BIND_CHANNEL:
        return yarrowdoor_bind_channel(client, r->transport, &r->peer, r->time, answer);
    case YARROWDOOR_CALL_TCP_CONNECT:
        return yarrowdoor_tcp_connect(client, &r->peer, r->time, answer);
    case YARROWDOOR_CALL_ALLOCATED_TCP_SOCKET:
        return yarrowdoor_allocated_tcp_socket(client, r->id, r->transport, &r->from, &r->to, &r->peer,
                                               r->local.family ? &r->local : NULL, r->time, answer);
    case YARROWDOOR_CALL_DELETE:
        return yarrowdoor_delete(client, r->time, answer);
    case YARROWDOOR_CALL_TCP_CLOSED:
        return yarrowdoor_tcp_closed(client, &r->from, &r->to, r->time, answer);
    case YARROWDOOR_CALL_PROTOCOL_ERROR:
        return yarrowdoor_protocol_error(client, answer);
    case YARROWDOOR_CALL_HAVE_PERMISSION:
        return yarrowdoor_have_permission(client, r->transport, &r->peer, answer);
    case YARROWDOOR_CALL_SET_PERMISSION_KEPT:
        return yarrowdoor_set_permission_kept(client, r->transport, &r->peer, r->id, answer);
    case YARROWDOOR_CALL_SET_CHANNEL_KEPT:
        return yarrowdoor_set_channel_kept(client, r->transport, &r->peer, r->id, answer);
    case YARROWDOOR_CALL_PERMISSIONS:
    case YARROWDOOR_CALL_RELAYED_ADDRESSES:
        return make_look(client, r, 0, answer);
    default:
        return make_bytes_call(client, call, buffer, packet_len, data_len, answer);
    }
}
