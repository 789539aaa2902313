/* SPDX-License-Identifier: MIT OR Apache-2.0 */
/* For Eva: no inline function of yarrowdoor.h, and none of yarrowdoor.c, has undefined behaviour, for all numbers, lengths and
   addresses, whatever the memory holds: no access out of bounds, no overflow, no read of what is not initialised. */
#include "__fc_builtin.h"
#include "shape.h"

/* What the two exports ask for and may write: the bodies are those of the proved library. */
/*@ requires \valid_read(request) && \valid(answer) && \valid(client);
    requires \initialized(&request->time) && \initialized(&request->kind) && \initialized(&request->id);
    requires \initialized(&request->transport) && \initialized(&request->reserved);
    requires \initialized(&request->from) && \initialized(&request->to) && \initialized(&request->peer) && \initialized(&request->local);
    requires data: request->kind != YARROWDOOR_CALL_SEND_HEAD ==> bytes_len == 0 || \valid_read(bytes + (0 .. bytes_len - 1));
    requires room: buffer_len == 0 || \valid(buffer + (0 .. buffer_len - 1));
    requires cleared: answer->kind == 0 && answer->len == 0 && answer->left == 0 && answer->reserved_places[1] == 0;
    assigns \result \from client->state, *request;
    assigns client->state \from client->state, *request;
    assigns *answer \from client->state, *request;
    assigns buffer[0 .. buffer_len - 1] \from client->state;
*/
uint32_t yarrowdoor_call(yarrowdoor *client, const yarrowdoor_request *request, const uint8_t *bytes, size_t bytes_len,
                         uint8_t *buffer, size_t buffer_len, yarrowdoor_answer *answer);

/*@ requires \valid_read(request) && \valid(answer) && \valid_read(client);
    requires \initialized(&request->from) && \initialized(&request->to) && \initialized(&request->peer) && \initialized(&request->local);
    requires cleared: answer->kind == 0 && answer->len == 0 && answer->left == 0 && answer->reserved_places[1] == 0;
    assigns \result, *answer \from client->state, *request;
*/
uint32_t yarrowdoor_look(const yarrowdoor *client, const yarrowdoor_request *request, yarrowdoor_answer *answer);

static volatile int any;

static yarrowdoor_address any_address(void)
{
    yarrowdoor_address address;
    Frama_C_make_unknown((char *)&address, sizeof address);
    return address;
}

static uint32_t any_number(void)
{
    return Frama_C_unsigned_int_interval(0, ~0U);
}

/* One of the functions that make a call, with any arguments. The answer is not initialised, on purpose. */
static void any_call(yarrowdoor *client)
{
    static uint8_t buffer[65556], bytes[65535];
    yarrowdoor_address a = any_address(), b = any_address(), c = any_address(), d = any_address();
    yarrowdoor_answer answer;
    uint64_t now = Frama_C_unsigned_long_interval(0, ~0UL);
    uint32_t n = any_number(), m = any_number();
    size_t len = Frama_C_unsigned_long_interval(0, sizeof bytes),
           room = Frama_C_unsigned_long_interval(0, sizeof buffer);
    Frama_C_make_unknown((char *)bytes, sizeof bytes);
    Frama_C_make_unknown((char *)buffer, sizeof buffer);
    /* each call in a line of its own */
    /* clang-format off */
    switch (any) {
    case 1: yarrowdoor_poll(client, now, &answer); break;
    case 2: yarrowdoor_poll_transmit(client, now, buffer, room, &answer); break;
    case 3: yarrowdoor_poll_event(client, &answer); break;
    case 4: yarrowdoor_recv(client, n, &a, &b, bytes, len, now, buffer, room, &answer); break;
    case 5: yarrowdoor_poll_recv(client, now, buffer, room, &answer); break;
    case 6: yarrowdoor_read(client, buffer, room, &answer); break;
    case 7: yarrowdoor_send_to(client, n, &a, bytes, len, now, buffer, room, &answer); break;
    case 8: yarrowdoor_send_head(client, n, &a, now, now, buffer, room, &answer); break;
    case 9: yarrowdoor_create_permission(client, n, &a, now, &answer); break;
    case 10: yarrowdoor_have_permission(client, n, &a, &answer); break;
    case 11: yarrowdoor_set_permission_kept(client, n, &a, m, &answer); break;
    case 12: yarrowdoor_bind_channel(client, n, &a, now, &answer); break;
    case 13: yarrowdoor_set_channel_kept(client, n, &a, m, &answer); break;
    case 14: yarrowdoor_tcp_connect(client, &a, now, &answer); break;
    case 15: yarrowdoor_allocated_tcp_socket(client, m, n, &a, &b, &c, any ? &d : NULL, now, &answer); break;
    case 16: yarrowdoor_tcp_closed(client, &a, &b, now, &answer); break;
    case 17: yarrowdoor_delete(client, now, &answer); break;
    case 18: yarrowdoor_protocol_error(client, &answer); break;
    case 19: yarrowdoor_relayed_address(client, n, &answer); break;
    case 20: yarrowdoor_permission(client, n, &a, m, &answer); break;
    case 21: yarrowdoor_recv(client, n, &a, &b, NULL, 0, now, NULL, 0, &answer); break;
    case 22: yarrowdoor_abandon(client, now, buffer, room, &answer); break;
    case 23: yarrowdoor_next_permission(client, n, &a, m, &answer); break;
    default: break;
    }
    /* clang-format on */
}

/* A request as a value, as who calls an export makes it. */
static void any_request(yarrowdoor *client)
{
    yarrowdoor_answer answer;
    yarrowdoor_request request = yarrowdoor_request_of(any_number(), Frama_C_unsigned_long_interval(0, ~0UL));
    yarrowdoor_clear(&answer);
    yarrowdoor_look(client, &request, &answer);
}

/* Addresses of sockets, of any family. */
static void any_socket(void)
{
    yarrowdoor_address address = any_address();
    struct sockaddr_in in;
    struct sockaddr_in6 in6;
    struct sockaddr_storage to;
    Frama_C_make_unknown((char *)&in, sizeof in);
    Frama_C_make_unknown((char *)&in6, sizeof in6);
    in.sin_family = any ? AF_INET : 0;
    in6.sin6_family = any ? AF_INET6 : 0;
    yarrowdoor_of_sockaddr((struct sockaddr *)&in);
    yarrowdoor_of_sockaddr((struct sockaddr *)&in6);
    yarrowdoor_to_sockaddr(&address, &to);
}

int main(void)
{
    yarrowdoor client;
    yarrowdoor_address a = any_address(), b = any_address();
    yarrowdoor_settings settings = yarrowdoor_settings_of(any_number(), &a, &b);
    size_t len = strlen(yarrowdoor_kind_name(any_number())) + strlen(yarrowdoor_error_name(any_number()));
    Frama_C_make_unknown((char *)&client, sizeof client);
    any_call(&client);
    any_request(&client);
    any_socket();
    a = yarrowdoor_ipv4((uint8_t)any, (uint8_t)any, (uint8_t)any, (uint8_t)any, (uint16_t)any);
    return (int)len + yarrowdoor_is_same_address(&a, &b) + (int)settings.family;
}
