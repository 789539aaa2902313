/* SPDX-License-Identifier: MIT OR Apache-2.0 */
/* What the functions of yarrowdoor.h that make a call pass on to the two exports, as contracts in ACSL, the language of Frama-C.
   The header has no annotation: a function is declared here again, behind it. tools/check/prove-header proves each contract but those of
   yarrowdoor_call and yarrowdoor_look, whose bodies are the proved library's, and that of yarrowdoor_clear, which cleared.c shows.

   Nothing is known of `reaches` but that an export establishes it for the request that it was passed. So a function whose contract
   ends in `reaches` for its own arguments has passed on exactly these to an export, whose number it returns. */
#ifndef YARROWDOOR_CONTRACTS_H
#define YARROWDOOR_CONTRACTS_H

#include "shape.h"

/* The macros below are ACSL, which clang-format takes for C. */
/* clang-format off */

/*@ axiomatic Reached {
      predicate reaches(integer kind, integer time, integer id, integer transport, integer result) reads \nothing;
      predicate reaches_bytes(uint8_t *bytes, integer len, integer result) reads \nothing;
      predicate reaches_buffer(uint8_t *buffer, integer len, integer result) reads \nothing;
      predicate reaches_from(yarrowdoor_address address, integer result) reads \nothing;
      predicate reaches_to(yarrowdoor_address address, integer result) reads \nothing;
      predicate reaches_peer(yarrowdoor_address address, integer result) reads \nothing;
      predicate reaches_local(yarrowdoor_address address, integer result) reads \nothing;
      predicate reaches_no_from(integer result) reads \nothing;
      predicate reaches_no_to(integer result) reads \nothing;
      predicate reaches_no_peer(integer result) reads \nothing;
      predicate reaches_no_local(integer result) reads \nothing;
    } */

/* The numbers and addresses of a request reach an export. */
#define REACHES(request)                                                                                                \
    ensures numbers: reaches(\old(request->kind), \old(request->time), \old(request->id), \old(request->transport), \result); \
    ensures at_from: reaches_from(\old(request->from), \result);                                                           \
    ensures at_to: reaches_to(\old(request->to), \result);                                                                 \
    ensures at_peer: reaches_peer(\old(request->peer), \result);                                                           \
    ensures at_local: reaches_local(\old(request->local), \result);                                                        \
    ensures no_from: no_address(\old(request->from)) ==> reaches_no_from(\result);                                      \
    ensures no_to: no_address(\old(request->to)) ==> reaches_no_to(\result);                                            \
    ensures no_peer: no_address(\old(request->peer)) ==> reaches_no_peer(\result);                                      \
    ensures no_local: no_address(\old(request->local)) ==> reaches_no_local(\result);

/* What is returned is the kind of the answer. */
#define ANSWERS ensures answered: \result == answer->kind;

/* A client that a call may change, one that it only looks at, and what else may be read or written. */
#define CHANGES requires \valid(client) && \valid(answer) && \separated(client, answer);
#define LOOKS requires \valid_read(client) && \valid(answer) && \separated(client, answer);
#define READS(address) requires \valid_read(address) && \separated(address, client) && \separated(address, answer);
#define DATA(bytes, len) requires data: len == 0 || \valid_read(bytes + (0 .. len - 1));
#define ROOM                                                                                                            \
    requires room: buffer_len == 0 || \valid(buffer + (0 .. buffer_len - 1));                                          \
    requires apart: \separated(client, answer, buffer + (0 .. buffer_len - 1));
#define BESIDE(address) requires \separated(address, buffer + (0 .. buffer_len - 1));

/* What a call writes. */
#define WRITES assigns *client, *answer;
#define FILLS assigns *client, *answer, buffer[0 .. buffer_len - 1];
#define SHOWS assigns *answer;

/* What reaches an export of the arguments. */
#define PASSES(kind, time, id, transport) ensures numbers: reaches(kind, time, id, transport, \result);
#define BYTES(bytes, len) ensures at_bytes: reaches_bytes(bytes, len, \result);
#define BUFFER(buffer, len) ensures at_buffer: reaches_buffer(buffer, len, \result);
#define NO_BYTES BYTES(\null, 0) BUFFER(\null, 0)
#define FROM(address) ensures at_from: reaches_from(\old(*address), \result);
#define TO(address) ensures at_to: reaches_to(\old(*address), \result);
#define PEER(address) ensures at_peer: reaches_peer(\old(*address), \result);
#define NO_FROM ensures no_from: reaches_no_from(\result);
#define NO_TO ensures no_to: reaches_no_to(\result);
#define NO_PEER ensures no_peer: reaches_no_peer(\result);
#define NO_LOCAL ensures no_local: reaches_no_local(\result);
#define NO_ADDRESSES NO_FROM NO_TO NO_PEER NO_LOCAL

/* ---- the exports: their contracts are assumed here, and proved of the library in Rattle */

/*@ CHANGES
    requires \valid_read(request) && \separated(request, client, answer);
    requires data: request->kind == YARROWDOOR_CALL_SEND_HEAD || bytes_len == 0 || \valid_read(bytes + (0 .. bytes_len - 1));
    ROOM
    BESIDE(request)
    requires cleared(answer) && request->reserved == 0;
    FILLS
    REACHES(request)
    BYTES(bytes, bytes_len)
    BUFFER(buffer, buffer_len)
    ANSWERS
*/
uint32_t yarrowdoor_call(yarrowdoor *client, const yarrowdoor_request *request, const uint8_t *bytes, size_t bytes_len,
                         uint8_t *buffer, size_t buffer_len, yarrowdoor_answer *answer);

/*@ LOOKS
    requires \valid_read(request) && \separated(request, client, answer);
    requires cleared(answer) && request->reserved == 0;
    SHOWS
    REACHES(request)
    NO_BYTES
    ANSWERS
*/
uint32_t yarrowdoor_look(const yarrowdoor *client, const yarrowdoor_request *request, yarrowdoor_answer *answer);

/* ---- how they do it */

/*@ requires \valid(request);
    assigns *request;
    ensures numbers: request->kind == kind && request->time == now && request->id == 0 && request->transport == 0 && request->reserved == 0;
    ensures addresses: no_address(request->from) && no_address(request->to) && no_address(request->peer) && no_address(request->local);
*/
static void yarrowdoor_begin(yarrowdoor_request *request, uint32_t kind, uint64_t now);

/*@ requires \valid(answer);
    assigns *answer;
    ensures cleared(answer);
*/
static void yarrowdoor_clear(yarrowdoor_answer *answer);

/*@ CHANGES
    requires \valid_read(request) && \separated(request, client, answer);
    requires request->reserved == 0;
    WRITES
    REACHES(request)
    NO_BYTES
    ANSWERS
*/
static enum yarrowdoor_kind yarrowdoor_call_plain(yarrowdoor *client, const yarrowdoor_request *request, yarrowdoor_answer *answer);

/*@ CHANGES
    requires \valid_read(request) && \separated(request, client, answer);
    requires data: request->kind == YARROWDOOR_CALL_SEND_HEAD || bytes_len == 0 || \valid_read(bytes + (0 .. bytes_len - 1));
    ROOM
    BESIDE(request)
    requires request->reserved == 0;
    FILLS
    REACHES(request)
    BYTES(bytes, bytes_len)
    BUFFER(buffer, buffer_len)
    ANSWERS
*/
static enum yarrowdoor_kind yarrowdoor_call_bytes(yarrowdoor *client, const yarrowdoor_request *request, const uint8_t *bytes,
                                                  size_t bytes_len, uint8_t *buffer, size_t buffer_len, yarrowdoor_answer *answer);

/*@ LOOKS
    requires \valid_read(request) && \separated(request, client, answer);
    requires request->reserved == 0;
    SHOWS
    REACHES(request)
    NO_BYTES
    ANSWERS
*/
static enum yarrowdoor_kind yarrowdoor_look_at(const yarrowdoor *client, const yarrowdoor_request *request, yarrowdoor_answer *answer);

/* ---- the functions that make a call */

/*@ CHANGES WRITES PASSES(YARROWDOOR_CALL_POLL, now, 0, 0) NO_BYTES NO_ADDRESSES ANSWERS */
enum yarrowdoor_kind yarrowdoor_poll(yarrowdoor *client, uint64_t now, yarrowdoor_answer *answer);

/*@ CHANGES ROOM FILLS PASSES(YARROWDOOR_CALL_POLL_TRANSMIT, now, 0, 0) BYTES(\null, 0) BUFFER(buffer, buffer_len) NO_ADDRESSES ANSWERS */
enum yarrowdoor_kind yarrowdoor_poll_transmit(yarrowdoor *client, uint64_t now, uint8_t *buffer, size_t buffer_len,
                                              yarrowdoor_answer *answer);

/*@ CHANGES WRITES PASSES(YARROWDOOR_CALL_POLL_EVENT, 0, 0, 0) NO_BYTES NO_ADDRESSES ANSWERS */
enum yarrowdoor_kind yarrowdoor_poll_event(yarrowdoor *client, yarrowdoor_answer *answer);

/*@ CHANGES READS(from) READS(to) DATA(bytes, bytes_len) ROOM BESIDE(from) BESIDE(to) FILLS
    PASSES(YARROWDOOR_CALL_RECV, now, 0, transport) BYTES(bytes, bytes_len) BUFFER(buffer, buffer_len) FROM(from) TO(to) NO_PEER NO_LOCAL ANSWERS */
enum yarrowdoor_kind yarrowdoor_recv(yarrowdoor *client, uint32_t transport, const yarrowdoor_address *from,
                                     const yarrowdoor_address *to, const uint8_t *bytes, size_t bytes_len, uint64_t now,
                                     uint8_t *buffer, size_t buffer_len, yarrowdoor_answer *answer);

/*@ CHANGES ROOM FILLS PASSES(YARROWDOOR_CALL_POLL_RECV, now, 0, 0) BYTES(\null, 0) BUFFER(buffer, buffer_len) NO_ADDRESSES ANSWERS */
enum yarrowdoor_kind yarrowdoor_poll_recv(yarrowdoor *client, uint64_t now, uint8_t *buffer, size_t buffer_len, yarrowdoor_answer *answer);

/*@ CHANGES ROOM FILLS PASSES(YARROWDOOR_CALL_READ, 0, 0, 0) BYTES(\null, 0) BUFFER(buffer, buffer_len) NO_ADDRESSES ANSWERS */
enum yarrowdoor_kind yarrowdoor_read(yarrowdoor *client, uint8_t *buffer, size_t buffer_len, yarrowdoor_answer *answer);

/*@ CHANGES READS(peer) DATA(data, data_len) ROOM BESIDE(peer) FILLS
    PASSES(YARROWDOOR_CALL_SEND_TO, now, 0, transport) BYTES(data, data_len) BUFFER(buffer, buffer_len) PEER(peer) NO_FROM NO_TO NO_LOCAL ANSWERS */
enum yarrowdoor_kind yarrowdoor_send_to(yarrowdoor *client, uint32_t transport, const yarrowdoor_address *peer, const uint8_t *data,
                                        size_t data_len, uint64_t now, uint8_t *buffer, size_t buffer_len, yarrowdoor_answer *answer);

/*@ CHANGES READS(peer) ROOM BESIDE(peer) FILLS
    PASSES(YARROWDOOR_CALL_SEND_HEAD, now, 0, transport) BYTES(\null, data_len) BUFFER(buffer, buffer_len) PEER(peer) NO_FROM NO_TO NO_LOCAL ANSWERS */
enum yarrowdoor_kind yarrowdoor_send_head(yarrowdoor *client, uint32_t transport, const yarrowdoor_address *peer, size_t data_len,
                                          uint64_t now, uint8_t *buffer, size_t buffer_len, yarrowdoor_answer *answer);

/*@ CHANGES READS(peer) WRITES PASSES(YARROWDOOR_CALL_CREATE_PERMISSION, now, 0, transport) NO_BYTES PEER(peer) NO_FROM NO_TO NO_LOCAL ANSWERS */
enum yarrowdoor_kind yarrowdoor_create_permission(yarrowdoor *client, uint32_t transport, const yarrowdoor_address *peer, uint64_t now,
                                                  yarrowdoor_answer *answer);

/*@ LOOKS READS(peer) SHOWS PASSES(YARROWDOOR_CALL_HAVE_PERMISSION, 0, 0, transport) NO_BYTES PEER(peer) NO_FROM NO_TO NO_LOCAL ANSWERS */
enum yarrowdoor_kind yarrowdoor_have_permission(const yarrowdoor *client, uint32_t transport, const yarrowdoor_address *peer,
                                                yarrowdoor_answer *answer);

/*@ CHANGES READS(peer) WRITES PASSES(YARROWDOOR_CALL_SET_PERMISSION_KEPT, 0, is_kept, transport) NO_BYTES PEER(peer) NO_FROM NO_TO NO_LOCAL ANSWERS */
enum yarrowdoor_kind yarrowdoor_set_permission_kept(yarrowdoor *client, uint32_t transport, const yarrowdoor_address *peer,
                                                    uint32_t is_kept, yarrowdoor_answer *answer);

/*@ CHANGES READS(peer) WRITES PASSES(YARROWDOOR_CALL_BIND_CHANNEL, now, 0, transport) NO_BYTES PEER(peer) NO_FROM NO_TO NO_LOCAL ANSWERS */
enum yarrowdoor_kind yarrowdoor_bind_channel(yarrowdoor *client, uint32_t transport, const yarrowdoor_address *peer, uint64_t now,
                                             yarrowdoor_answer *answer);

/*@ CHANGES READS(peer) WRITES PASSES(YARROWDOOR_CALL_SET_CHANNEL_KEPT, 0, is_kept, transport) NO_BYTES PEER(peer) NO_FROM NO_TO NO_LOCAL ANSWERS */
enum yarrowdoor_kind yarrowdoor_set_channel_kept(yarrowdoor *client, uint32_t transport, const yarrowdoor_address *peer,
                                                 uint32_t is_kept, yarrowdoor_answer *answer);

/*@ CHANGES READS(peer) WRITES PASSES(YARROWDOOR_CALL_TCP_CONNECT, now, 0, 0) NO_BYTES PEER(peer) NO_FROM NO_TO NO_LOCAL ANSWERS */
enum yarrowdoor_kind yarrowdoor_tcp_connect(yarrowdoor *client, const yarrowdoor_address *peer, uint64_t now, yarrowdoor_answer *answer);

/*@ CHANGES READS(from) READS(to) READS(peer)
    requires local == \null || (\valid_read(local) && \separated(local, client) && \separated(local, answer));
    WRITES
    PASSES(YARROWDOOR_CALL_ALLOCATED_TCP_SOCKET, now, id, transport) NO_BYTES FROM(from) TO(to) PEER(peer)
    ensures at_local: local != \null ==> reaches_local(\old(*local), \result);
    ensures no_local: local == \null ==> reaches_no_local(\result);
    ANSWERS */
enum yarrowdoor_kind yarrowdoor_allocated_tcp_socket(yarrowdoor *client, uint32_t id, uint32_t transport,
                                                     const yarrowdoor_address *from, const yarrowdoor_address *to,
                                                     const yarrowdoor_address *peer, const yarrowdoor_address *local, uint64_t now,
                                                     yarrowdoor_answer *answer);

/*@ CHANGES READS(local) READS(remote) WRITES
    PASSES(YARROWDOOR_CALL_TCP_CLOSED, now, 0, 0) NO_BYTES FROM(local) TO(remote) NO_PEER NO_LOCAL ANSWERS */
enum yarrowdoor_kind yarrowdoor_tcp_closed(yarrowdoor *client, const yarrowdoor_address *local, const yarrowdoor_address *remote,
                                           uint64_t now, yarrowdoor_answer *answer);

/*@ CHANGES WRITES PASSES(YARROWDOOR_CALL_DELETE, now, 0, 0) NO_BYTES NO_ADDRESSES ANSWERS */
enum yarrowdoor_kind yarrowdoor_delete(yarrowdoor *client, uint64_t now, yarrowdoor_answer *answer);

/*@ CHANGES ROOM FILLS PASSES(YARROWDOOR_CALL_ABANDON, now, 0, 0) BYTES(\null, 0) BUFFER(buffer, buffer_len) NO_ADDRESSES ANSWERS */
enum yarrowdoor_kind yarrowdoor_abandon(yarrowdoor *client, uint64_t now, uint8_t *buffer, size_t buffer_len, yarrowdoor_answer *answer);

/*@ CHANGES WRITES PASSES(YARROWDOOR_CALL_PROTOCOL_ERROR, 0, 0, 0) NO_BYTES NO_ADDRESSES ANSWERS */
enum yarrowdoor_kind yarrowdoor_protocol_error(yarrowdoor *client, yarrowdoor_answer *answer);

/*@ LOOKS SHOWS PASSES(YARROWDOOR_CALL_RELAYED_ADDRESSES, 0, index, 0) NO_BYTES NO_ADDRESSES ANSWERS */
enum yarrowdoor_kind yarrowdoor_relayed_address(const yarrowdoor *client, uint32_t index, yarrowdoor_answer *answer);

/*@ LOOKS READS(relayed) SHOWS PASSES(YARROWDOOR_CALL_PERMISSIONS, 0, index, transport) NO_BYTES FROM(relayed) NO_TO NO_PEER NO_LOCAL ANSWERS */
enum yarrowdoor_kind yarrowdoor_permission(const yarrowdoor *client, uint32_t transport, const yarrowdoor_address *relayed,
                                           uint32_t index, yarrowdoor_answer *answer);

/*@ LOOKS READS(relayed) SHOWS PASSES(YARROWDOOR_CALL_NEXT_PERMISSION, 0, cursor, transport) NO_BYTES FROM(relayed) NO_TO NO_PEER NO_LOCAL ANSWERS */
enum yarrowdoor_kind yarrowdoor_next_permission(const yarrowdoor *client, uint32_t transport, const yarrowdoor_address *relayed,
                                                uint32_t cursor, yarrowdoor_answer *answer);

/* ---- addresses */

/*@ requires \valid_read(a) && \valid_read(b);
    assigns \nothing;
    ensures \result != 0 <==> same_address(a, b); */
int yarrowdoor_is_same_address(const yarrowdoor_address *a, const yarrowdoor_address *b);

#endif
