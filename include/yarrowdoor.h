/* SPDX-License-Identifier: MIT OR Apache-2.0 */
/* Yarrowdoor: a TURN client that does no I/O (RFC 8656, 6062 and 6156; messages by RFC 8489), for C99 and C++.

   The caller owns the sockets and the clock. It passes in bytes and times, and gets packets to send, data of peers,
   events, and the time at which to call again:

       for (;;) {
           send each packet of yarrowdoor_poll_transmit, until it answers YARROWDOOR_NOTHING;
           handle each event of yarrowdoor_poll_event, until it answers YARROWDOOR_NOTHING;
           yarrowdoor_poll: YARROWDOOR_WAIT_UNTIL names the wake-up time, in answer.time;
           wait for a packet of the server, up to the wake-up time, and pass it to yarrowdoor_recv;
       }

   Each call answers by a number, which is also answer.kind; the other fields that a kind uses are named beside it, and
   those that it does not use are 0. Times are nanoseconds of a clock of the caller's choice that never goes back, at
   most 2^62. Lengths are bytes. Ports and numbers are in the byte order of the host.

   What the caller owes, since nothing checks it:
   - A client is a pointer that yarrowdoor_new has put there, and that was not passed to yarrowdoor_free.
   - After fork(2) one of the two processes uses a client, and the other one frees it or leaves it alone: both have the same
     seed, and would send requests with the same transaction IDs.
   - One call of a client at a time, and the memory behind its pointer is neither read nor written.
   - No pointer is null, except those to bytes and buffers of length 0, to the data of a head, and the client of
     yarrowdoor_free. All behind a pointer is readable and initialised, also what is only written, and what
     is not const is writable. Of the functions that make a call the answer need not be initialised: they set it to 0.
   - What a call writes (its buffer, its answer) overlaps nothing else that is passed to it, and until it returns nothing
     else touches what it was passed. The calls that only look may share a client (yarrowdoor_look).

   Reserved bytes are 0 on the way in, and a call with another one there is refused. On the way out they are 0.

   No pointer into memory of the library is given to the caller: bytes are copied to the caller's buffer, or named by
   their place in the bytes that the caller passed in. The library reads no clock, opens nothing and starts no thread.
   Its memory is that of malloc, and it leaves errno as malloc does.

   The functions that make a call are inline. With YARROWDOOR_NO_INLINE defined they are only declared, and those of the
   library are called, as other languages do. */
#ifndef YARROWDOOR_H
#define YARROWDOOR_H

#include <stddef.h>
#include <stdint.h>
#include <string.h>

/* A cast of each language, so that neither a program in C nor one in C++ gets a warning. */
#ifdef __cplusplus
#define YARROWDOOR_CAST(type, value) static_cast<type>(value)
#else
#define YARROWDOOR_CAST(type, value) ((type)(value))
#endif

/* The version of this header: that of the library is yarrowdoor_version(). */
#define YARROWDOOR_VERSION_MAJOR 0
#define YARROWDOOR_VERSION_MINOR 1
#define YARROWDOOR_VERSION_PATCH 0
#define YARROWDOOR_VERSION                                                                                             \
    (YARROWDOOR_CAST(uint32_t, YARROWDOOR_VERSION_MAJOR) << 16 |                                                       \
     YARROWDOOR_CAST(uint32_t, YARROWDOOR_VERSION_MINOR) << 8 | YARROWDOOR_CAST(uint32_t, YARROWDOOR_VERSION_PATCH))

/* How the functions stand here that are inline: with YARROWDOOR_DEFINE, which the library's own source defines, they are
   its symbols. */
#if defined(YARROWDOOR_NO_INLINE) || defined(YARROWDOOR_DEFINE)
#define YARROWDOOR_INLINE
#else
#define YARROWDOOR_INLINE static inline
#endif

#ifdef __cplusplus
extern "C" {
#endif

/* A client, between yarrowdoor_new and yarrowdoor_free. */
typedef struct yarrowdoor yarrowdoor;

/* ---- numbers */

/* What carries packets. */
enum yarrowdoor_transport {
    YARROWDOOR_UDP = 0, /* datagrams */
    YARROWDOOR_TCP = 1  /* a stream of bytes */
};

/* The family of an address. */
enum yarrowdoor_family {
    YARROWDOOR_NO_ADDRESS = 0, /* there is no address */
    YARROWDOOR_IPV4 = 4,
    YARROWDOOR_IPV6 = 6
};

/* How requests are signed (RFC 8489, sections 14.5 and 14.6). */
enum yarrowdoor_algorithm {
    YARROWDOOR_SHA1 = 1,  /* MESSAGE-INTEGRITY */
    YARROWDOOR_SHA256 = 2 /* MESSAGE-INTEGRITY-SHA256 */
};

/* Whether requests hide the user name (USERHASH; RFC 8489, section 14.4). */
enum yarrowdoor_anonymous {
    YARROWDOOR_AUTO = 0,     /* as the client sees the server offer it: never, so far */
    YARROWDOOR_REQUIRED = 1, /* always */
    YARROWDOOR_DISABLED = 2  /* never */
};

/* A buffer of this many bytes holds every packet of yarrowdoor_poll_transmit: each is shorter. */
#define YARROWDOOR_MAX_PACKET YARROWDOOR_CAST(size_t, 65556)

/* What the packet of yarrowdoor_send_to may have beyond its data, in bytes: its buffer needs as much more, and that of
   yarrowdoor_send_head as much. */
#define YARROWDOOR_MAX_OVERHEAD YARROWDOOR_CAST(size_t, 64)

/* The most data of yarrowdoor_send_to if the allocation relays over UDP, in bytes. */
#define YARROWDOOR_MAX_PAYLOAD YARROWDOOR_CAST(size_t, 65504)

/* The greatest time, in nanoseconds: 146 years. */
#define YARROWDOOR_MAX_TIME (YARROWDOOR_CAST(uint64_t, 1) << 62)

/* No pause between two requests, as request_cadence of the settings. */
#define YARROWDOOR_NO_PAUSE (~YARROWDOOR_CAST(uint64_t, 0))

/* The bytes of a seed. */
#define YARROWDOOR_SEED_LEN YARROWDOOR_CAST(size_t, 32)

/* What a call answers. A later version may have more kinds, so a switch over them needs a default. */
enum yarrowdoor_kind {
    /* Nothing was done. Of the next five the first that holds is answered, and the client is as it was. */
    YARROWDOOR_BAD_TIME = 2,     /* the time is over 2^62 ns */
    YARROWDOOR_BAD_CALL = 3,     /* there is no such call, it lacks a transport or an address, or a reserved byte is
                                    not 0 */
    YARROWDOOR_BAD_PAYLOAD = 4,  /* the data has over 65,504 bytes, and the allocation relays over UDP */
    YARROWDOOR_UNREAD_BYTES = 5, /* yarrowdoor_read has to read the rest of an earlier answer first */
    YARROWDOOR_SMALL_BUFFER = 6, /* the buffer of yarrowdoor_send_to or yarrowdoor_send_head is too small */

    /* A memory allocation failed. The client is valid, and may have ended: poll it. */
    YARROWDOOR_OUT_OF_MEMORY = 1,

    /* The client refuses the call, and error says why. */
    YARROWDOOR_REFUSED = 7,

    YARROWDOOR_DONE = 8,    /* it is done */
    YARROWDOOR_NOTHING = 9, /* there is none */

    /* of yarrowdoor_poll */
    YARROWDOOR_WAIT_UNTIL = 10,          /* nothing is due before time: the wake-up time, which may be before now */
    YARROWDOOR_ALLOCATE_TCP_SOCKET = 11, /* open a data connection to `to`, for peer: id, transport, from, to, peer */
    YARROWDOOR_TCP_CLOSE = 12,           /* close the connection from `from` to `to` */
    YARROWDOOR_CLOSED = 13,              /* the client has ended: it makes no more requests */

    /* of yarrowdoor_poll_transmit, yarrowdoor_abandon, yarrowdoor_send_to and yarrowdoor_send_head */
    YARROWDOOR_PACKET = 14, /* send the len bytes in the buffer over transport, from `from` to `to`; first read left
                               more; of a head, behind it the data and start bytes of 0 */

    /* of yarrowdoor_recv and yarrowdoor_poll_recv */
    YARROWDOOR_HANDLED = 15,         /* the bytes were for the client itself */
    YARROWDOOR_IGNORED = 16,         /* the bytes, over TCP the first message in them, are not shown to be the server's
                                        (as a 401 to a wrong password), or not for this client */
    YARROWDOOR_PEER_DATA = 17,       /* peer sent data over transport: len bytes in the buffer, and left more to read */
    YARROWDOOR_PEER_DATA_RANGE = 34, /* peer sent data over transport: len of the bytes passed in, from start on */
    YARROWDOOR_PEER_ICMP = 18, /* an ICMP packet came for data to peer: transport, icmp_type, icmp_code, icmp_data */

    /* of yarrowdoor_read, for data of a peer and for packets */
    YARROWDOOR_BYTES = 19, /* len bytes in the buffer, and left more to read */

    /* of the calls that only look */
    YARROWDOOR_ADDRESS = 20, /* peer is the address at this index; transport, if it is a relayed one */
    YARROWDOOR_YES = 21,
    YARROWDOOR_NO = 22,

    /* of yarrowdoor_poll_event */
    YARROWDOOR_ALLOCATION_CREATED = 23,       /* peer is the relayed address, of which transport is relayed */
    YARROWDOOR_ALLOCATION_CREATE_FAILED = 24, /* there is no relayed address of family, for whatever reason */
    YARROWDOOR_PERMISSION_CREATED = 25,       /* the IP address of peer, whose port is 0, has a permission, over
                                                 transport */
    YARROWDOOR_PERMISSION_CREATE_FAILED = 26, /* the IP address of peer, whose port is 0, has no permission (any
                                                 more) */
    YARROWDOOR_CHANNEL_CREATED = 27,          /* peer has a channel, over transport */
    YARROWDOOR_CHANNEL_CREATE_FAILED = 28,    /* peer got no channel, or has it no longer */
    YARROWDOOR_TCP_CONNECTED = 29,            /* there is a data connection to peer */
    YARROWDOOR_TCP_CONNECT_FAILED = 30,       /* a data connection to peer was refused, or not made in time */

    /* of yarrowdoor_new, beside 0 and YARROWDOOR_OUT_OF_MEMORY */
    YARROWDOOR_BAD_SETTINGS = 31,    /* a number or an address is none, a reserved byte is not 0, or it is UDP with an
                                        allocation over TCP */
    YARROWDOOR_BAD_CREDENTIALS = 32, /* the user name has not 1 to 508 bytes, or the password over 65,535 */
    YARROWDOOR_BAD_SEED = 33,        /* the seed has not 32 bytes */

    /* of yarrowdoor_read_message, beside YARROWDOOR_NOTHING and YARROWDOOR_BAD_CALL */
    YARROWDOOR_MESSAGE = 35,      /* a STUN message (RFC 8489, section 5) */
    YARROWDOOR_CHANNEL_DATA = 36, /* ChannelData (RFC 8656, section 12.4) */
    YARROWDOOR_NO_FRAME = 37,     /* neither, or a malformed message; over UDP also what is cut short, no bytes, and
                                     bytes behind a message */

    YARROWDOOR_KIND_WIDTH = 0x7fffffff /* no kind: the type has 32 bits */
};

/* Why a client refuses a call, as the error of YARROWDOOR_REFUSED. The client is as it was, but that
   YARROWDOOR_ERROR_NO_ALLOCATION for an allocation past its expiry marks it: it is not used again. */
enum yarrowdoor_error {
    YARROWDOOR_ERROR_ALREADY_EXISTS = 1, /* it is active, or requested already */
    YARROWDOOR_ERROR_NO_ALLOCATION = 2,  /* there is no allocation for it */
    YARROWDOOR_ERROR_NO_PERMISSION = 3,  /* the peer has no permission */
    YARROWDOOR_ERROR_NO_SOCKET = 4,      /* no data connection to the peer is bound */
    YARROWDOOR_ERROR_EXPIRED = 5,        /* the peer had a channel, and may have another only after time */
    YARROWDOOR_ERROR_NOT_GRANTED = 6     /* there is no such permission or channel, pending or active */
};

/* The class of a STUN message (RFC 8489, section 5). */
enum yarrowdoor_message_class {
    YARROWDOOR_CLASS_REQUEST = 0,
    YARROWDOOR_CLASS_INDICATION = 1,
    YARROWDOOR_CLASS_SUCCESS = 2,
    YARROWDOOR_CLASS_ERROR = 3
};

/* ---- structs */

/* An IP address with a port, or none. */
typedef struct yarrowdoor_address {
    uint8_t ip[16];   /* first byte first; IPv4 uses the first four, and the others are 0 */
    uint32_t flow;    /* sin6_flowinfo of an IPv6 address, else 0 */
    uint32_t scope;   /* sin6_scope_id of an IPv6 address, else 0 */
    uint16_t port;    /* in the byte order of the host */
    uint8_t family;   /* YARROWDOOR_IPV4, YARROWDOOR_IPV6, or YARROWDOOR_NO_ADDRESS */
    uint8_t reserved; /* 0 */
} yarrowdoor_address;

/* What a new client is and does. yarrowdoor_settings_of gives the usual ones. */
typedef struct yarrowdoor_settings {
    uint64_t wait_initial; /* to the second transmission of a request, in nanoseconds, from its first one, or with
                              timed_from_send 0 from when it is made; then doubled */
    uint64_t wait_max;     /* the longest wait between two transmissions, in nanoseconds */
    uint64_t wait_last;    /* the wait after the last transmission, in nanoseconds */
    uint32_t wait_count;   /* how often a request is transmitted over UDP in all; once if wait_initial is at most
                              1 ms */
    uint32_t has_waits;    /* 0: the waits of RFC 8489, section 6.2.1, and the four above are not read */
    uint32_t transport;    /* between client and server */
    uint32_t allocation_transport; /* between server and peers; over TCP only if transport is TCP (RFC 6062) */
    uint32_t family;               /* of the relayed address: YARROWDOOR_IPV4 or YARROWDOOR_IPV6 */
    uint32_t other_family;         /* of a second relayed address, or 0 */
    uint32_t algorithm;            /* that the client accepts. Of two it uses SHA-256, if the server offers that */
    uint32_t other_algorithm;      /* that it accepts too, or 0 */
    uint32_t anonymous;            /* YARROWDOOR_AUTO, YARROWDOOR_REQUIRED or YARROWDOOR_DISABLED */
    uint16_t max_stale_nonces;     /* that are answered in a row; the next challenge ends the client. 0: nine, the
                                      default in Rust; yarrowdoor_settings_of sets 256 */
    uint16_t timed_from_send;      /* 1: a queued request waits for its response from when its first copy is
                                      transmitted (RFC 8489, section 6.2.1). 0: from when it is made;
                                      yarrowdoor_settings_of sets 1 */
    yarrowdoor_address local;      /* the client's address: that of the socket */
    yarrowdoor_address remote;     /* the server's address */
    uint64_t request_cadence;      /* the pause between two requests, in nanoseconds. 0: 50 ms; YARROWDOOR_NO_PAUSE:
                                      none; yarrowdoor_settings_of sets 5 ms */
    uint64_t keepalive;            /* after this time without a packet a Binding indication keeps the path to the
                                      server alive, in nanoseconds; less than 1 s is taken as 1 s. 0: never. For a
                                      NAT 15 s are usual */
    uint64_t refresh_ahead; /* how long before its expiry a grant is refreshed, but not before half of its lifetime is
                               over, in nanoseconds; less than 1 s is taken as 1 s. 0: 60 s */
    uint64_t reserved_places[2]; /* 0 */
} yarrowdoor_settings;

/* A call: the functions below fill it in. */
typedef struct yarrowdoor_request {
    uint64_t time;
    uint32_t kind;
    uint32_t id;
    uint32_t transport;
    uint32_t reserved;
    yarrowdoor_address from;
    yarrowdoor_address to;
    yarrowdoor_address peer;
    yarrowdoor_address local;
} yarrowdoor_request;

/* What a call answers: enum yarrowdoor_kind says which fields each kind uses. The others are 0. */
typedef struct yarrowdoor_answer {
    uint32_t kind;      /* of enum yarrowdoor_kind */
    uint32_t error;     /* of enum yarrowdoor_error */
    uint64_t time;      /* in nanoseconds */
    size_t len;         /* bytes in the buffer from its front on, or of those passed in */
    size_t start;       /* where the data begins in the bytes passed in */
    size_t left;        /* bytes that did not fit into the buffer: yarrowdoor_read reads them */
    uint32_t id;        /* of a connection */
    uint32_t transport; /* of enum yarrowdoor_transport */
    uint32_t family;    /* of enum yarrowdoor_family */
    uint32_t icmp_data; /* RFC 8656, section 18.13 */
    uint8_t icmp_type;
    uint8_t icmp_code;
    uint16_t reserved;
    yarrowdoor_address from;
    yarrowdoor_address to;
    yarrowdoor_address peer;
    uint64_t reserved_places[2]; /* 0 */
} yarrowdoor_answer;

/* What the first frame of bytes says. Nothing of it was verified, so anyone who can send to the socket may have sent it. */
typedef struct yarrowdoor_message {
    uint64_t len;           /* bytes of the frame, over TCP with its padding */
    uint32_t kind;          /* YARROWDOOR_MESSAGE, or what else yarrowdoor_read_message answers. Of ChannelData only
                               len and channel are set beside it, and of what is no frame nothing */
    uint16_t method;        /* RFC 8489, section 18.2, RFC 8656, section 17 and RFC 6062, section 6.1: Allocate is 3 */
    uint16_t message_class; /* of enum yarrowdoor_message_class */
    uint8_t id[12];         /* the transaction ID: that of the request, in a response */
    uint16_t channel;       /* the channel number of ChannelData, from 0x4000 to 0x7fff */
    uint16_t code;          /* of ERROR-CODE, from 300 to 699. 0: there is none, or it is malformed */
    uint32_t reason_at;     /* where the text of ERROR-CODE begins in the bytes, not ended by a 0; 0 if there is
                               none */
    uint32_t reason_len;    /* bytes of that text */
    uint32_t realm_at;      /* where the first REALM begins in the bytes; 0 if there is none */
    uint32_t realm_len;     /* bytes of the realm */
    yarrowdoor_address mapped;    /* XOR-MAPPED-ADDRESS: the address at which the server sees the client. Family 0:
                                     there is none, or it is malformed */
    yarrowdoor_address alternate; /* ALTERNATE-SERVER, likewise */
    uint8_t reserved[8];          /* 0 */
} yarrowdoor_message;

/* What takes time before the expiry of grants that are all to be refreshed at one time, beside their refreshes: an allocation
   counts as a grant, and so does each permission and each channel. */
typedef struct yarrowdoor_load {
    uint64_t late;   /* how much too late a timer wakes the caller at most, in nanoseconds */
    uint64_t delay;  /* how long the server's success takes at most, from when a request was made, in nanoseconds */
    uint32_t slots;  /* packets that are queued at most when the first refresh is due */
    uint32_t extras; /* retransmissions, and requests that are made again, within refresh_ahead at most */
} yarrowdoor_load;

/* ---- what the library exports */

/* Makes a client: 0, and the client at *place. Else *place is as it was, and the number is the first of
   YARROWDOOR_BAD_SETTINGS, YARROWDOOR_BAD_CREDENTIALS and YARROWDOOR_BAD_SEED that holds, or
   YARROWDOOR_OUT_OF_MEMORY. The client sends nothing until it is polled.

   User name and password are bytes; typed text has to be prepared before (RFC 8489, section 14.3). Transaction IDs
   are made from the seed: 32 secret bytes, new for each client. A getrandom(2) gives them. */
uint32_t yarrowdoor_new(const yarrowdoor_settings *settings, const uint8_t *user, size_t user_len,
                        const uint8_t *password, size_t password_len, const uint8_t *seed, size_t seed_len,
                        yarrowdoor **place);

/* Makes a call. Use the functions below, which fill in the request, and set the answer to 0 before: the fields
   that an answer does not use stay as they were. */
uint32_t yarrowdoor_call(yarrowdoor *client, const yarrowdoor_request *request, const uint8_t *bytes, size_t bytes_len,
                         uint8_t *buffer, size_t buffer_len, yarrowdoor_answer *answer);

/* Makes a call of kind YARROWDOOR_CALL_RELAYED_ADDRESSES, YARROWDOOR_CALL_PERMISSIONS, YARROWDOOR_CALL_HAVE_PERMISSION or
   YARROWDOOR_CALL_NEXT_PERMISSION, for which the client is not changed. Of another kind it is YARROWDOOR_BAD_CALL. The answer
   is written as by yarrowdoor_call. It takes no memory. */
uint32_t yarrowdoor_look(const yarrowdoor *client, const yarrowdoor_request *request, yarrowdoor_answer *answer);

/* Frees a client, or does nothing if it is NULL. It sends nothing: yarrowdoor_delete gives the allocations back to the
   server before. */
void yarrowdoor_free(yarrowdoor *client);

/* Reads the first frame of bytes that came from the server over `transport`: a datagram, or what a stream brought. The
   client passes over an error response that is not signed, as the 401 to a wrong password, and no event has a code: this
   says which it was. It verifies nothing, so what it says is a hint, and nothing to act on by itself. It writes all of
   *message, of which the kind is returned: YARROWDOOR_MESSAGE, YARROWDOOR_CHANNEL_DATA, YARROWDOOR_NO_FRAME,
   YARROWDOOR_BAD_CALL if there is no such transport, or over TCP YARROWDOOR_NOTHING if more bytes are needed. It
   takes no memory.

       static yarrowdoor_message said;   // initialised, once
       if (yarrowdoor_read_message(YARROWDOOR_UDP, packet, len, &said) == YARROWDOOR_MESSAGE) {
           if (said.code == 401 && was_challenged && memcmp(challenge, said.id, 12) != 0) {
               give_up("the user name or the password is wrong");   // a second request has got a 401, not a copy of the first
           } else if (said.code == 401) {
               was_challenged = memcpy(challenge, said.id, 12) != NULL;
           } else if (said.code && said.method == 8) {
               report(said.code, packet + said.reason_at, said.reason_len);   // why a permission failed
           } else if (said.mapped.family) {
               add_candidate(&said.mapped);   // the server-reflexive candidate of ICE
           }
       } */
uint32_t yarrowdoor_read_message(uint32_t transport, const uint8_t *bytes, size_t len, yarrowdoor_message *message);

/* Finds the first attribute of this type in the STUN message that these bytes are, or begin with. YARROWDOOR_YES: its
   value is the *value_len bytes at bytes + *start. YARROWDOOR_NO: there is none, and both are 0; so also of ChannelData, of
   a part of a message and of no bytes. Attributes that do not count, since they stand behind the message's integrity (RFC
   8489, sections 14.5 and 14.6), are passed over. It verifies nothing, as yarrowdoor_read_message, and takes no memory. */
uint32_t yarrowdoor_read_attribute(const uint8_t *bytes, size_t len, uint16_t type, size_t *start, size_t *value_len);

/* How many grants are kept beside this load, by a client with these two settings (0 is their default): none of that many is lost
   if the server answers, and one more may be. 0: there is room for none. UINT64_MAX: there is no pause, and the caller is
   never late. A permission lasts 300 s and is refreshed after half of that at the earliest, so a refresh_ahead over 150 s counts
   as 150 s; if the server grants an allocation for under 300 s, pass half of that. It needs no client, and takes no memory.

       static const yarrowdoor_load load = {2000000, 450000000, 1, 0};   // 2 ms late, answers within 450 ms, one packet queued
       yarrowdoor_kept_grants(&load, settings.request_cadence, settings.refresh_ahead) */
uint64_t yarrowdoor_kept_grants(const yarrowdoor_load *load, uint64_t request_cadence, uint64_t refresh_ahead);

/* The longest request_cadence of the settings at which count grants are kept beside this load, of which each is refreshed this
   long ahead (0 is the default): YARROWDOOR_NO_PAUSE if it takes that, and 0 if they are too many even so. A count of 0 is
   taken as 1. It needs no client, and takes no memory. */
uint64_t yarrowdoor_longest_cadence(const yarrowdoor_load *load, uint64_t count, uint64_t refresh_ahead);

/* The version of the library that is linked or loaded, as YARROWDOOR_VERSION is that of this header. */
uint32_t yarrowdoor_version(void);

/* 0. It is there so that a program is linked to a library of this layout only. */
extern const uint32_t yarrowdoor_abi_0;

/* 0. Each minor version has such a symbol, and keeps those of the versions before it, so that a program is not linked to, nor
   loaded over, a library that is older than its header. */
extern const uint32_t yarrowdoor_0_1;

#ifdef __cplusplus
}
#endif

/* ---- the layout, as the library has it */

#if defined(__cplusplus) && __cplusplus >= 201103L
#define YARROWDOOR_ASSERT(name, holds) static_assert(holds, #name)
#elif defined(__STDC_VERSION__) && __STDC_VERSION__ >= 201112L
#define YARROWDOOR_ASSERT(name, holds) _Static_assert(holds, #name)
#else
#define YARROWDOOR_ASSERT(name, holds) typedef char yarrowdoor_assert_##name[(holds) ? 1 : -1]
#endif
#define YARROWDOOR_AT(type, field, place, size)                                                                        \
    YARROWDOOR_ASSERT(type##_##field, offsetof(yarrowdoor_##type, field) == (place) &&                                 \
                                          sizeof(YARROWDOOR_CAST(yarrowdoor_##type *, 0)->field) == (size))

YARROWDOOR_ASSERT(size_is_64_bits, sizeof(size_t) == 8);
YARROWDOOR_ASSERT(size_of_address, sizeof(yarrowdoor_address) == 28);
YARROWDOOR_ASSERT(size_of_settings, sizeof(yarrowdoor_settings) == 160);
YARROWDOOR_ASSERT(size_of_request, sizeof(yarrowdoor_request) == 136);
YARROWDOOR_ASSERT(size_of_answer, sizeof(yarrowdoor_answer) == 160);
YARROWDOOR_ASSERT(size_of_message, sizeof(yarrowdoor_message) == 112);
YARROWDOOR_ASSERT(size_of_load, sizeof(yarrowdoor_load) == 24);
YARROWDOOR_ASSERT(size_of_kind, sizeof(enum yarrowdoor_kind) == 4);
YARROWDOOR_AT(address, ip, 0, 16);
YARROWDOOR_AT(address, flow, 16, 4);
YARROWDOOR_AT(address, scope, 20, 4);
YARROWDOOR_AT(address, port, 24, 2);
YARROWDOOR_AT(address, family, 26, 1);
YARROWDOOR_AT(address, reserved, 27, 1);
YARROWDOOR_AT(settings, wait_initial, 0, 8);
YARROWDOOR_AT(settings, wait_max, 8, 8);
YARROWDOOR_AT(settings, wait_last, 16, 8);
YARROWDOOR_AT(settings, wait_count, 24, 4);
YARROWDOOR_AT(settings, has_waits, 28, 4);
YARROWDOOR_AT(settings, transport, 32, 4);
YARROWDOOR_AT(settings, allocation_transport, 36, 4);
YARROWDOOR_AT(settings, family, 40, 4);
YARROWDOOR_AT(settings, other_family, 44, 4);
YARROWDOOR_AT(settings, algorithm, 48, 4);
YARROWDOOR_AT(settings, other_algorithm, 52, 4);
YARROWDOOR_AT(settings, anonymous, 56, 4);
YARROWDOOR_AT(settings, max_stale_nonces, 60, 2);
YARROWDOOR_AT(settings, timed_from_send, 62, 2);
YARROWDOOR_AT(settings, local, 64, 28);
YARROWDOOR_AT(settings, remote, 92, 28);
YARROWDOOR_AT(settings, request_cadence, 120, 8);
YARROWDOOR_AT(settings, keepalive, 128, 8);
YARROWDOOR_AT(settings, refresh_ahead, 136, 8);
YARROWDOOR_AT(settings, reserved_places, 144, 16);
YARROWDOOR_AT(request, time, 0, 8);
YARROWDOOR_AT(request, kind, 8, 4);
YARROWDOOR_AT(request, id, 12, 4);
YARROWDOOR_AT(request, transport, 16, 4);
YARROWDOOR_AT(request, reserved, 20, 4);
YARROWDOOR_AT(request, from, 24, 28);
YARROWDOOR_AT(request, to, 52, 28);
YARROWDOOR_AT(request, peer, 80, 28);
YARROWDOOR_AT(request, local, 108, 28);
YARROWDOOR_AT(answer, kind, 0, 4);
YARROWDOOR_AT(answer, error, 4, 4);
YARROWDOOR_AT(answer, time, 8, 8);
YARROWDOOR_AT(answer, len, 16, 8);
YARROWDOOR_AT(answer, start, 24, 8);
YARROWDOOR_AT(answer, left, 32, 8);
YARROWDOOR_AT(answer, id, 40, 4);
YARROWDOOR_AT(answer, transport, 44, 4);
YARROWDOOR_AT(answer, family, 48, 4);
YARROWDOOR_AT(answer, icmp_data, 52, 4);
YARROWDOOR_AT(answer, icmp_type, 56, 1);
YARROWDOOR_AT(answer, icmp_code, 57, 1);
YARROWDOOR_AT(answer, reserved, 58, 2);
YARROWDOOR_AT(answer, from, 60, 28);
YARROWDOOR_AT(answer, to, 88, 28);
YARROWDOOR_AT(answer, peer, 116, 28);
YARROWDOOR_AT(answer, reserved_places, 144, 16);
YARROWDOOR_AT(message, len, 0, 8);
YARROWDOOR_AT(message, kind, 8, 4);
YARROWDOOR_AT(message, method, 12, 2);
YARROWDOOR_AT(message, message_class, 14, 2);
YARROWDOOR_AT(message, id, 16, 12);
YARROWDOOR_AT(message, channel, 28, 2);
YARROWDOOR_AT(message, code, 30, 2);
YARROWDOOR_AT(message, reason_at, 32, 4);
YARROWDOOR_AT(message, reason_len, 36, 4);
YARROWDOOR_AT(message, realm_at, 40, 4);
YARROWDOOR_AT(message, realm_len, 44, 4);
YARROWDOOR_AT(message, mapped, 48, 28);
YARROWDOOR_AT(message, alternate, 76, 28);
YARROWDOOR_AT(message, reserved, 104, 8);
YARROWDOOR_AT(load, late, 0, 8);
YARROWDOOR_AT(load, delay, 8, 8);
YARROWDOOR_AT(load, slots, 16, 4);
YARROWDOOR_AT(load, extras, 20, 4);

/* ---- calls

   Each may answer YARROWDOOR_BAD_TIME if it takes a time, YARROWDOOR_BAD_CALL if it takes a transport or an
   address, and YARROWDOOR_OUT_OF_MEMORY unless it says that it takes no memory. That is not repeated below. */

/* The kinds of requests. */
enum yarrowdoor_request_kind {
    YARROWDOOR_CALL_DELETE = 1,
    YARROWDOOR_CALL_CREATE_PERMISSION = 2,
    YARROWDOOR_CALL_BIND_CHANNEL = 3,
    YARROWDOOR_CALL_TCP_CONNECT = 4,
    YARROWDOOR_CALL_ALLOCATED_TCP_SOCKET = 5,
    YARROWDOOR_CALL_TCP_CLOSED = 6,
    YARROWDOOR_CALL_SEND_TO = 7,
    YARROWDOOR_CALL_RECV = 8,
    YARROWDOOR_CALL_POLL_RECV = 9,
    YARROWDOOR_CALL_POLL = 10,
    YARROWDOOR_CALL_POLL_TRANSMIT = 11,
    YARROWDOOR_CALL_POLL_EVENT = 12,
    YARROWDOOR_CALL_PROTOCOL_ERROR = 13,
    YARROWDOOR_CALL_RELAYED_ADDRESSES = 14,
    YARROWDOOR_CALL_PERMISSIONS = 15,
    YARROWDOOR_CALL_HAVE_PERMISSION = 16,
    YARROWDOOR_CALL_READ = 17,
    YARROWDOOR_CALL_SET_PERMISSION_KEPT = 18,
    YARROWDOOR_CALL_SET_CHANNEL_KEPT = 19,
    YARROWDOOR_CALL_SEND_HEAD = 20, /* the data is counted and not read: bytes may be null, whatever bytes_len is */
    YARROWDOOR_CALL_ABANDON = 21,
    YARROWDOOR_CALL_NEXT_PERMISSION = 22 /* of yarrowdoor_look only; by yarrowdoor_call it is YARROWDOOR_BAD_CALL */
};

/* ---- the functions that make them */

#ifdef __cplusplus
extern "C" {
#endif

/* The name of a kind of answer, without YARROWDOOR_, to print it: "PACKET" for YARROWDOOR_PACKET. Of a number that
   is no kind, as the 0 of yarrowdoor_new, it is "no kind". */
YARROWDOOR_INLINE const char *yarrowdoor_kind_name(uint32_t kind);

/* The name of an error, without YARROWDOOR_ERROR_: "NO_PERMISSION" for YARROWDOOR_ERROR_NO_PERMISSION. Of a number that is
   no error it is "no error". */
YARROWDOOR_INLINE const char *yarrowdoor_error_name(uint32_t error);

/* The usual settings: an IPv4 address relayed over UDP, SHA-1, the waits of the RFC, each from when a request is first
   transmitted, 5 ms between two requests, and 256 stale nonces, since a server answers each copy of a request with a
   challenge of its own (docs/REAL-SERVERS.md). */
YARROWDOOR_INLINE yarrowdoor_settings yarrowdoor_settings_of(uint32_t transport, const yarrowdoor_address *local,
                                                             const yarrowdoor_address *remote);

/* What is to be done next. YARROWDOOR_WAIT_UNTIL: nothing before answer->time, when to poll again. If something is due
   already, a packet or an event, that time is `now` or before it: compare the two before you subtract one from the other.
   Any other call may make it earlier, so poll after it. Data of peers, in and out, makes nothing due: after
   yarrowdoor_send_to, yarrowdoor_send_head, yarrowdoor_read and a yarrowdoor_recv that answers YARROWDOOR_PEER_DATA_RANGE
   the time stands, there is no new packet and no new event, and a caller need not poll again.
   YARROWDOOR_ALLOCATE_TCP_SOCKET: open a connection from any port of this host to answer->to over
   answer->transport, and pass it to yarrowdoor_allocated_tcp_socket with the id and the addresses of the answer.
   YARROWDOOR_TCP_CLOSE: close the connection from answer->from to answer->to; a packet that yarrowdoor_poll_transmit still
   gives for it, as its ConnectionBind without timed_from_send, is dropped. YARROWDOOR_CLOSED: the client has
   ended; poll the events that are left, and close its data connections. By default that is 39.5 s after the start
   if nothing is answered, with an event for each family, and 39.5 s after the challenge if the user name or the
   password is wrong, with none. */
YARROWDOOR_INLINE enum yarrowdoor_kind yarrowdoor_poll(yarrowdoor *client, uint64_t now, yarrowdoor_answer *answer);

/* The next packet that is due. Requests leave in the order of the calls, at least request_cadence of the settings apart;
   retransmissions wait for no pause. With timed_from_send a request that has not left is neither retransmitted nor times
   out, and refreshes that are due leave before what is queued. Without it they wait behind that, and the waits of a request
   run from the call that makes it: over UDP, those that have not left after 500 ms all leave then, without a pause, and once
   more in their turn, even if they are answered or have failed by then. What was queued leaves then also if nothing needs it
   any more, as when its allocation is gone; with timed_from_send it does not. YARROWDOOR_PACKET: send the answer->len bytes
   in the buffer, and the answer->left ones behind them that yarrowdoor_read gives, over UDP as one datagram. 1,500 bytes hold
   the packets of usual servers, and YARROWDOOR_MAX_PACKET each packet. YARROWDOOR_NOTHING: none is due.
   YARROWDOOR_UNREAD_BYTES: read the rest of an earlier answer first. */
YARROWDOOR_INLINE enum yarrowdoor_kind yarrowdoor_poll_transmit(yarrowdoor *client, uint64_t now, uint8_t *buffer,
                                                                size_t buffer_len, yarrowdoor_answer *answer);

/* The next event: YARROWDOOR_ALLOCATION_CREATED and those behind it, or YARROWDOOR_NOTHING. It takes no memory. */
YARROWDOOR_INLINE enum yarrowdoor_kind yarrowdoor_poll_event(yarrowdoor *client, yarrowdoor_answer *answer);

/* Passes in bytes that were received over `transport`, from the server at `from`, by the client's socket at `to`:
   one datagram, or what one read of a stream gave, or nothing if the stream has ended. YARROWDOOR_HANDLED,
   YARROWDOOR_IGNORED, YARROWDOOR_PEER_ICMP. YARROWDOOR_PEER_DATA_RANGE: data of answer->peer, the answer->len
   bytes at bytes + answer->start. YARROWDOOR_PEER_DATA: data of answer->peer that came in pieces or behind another
   message, answer->len bytes in the buffer and answer->left more, for yarrowdoor_read. YARROWDOOR_UNREAD_BYTES:
   read the rest of an earlier answer first. YARROWDOOR_OUT_OF_MEMORY: the client has ended, and a stream gives
   nothing more; bytes that are not from the server, and data of peers over UDP, take no memory. Data that does not
   fit into the buffer takes none either, so none of it is lost. Over TCP call yarrowdoor_poll_recv afterwards.
   Over UDP the buffer is not used: pass a null pointer and the length 0. `from` and `to` are compared with the settings' remote and
   local addresses, so these are to be those of the socket (connect it, and ask getsockname); `to` may also be the
   local address of a data connection. */
YARROWDOOR_INLINE enum yarrowdoor_kind yarrowdoor_recv(yarrowdoor *client, uint32_t transport,
                                                       const yarrowdoor_address *from, const yarrowdoor_address *to,
                                                       const uint8_t *bytes, size_t bytes_len, uint64_t now,
                                                       uint8_t *buffer, size_t buffer_len, yarrowdoor_answer *answer);

/* The next data of peers in the streams that were passed in: call it after yarrowdoor_recv over TCP, until it
   answers YARROWDOOR_NOTHING. YARROWDOOR_PEER_DATA: answer->len bytes in the buffer and answer->left more, for
   yarrowdoor_read. YARROWDOOR_UNREAD_BYTES: read the rest of an earlier answer first. YARROWDOOR_OUT_OF_MEMORY: as
   for yarrowdoor_recv. If no stream holds anything it takes no memory. */
YARROWDOOR_INLINE enum yarrowdoor_kind yarrowdoor_poll_recv(yarrowdoor *client, uint64_t now, uint8_t *buffer,
                                                            size_t buffer_len, yarrowdoor_answer *answer);

/* The next bytes of an answer whose answer->left was not 0. YARROWDOOR_BYTES: answer->len bytes in the buffer, and
   answer->left more. Until none is left, yarrowdoor_recv, yarrowdoor_poll_recv, yarrowdoor_poll_transmit and
   yarrowdoor_abandon answer YARROWDOOR_UNREAD_BYTES and do nothing. It takes no memory. */
YARROWDOOR_INLINE enum yarrowdoor_kind yarrowdoor_read(yarrowdoor *client, uint8_t *buffer, size_t buffer_len,
                                                       yarrowdoor_answer *answer);

/* Makes the packet that carries data to `peer`, which needs a permission, over `transport`, that of the allocation.
   YARROWDOOR_PACKET: send the answer->len bytes in the buffer. YARROWDOOR_REFUSED: YARROWDOOR_ERROR_NO_PERMISSION,
   or over TCP YARROWDOOR_ERROR_NO_SOCKET. YARROWDOOR_BAD_PAYLOAD: over YARROWDOOR_MAX_PAYLOAD bytes, and the
   allocation relays over UDP. YARROWDOOR_SMALL_BUFFER: the buffer has under data_len + YARROWDOOR_MAX_OVERHEAD
   bytes. It takes no memory. */
YARROWDOOR_INLINE enum yarrowdoor_kind yarrowdoor_send_to(yarrowdoor *client, uint32_t transport,
                                                          const yarrowdoor_address *peer, const uint8_t *data,
                                                          size_t data_len, uint64_t now, uint8_t *buffer,
                                                          size_t buffer_len, yarrowdoor_answer *answer);

/* Makes what precedes data_len bytes of data in the packet that yarrowdoor_send_to makes, for a caller that sends the data
   from where it lies: by sendmsg with three parts, or in one buffer with room before the data, as for GSO.
   YARROWDOOR_PACKET: send as one packet the answer->len bytes in the buffer (4 to a peer with a channel, else 36 to an IPv4
   and 48 to an IPv6 address, and over TCP none), the data, and answer->start bytes of 0, of which there are up to three. Each
   call is a send of its own: a head serves one packet, and one to a peer with a channel each packet of as many bytes of data
   while the channel lasts. Otherwise as yarrowdoor_send_to, but YARROWDOOR_SMALL_BUFFER: the buffer has under
   YARROWDOOR_MAX_OVERHEAD bytes. It takes no memory. */
YARROWDOOR_INLINE enum yarrowdoor_kind yarrowdoor_send_head(yarrowdoor *client, uint32_t transport,
                                                            const yarrowdoor_address *peer, size_t data_len,
                                                            uint64_t now, uint8_t *buffer, size_t buffer_len,
                                                            yarrowdoor_answer *answer);

/* Requests a permission for the IP address of `peer`, whatever its port (RFC 8656, section 9): data may be sent to
   it and received from it. YARROWDOOR_DONE: an event YARROWDOOR_PERMISSION_CREATED or
   YARROWDOOR_PERMISSION_CREATE_FAILED reports the outcome, unless the client or its allocation ends before.
   YARROWDOOR_REFUSED: YARROWDOOR_ERROR_NO_ALLOCATION, or YARROWDOOR_ERROR_ALREADY_EXISTS. */
YARROWDOOR_INLINE enum yarrowdoor_kind yarrowdoor_create_permission(yarrowdoor *client, uint32_t transport,
                                                                    const yarrowdoor_address *peer, uint64_t now,
                                                                    yarrowdoor_answer *answer);

/* Whether the IP address of `peer` has an active permission: YARROWDOOR_YES or YARROWDOOR_NO. It takes no memory. */
YARROWDOOR_INLINE enum yarrowdoor_kind yarrowdoor_have_permission(const yarrowdoor *client, uint32_t transport,
                                                                  const yarrowdoor_address *peer,
                                                                  yarrowdoor_answer *answer);

/* Says whether the permission for the IP address of `peer`, whatever its port, is kept, as each is at first: refreshed until
   the allocation ends. With is_kept 0 it is released: used until it expires, with the event
   YARROWDOOR_PERMISSION_CREATE_FAILED, which is then the expected end. With 1 it is kept again. YARROWDOOR_DONE.
   YARROWDOOR_REFUSED: YARROWDOOR_ERROR_NOT_GRANTED. YARROWDOOR_BAD_CALL also if is_kept is another number. A channel to
   a peer and the permission for it are two grants: release both, or only the channel. It takes no memory. */
YARROWDOOR_INLINE enum yarrowdoor_kind yarrowdoor_set_permission_kept(yarrowdoor *client, uint32_t transport,
                                                                      const yarrowdoor_address *peer, uint32_t is_kept,
                                                                      yarrowdoor_answer *answer);

/* Requests a channel to `peer`, and with it a permission (RFC 8656, section 12): its data then has four bytes of
   header, and not 36 or 48. YARROWDOOR_DONE: an event YARROWDOOR_CHANNEL_CREATED or
   YARROWDOOR_CHANNEL_CREATE_FAILED reports the outcome, unless the client or its allocation ends before, and
   another that of a permission that it requested. YARROWDOOR_REFUSED: YARROWDOOR_ERROR_NO_ALLOCATION;
   YARROWDOOR_ERROR_ALREADY_EXISTS, also if all 4,096 numbers are taken; YARROWDOOR_ERROR_EXPIRED, up to
   answer->time. */
YARROWDOOR_INLINE enum yarrowdoor_kind yarrowdoor_bind_channel(yarrowdoor *client, uint32_t transport,
                                                               const yarrowdoor_address *peer, uint64_t now,
                                                               yarrowdoor_answer *answer);

/* Says whether the channel to `peer` is kept, as yarrowdoor_set_permission_kept does of a permission. One that is not kept
   ends with the event YARROWDOOR_CHANNEL_CREATE_FAILED, and its number and its peer are reserved for a while, as always.
   It takes no memory. */
YARROWDOOR_INLINE enum yarrowdoor_kind yarrowdoor_set_channel_kept(yarrowdoor *client, uint32_t transport,
                                                                   const yarrowdoor_address *peer, uint32_t is_kept,
                                                                   yarrowdoor_answer *answer);

/* Requests that the server connect to `peer`, which needs a permission, from an allocation over TCP (RFC 6062,
   section 4.3). YARROWDOOR_DONE: unless the client or its allocation ends before, yarrowdoor_poll answers
   YARROWDOOR_ALLOCATE_TCP_SOCKET, or an event YARROWDOOR_TCP_CONNECT_FAILED. YARROWDOOR_REFUSED:
   YARROWDOOR_ERROR_NO_ALLOCATION, YARROWDOOR_ERROR_NO_PERMISSION or YARROWDOOR_ERROR_ALREADY_EXISTS. */
YARROWDOOR_INLINE enum yarrowdoor_kind yarrowdoor_tcp_connect(yarrowdoor *client, const yarrowdoor_address *peer,
                                                              uint64_t now, yarrowdoor_answer *answer);

/* Passes in the data connection that YARROWDOOR_ALLOCATE_TCP_SOCKET asked for: its id, transport, from, to and
   peer, and `local`, the address of the new socket, or null if no connection could be opened. YARROWDOOR_DONE:
   an event reports YARROWDOOR_TCP_CONNECTED or YARROWDOOR_TCP_CONNECT_FAILED; there is none if `local` is null,
   nor if the connection ends before it is bound: then only YARROWDOOR_TCP_CLOSE reports it. YARROWDOOR_REFUSED:
   YARROWDOOR_ERROR_NO_ALLOCATION if no such connection is offered, or YARROWDOOR_ERROR_ALREADY_EXISTS if
   another has this local address. */
YARROWDOOR_INLINE enum yarrowdoor_kind yarrowdoor_allocated_tcp_socket(
    yarrowdoor *client, uint32_t id, uint32_t transport, const yarrowdoor_address *from, const yarrowdoor_address *to,
    const yarrowdoor_address *peer, const yarrowdoor_address *local, uint64_t now, yarrowdoor_answer *answer);

/* Reports that the data connection from `local` to `remote` was closed, or broke: YARROWDOOR_DONE, and
   YARROWDOOR_TCP_CLOSE follows, unless the client has ended. The end of the control connection is a
   yarrowdoor_recv of no bytes, and a yarrowdoor_protocol_error. */
YARROWDOOR_INLINE enum yarrowdoor_kind yarrowdoor_tcp_closed(yarrowdoor *client, const yarrowdoor_address *local,
                                                             const yarrowdoor_address *remote, uint64_t now,
                                                             yarrowdoor_answer *answer);

/* Requests that the server delete the allocations (RFC 8656, section 8). YARROWDOOR_DONE: poll and transmit until
   YARROWDOOR_CLOSED, for as long as you care to wait: it may never come if the server answers with an error other than 437,
   or yarrowdoor_poll_transmit does not take what is due. With timed_from_send it comes at the latest at a poll after the
   lifetime that the server granted at first, or after 600 s if that is more. The REFRESH leaves behind each request that was
   made before it, one in each pause: a caller that closes the socket at once leaves the relay to the server until its
   lifetime is over, and so calls yarrowdoor_abandon instead. YARROWDOOR_REFUSED: YARROWDOOR_ERROR_NO_ALLOCATION. To give up
   before there is one, free the client: what the server may still grant ends there by its lifetime. */
YARROWDOOR_INLINE enum yarrowdoor_kind yarrowdoor_delete(yarrowdoor *client, uint64_t now, yarrowdoor_answer *answer);

/* Gives the client up, for a caller that closes its socket at once, as a destructor does. YARROWDOOR_PACKET: send the answer->len
   bytes in the buffer, and the answer->left ones behind them that yarrowdoor_read gives, as those of yarrowdoor_poll_transmit.
   It is the REFRESH that deletes the allocations (RFC 8656, section 8.1), which here waits neither for the pause nor for what is
   queued. It is sent once: if it is lost, or the server asks for another nonce, the relay ends by its lifetime.
   YARROWDOOR_NOTHING: the server has granted no allocation, or the client has ended. After both the client has ended: it holds
   no grant and sends nothing more; events that were queued can still be polled. YARROWDOOR_UNREAD_BYTES: read the rest of an
   earlier answer first. YARROWDOOR_OUT_OF_MEMORY, as each refusal, leaves the client as it was, and only one with an allocation
   takes memory. */
YARROWDOOR_INLINE enum yarrowdoor_kind yarrowdoor_abandon(yarrowdoor *client, uint64_t now, uint8_t *buffer,
                                                          size_t buffer_len, yarrowdoor_answer *answer);

/* Reports an error of a layer between client and server, as TLS, after which nothing can be sent: YARROWDOOR_DONE.
   Each family that is still requested fails, by its event; what else is pending has none. The client has ended. */
YARROWDOOR_INLINE enum yarrowdoor_kind yarrowdoor_protocol_error(yarrowdoor *client, yarrowdoor_answer *answer);

/* The relayed address at `index`, from 0. YARROWDOOR_ADDRESS: answer->peer over answer->transport.
   YARROWDOOR_NOTHING: there are no more. It takes no memory. */
YARROWDOOR_INLINE enum yarrowdoor_kind yarrowdoor_relayed_address(const yarrowdoor *client, uint32_t index,
                                                                  yarrowdoor_answer *answer);

/* The IP address at `index`, from 0, of those that have an active permission in the allocation whose relayed
   address is `relayed`, over `transport`. YARROWDOOR_ADDRESS: answer->peer, whose port is 0. YARROWDOOR_NOTHING:
   there are no more. It takes no memory. It counts from the first one at each call: yarrowdoor_next_permission lists many. */
YARROWDOOR_INLINE enum yarrowdoor_kind yarrowdoor_permission(const yarrowdoor *client, uint32_t transport,
                                                             const yarrowdoor_address *relayed, uint32_t index,
                                                             yarrowdoor_answer *answer);

/* The same addresses one after the other, each found from where the last one stood. YARROWDOOR_ADDRESS: answer->peer, whose
   port is 0, and in answer->id the cursor for the next call; that of the first call is 0. YARROWDOOR_NOTHING: there are no more.
   It takes no memory.

       for (cursor = 0; yarrowdoor_next_permission(client, transport, &relayed, cursor, &answer) == YARROWDOOR_ADDRESS;
            cursor = answer.id) {
           print_address(&answer.peer);
       }

   A cursor is a place in the client's list of grants. A permission that is granted between two calls is listed too; for each
   grant that ends between them, one that comes later may be left out. */
YARROWDOOR_INLINE enum yarrowdoor_kind yarrowdoor_next_permission(const yarrowdoor *client, uint32_t transport,
                                                                  const yarrowdoor_address *relayed, uint32_t cursor,
                                                                  yarrowdoor_answer *answer);

/* ---- addresses */

/* The IPv4 address a.b.c.d with this port. */
YARROWDOOR_INLINE yarrowdoor_address yarrowdoor_ipv4(uint8_t a, uint8_t b, uint8_t c, uint8_t d, uint16_t port);

/* Whether two addresses are the same, with port, flow and scope. */
YARROWDOOR_INLINE int yarrowdoor_is_same_address(const yarrowdoor_address *a, const yarrowdoor_address *b);

/* ---- how they do it */

/* Some functions below return a struct, about which a program that is compiled with -Waggregate-return is warned only in
   its own calls. */
#if defined(__GNUC__)
#pragma GCC diagnostic push
#pragma GCC diagnostic ignored "-Waggregate-return"
#endif

#if !defined(YARROWDOOR_NO_INLINE) || defined(YARROWDOOR_DEFINE)

/* Makes a request one of this kind at this time, with its other numbers 0 and no addresses (YARROWDOOR_NO_ADDRESS is 0).
   Each address is set by itself, in two wide stores: a memset of all four may become a string instruction, which is
   slower. */
static inline void yarrowdoor_begin(yarrowdoor_request *request, uint32_t kind, uint64_t now)
{
    request->time = now;
    request->kind = kind;
    request->id = 0;
    request->transport = 0;
    request->reserved = 0;
    memset(&request->from, 0, sizeof request->from);
    memset(&request->to, 0, sizeof request->to);
    memset(&request->peer, 0, sizeof request->peer);
    memset(&request->local, 0, sizeof request->local);
}

/* A request of this kind at this time, with its other numbers 0 and no addresses, as a value: yarrowdoor_begin
   spares a copy of it. */
static inline yarrowdoor_request yarrowdoor_request_of(uint32_t kind, uint64_t now)
{
    yarrowdoor_request request;
    yarrowdoor_begin(&request, kind, now);
    return request;
}

/* Sets an answer to 0, in parts, since a memset of all of it may become a string instruction. */
static inline void yarrowdoor_clear(yarrowdoor_answer *answer)
{
    uint8_t *bytes = YARROWDOOR_CAST(uint8_t *, YARROWDOOR_CAST(void *, answer));
    memset(bytes, 0, 64);
    memset(bytes + 64, 0, 64);
    memset(bytes + 128, 0, sizeof *answer - 128);
}

/* Makes a call that neither takes nor gives bytes. */
static inline enum yarrowdoor_kind yarrowdoor_call_plain(yarrowdoor *client, const yarrowdoor_request *request,
                                                         yarrowdoor_answer *answer)
{
    uint32_t kind;
    yarrowdoor_clear(answer);
    kind = yarrowdoor_call(client, request, NULL, 0, NULL, 0, answer);
    return YARROWDOOR_CAST(enum yarrowdoor_kind, kind);
}

/* Makes a call with bytes and a buffer. */
static inline enum yarrowdoor_kind yarrowdoor_call_bytes(yarrowdoor *client, const yarrowdoor_request *request,
                                                         const uint8_t *bytes, size_t bytes_len, uint8_t *buffer,
                                                         size_t buffer_len, yarrowdoor_answer *answer)
{
    uint32_t kind;
    yarrowdoor_clear(answer);
    kind = yarrowdoor_call(client, request, bytes, bytes_len, buffer, buffer_len, answer);
    return YARROWDOOR_CAST(enum yarrowdoor_kind, kind);
}

/* Makes a call that only looks. */
static inline enum yarrowdoor_kind yarrowdoor_look_at(const yarrowdoor *client, const yarrowdoor_request *request,
                                                      yarrowdoor_answer *answer)
{
    uint32_t kind;
    yarrowdoor_clear(answer);
    kind = yarrowdoor_look(client, request, answer);
    return YARROWDOOR_CAST(enum yarrowdoor_kind, kind);
}

YARROWDOOR_INLINE const char *yarrowdoor_kind_name(uint32_t kind)
{
    /* in the order of their numbers, from 0, and not as pointers, which would be variables of the shared library; in full
       lines, for which clang-format has no setting */
    /* clang-format off */
    static const char names[][25] = {
        "no kind", "OUT_OF_MEMORY", "BAD_TIME", "BAD_CALL", "BAD_PAYLOAD", "UNREAD_BYTES", "SMALL_BUFFER", "REFUSED",
        "DONE", "NOTHING", "WAIT_UNTIL", "ALLOCATE_TCP_SOCKET", "TCP_CLOSE", "CLOSED", "PACKET", "HANDLED", "IGNORED",
        "PEER_DATA", "PEER_ICMP", "BYTES", "ADDRESS", "YES", "NO", "ALLOCATION_CREATED", "ALLOCATION_CREATE_FAILED",
        "PERMISSION_CREATED", "PERMISSION_CREATE_FAILED", "CHANNEL_CREATED", "CHANNEL_CREATE_FAILED", "TCP_CONNECTED",
        "TCP_CONNECT_FAILED", "BAD_SETTINGS", "BAD_CREDENTIALS", "BAD_SEED", "PEER_DATA_RANGE", "MESSAGE",
        "CHANNEL_DATA", "NO_FRAME"
    };
    /* clang-format on */
    return names[kind < sizeof names / sizeof names[0] ? kind : 0];
}

YARROWDOOR_INLINE const char *yarrowdoor_error_name(uint32_t error)
{
    /* in the order of their numbers, from 0 */
    static const char names[][16] = {"no error",  "ALREADY_EXISTS", "NO_ALLOCATION", "NO_PERMISSION",
                                     "NO_SOCKET", "EXPIRED",        "NOT_GRANTED"};
    return names[error < sizeof names / sizeof names[0] ? error : 0];
}

YARROWDOOR_INLINE yarrowdoor_settings yarrowdoor_settings_of(uint32_t transport, const yarrowdoor_address *local,
                                                             const yarrowdoor_address *remote)
{
    yarrowdoor_settings settings;
    memset(&settings, 0, sizeof settings);
    settings.transport = transport;
    settings.allocation_transport = YARROWDOOR_UDP;
    settings.family = YARROWDOOR_IPV4;
    settings.algorithm = YARROWDOOR_SHA1;
    settings.anonymous = YARROWDOOR_AUTO;
    settings.max_stale_nonces = 256;
    settings.timed_from_send = 1;
    settings.request_cadence = 5000000;
    settings.reserved_places[0] = yarrowdoor_abi_0 | yarrowdoor_0_1; /* 0, so that another library does not link */
    settings.local = *local;
    settings.remote = *remote;
    return settings;
}

YARROWDOOR_INLINE enum yarrowdoor_kind yarrowdoor_poll(yarrowdoor *client, uint64_t now, yarrowdoor_answer *answer)
{
    yarrowdoor_request request;
    yarrowdoor_begin(&request, YARROWDOOR_CALL_POLL, now);
    return yarrowdoor_call_plain(client, &request, answer);
}

YARROWDOOR_INLINE enum yarrowdoor_kind yarrowdoor_poll_transmit(yarrowdoor *client, uint64_t now, uint8_t *buffer,
                                                                size_t buffer_len, yarrowdoor_answer *answer)
{
    yarrowdoor_request request;
    yarrowdoor_begin(&request, YARROWDOOR_CALL_POLL_TRANSMIT, now);
    return yarrowdoor_call_bytes(client, &request, NULL, 0, buffer, buffer_len, answer);
}

YARROWDOOR_INLINE enum yarrowdoor_kind yarrowdoor_poll_event(yarrowdoor *client, yarrowdoor_answer *answer)
{
    yarrowdoor_request request;
    yarrowdoor_begin(&request, YARROWDOOR_CALL_POLL_EVENT, 0);
    return yarrowdoor_call_plain(client, &request, answer);
}

YARROWDOOR_INLINE enum yarrowdoor_kind yarrowdoor_recv(yarrowdoor *client, uint32_t transport,
                                                       const yarrowdoor_address *from, const yarrowdoor_address *to,
                                                       const uint8_t *bytes, size_t bytes_len, uint64_t now,
                                                       uint8_t *buffer, size_t buffer_len, yarrowdoor_answer *answer)
{
    yarrowdoor_request request;
    yarrowdoor_begin(&request, YARROWDOOR_CALL_RECV, now);
    request.transport = transport;
    request.from = *from;
    request.to = *to;
    return yarrowdoor_call_bytes(client, &request, bytes, bytes_len, buffer, buffer_len, answer);
}

YARROWDOOR_INLINE enum yarrowdoor_kind yarrowdoor_poll_recv(yarrowdoor *client, uint64_t now, uint8_t *buffer,
                                                            size_t buffer_len, yarrowdoor_answer *answer)
{
    yarrowdoor_request request;
    yarrowdoor_begin(&request, YARROWDOOR_CALL_POLL_RECV, now);
    return yarrowdoor_call_bytes(client, &request, NULL, 0, buffer, buffer_len, answer);
}

YARROWDOOR_INLINE enum yarrowdoor_kind yarrowdoor_read(yarrowdoor *client, uint8_t *buffer, size_t buffer_len,
                                                       yarrowdoor_answer *answer)
{
    yarrowdoor_request request;
    yarrowdoor_begin(&request, YARROWDOOR_CALL_READ, 0);
    return yarrowdoor_call_bytes(client, &request, NULL, 0, buffer, buffer_len, answer);
}

YARROWDOOR_INLINE enum yarrowdoor_kind yarrowdoor_send_to(yarrowdoor *client, uint32_t transport,
                                                          const yarrowdoor_address *peer, const uint8_t *data,
                                                          size_t data_len, uint64_t now, uint8_t *buffer,
                                                          size_t buffer_len, yarrowdoor_answer *answer)
{
    yarrowdoor_request request;
    yarrowdoor_begin(&request, YARROWDOOR_CALL_SEND_TO, now);
    request.transport = transport;
    request.peer = *peer;
    return yarrowdoor_call_bytes(client, &request, data, data_len, buffer, buffer_len, answer);
}

YARROWDOOR_INLINE enum yarrowdoor_kind yarrowdoor_send_head(yarrowdoor *client, uint32_t transport,
                                                            const yarrowdoor_address *peer, size_t data_len,
                                                            uint64_t now, uint8_t *buffer, size_t buffer_len,
                                                            yarrowdoor_answer *answer)
{
    yarrowdoor_request request;
    yarrowdoor_begin(&request, YARROWDOOR_CALL_SEND_HEAD, now);
    request.transport = transport;
    request.peer = *peer;
    return yarrowdoor_call_bytes(client, &request, NULL, data_len, buffer, buffer_len, answer);
}

YARROWDOOR_INLINE enum yarrowdoor_kind yarrowdoor_create_permission(yarrowdoor *client, uint32_t transport,
                                                                    const yarrowdoor_address *peer, uint64_t now,
                                                                    yarrowdoor_answer *answer)
{
    yarrowdoor_request request;
    yarrowdoor_begin(&request, YARROWDOOR_CALL_CREATE_PERMISSION, now);
    request.transport = transport;
    request.peer = *peer;
    return yarrowdoor_call_plain(client, &request, answer);
}

YARROWDOOR_INLINE enum yarrowdoor_kind yarrowdoor_have_permission(const yarrowdoor *client, uint32_t transport,
                                                                  const yarrowdoor_address *peer,
                                                                  yarrowdoor_answer *answer)
{
    yarrowdoor_request request;
    yarrowdoor_begin(&request, YARROWDOOR_CALL_HAVE_PERMISSION, 0);
    request.transport = transport;
    request.peer = *peer;
    return yarrowdoor_look_at(client, &request, answer);
}

YARROWDOOR_INLINE enum yarrowdoor_kind yarrowdoor_set_permission_kept(yarrowdoor *client, uint32_t transport,
                                                                      const yarrowdoor_address *peer, uint32_t is_kept,
                                                                      yarrowdoor_answer *answer)
{
    yarrowdoor_request request;
    yarrowdoor_begin(&request, YARROWDOOR_CALL_SET_PERMISSION_KEPT, 0);
    request.transport = transport;
    request.peer = *peer;
    request.id = is_kept;
    return yarrowdoor_call_plain(client, &request, answer);
}

YARROWDOOR_INLINE enum yarrowdoor_kind yarrowdoor_bind_channel(yarrowdoor *client, uint32_t transport,
                                                               const yarrowdoor_address *peer, uint64_t now,
                                                               yarrowdoor_answer *answer)
{
    yarrowdoor_request request;
    yarrowdoor_begin(&request, YARROWDOOR_CALL_BIND_CHANNEL, now);
    request.transport = transport;
    request.peer = *peer;
    return yarrowdoor_call_plain(client, &request, answer);
}

YARROWDOOR_INLINE enum yarrowdoor_kind yarrowdoor_set_channel_kept(yarrowdoor *client, uint32_t transport,
                                                                   const yarrowdoor_address *peer, uint32_t is_kept,
                                                                   yarrowdoor_answer *answer)
{
    yarrowdoor_request request;
    yarrowdoor_begin(&request, YARROWDOOR_CALL_SET_CHANNEL_KEPT, 0);
    request.transport = transport;
    request.peer = *peer;
    request.id = is_kept;
    return yarrowdoor_call_plain(client, &request, answer);
}

YARROWDOOR_INLINE enum yarrowdoor_kind yarrowdoor_tcp_connect(yarrowdoor *client, const yarrowdoor_address *peer,
                                                              uint64_t now, yarrowdoor_answer *answer)
{
    yarrowdoor_request request;
    yarrowdoor_begin(&request, YARROWDOOR_CALL_TCP_CONNECT, now);
    request.peer = *peer;
    return yarrowdoor_call_plain(client, &request, answer);
}

YARROWDOOR_INLINE enum yarrowdoor_kind yarrowdoor_allocated_tcp_socket(
    yarrowdoor *client, uint32_t id, uint32_t transport, const yarrowdoor_address *from, const yarrowdoor_address *to,
    const yarrowdoor_address *peer, const yarrowdoor_address *local, uint64_t now, yarrowdoor_answer *answer)
{
    yarrowdoor_request request;
    yarrowdoor_begin(&request, YARROWDOOR_CALL_ALLOCATED_TCP_SOCKET, now);
    request.id = id;
    request.transport = transport;
    request.from = *from;
    request.to = *to;
    request.peer = *peer;
    if (local) {
        request.local = *local;
    }
    return yarrowdoor_call_plain(client, &request, answer);
}

YARROWDOOR_INLINE enum yarrowdoor_kind yarrowdoor_tcp_closed(yarrowdoor *client, const yarrowdoor_address *local,
                                                             const yarrowdoor_address *remote, uint64_t now,
                                                             yarrowdoor_answer *answer)
{
    yarrowdoor_request request;
    yarrowdoor_begin(&request, YARROWDOOR_CALL_TCP_CLOSED, now);
    request.from = *local;
    request.to = *remote;
    return yarrowdoor_call_plain(client, &request, answer);
}

YARROWDOOR_INLINE enum yarrowdoor_kind yarrowdoor_delete(yarrowdoor *client, uint64_t now, yarrowdoor_answer *answer)
{
    yarrowdoor_request request;
    yarrowdoor_begin(&request, YARROWDOOR_CALL_DELETE, now);
    return yarrowdoor_call_plain(client, &request, answer);
}

YARROWDOOR_INLINE enum yarrowdoor_kind yarrowdoor_abandon(yarrowdoor *client, uint64_t now, uint8_t *buffer,
                                                          size_t buffer_len, yarrowdoor_answer *answer)
{
    yarrowdoor_request request;
    yarrowdoor_begin(&request, YARROWDOOR_CALL_ABANDON, now);
    return yarrowdoor_call_bytes(client, &request, NULL, 0, buffer, buffer_len, answer);
}

YARROWDOOR_INLINE enum yarrowdoor_kind yarrowdoor_protocol_error(yarrowdoor *client, yarrowdoor_answer *answer)
{
    yarrowdoor_request request;
    yarrowdoor_begin(&request, YARROWDOOR_CALL_PROTOCOL_ERROR, 0);
    return yarrowdoor_call_plain(client, &request, answer);
}

YARROWDOOR_INLINE enum yarrowdoor_kind yarrowdoor_relayed_address(const yarrowdoor *client, uint32_t index,
                                                                  yarrowdoor_answer *answer)
{
    yarrowdoor_request request;
    yarrowdoor_begin(&request, YARROWDOOR_CALL_RELAYED_ADDRESSES, 0);
    request.id = index;
    return yarrowdoor_look_at(client, &request, answer);
}

YARROWDOOR_INLINE enum yarrowdoor_kind yarrowdoor_permission(const yarrowdoor *client, uint32_t transport,
                                                             const yarrowdoor_address *relayed, uint32_t index,
                                                             yarrowdoor_answer *answer)
{
    yarrowdoor_request request;
    yarrowdoor_begin(&request, YARROWDOOR_CALL_PERMISSIONS, 0);
    request.transport = transport;
    request.from = *relayed;
    request.id = index;
    return yarrowdoor_look_at(client, &request, answer);
}

YARROWDOOR_INLINE enum yarrowdoor_kind yarrowdoor_next_permission(const yarrowdoor *client, uint32_t transport,
                                                                  const yarrowdoor_address *relayed, uint32_t cursor,
                                                                  yarrowdoor_answer *answer)
{
    yarrowdoor_request request;
    yarrowdoor_begin(&request, YARROWDOOR_CALL_NEXT_PERMISSION, 0);
    request.transport = transport;
    request.from = *relayed;
    request.id = cursor;
    return yarrowdoor_look_at(client, &request, answer);
}

YARROWDOOR_INLINE yarrowdoor_address yarrowdoor_ipv4(uint8_t a, uint8_t b, uint8_t c, uint8_t d, uint16_t port)
{
    yarrowdoor_address address;
    memset(&address, 0, sizeof address);
    address.ip[0] = a;
    address.ip[1] = b;
    address.ip[2] = c;
    address.ip[3] = d;
    address.port = port;
    address.family = YARROWDOOR_IPV4;
    return address;
}

YARROWDOOR_INLINE int yarrowdoor_is_same_address(const yarrowdoor_address *a, const yarrowdoor_address *b)
{
    return a->family == b->family && a->port == b->port && a->flow == b->flow && a->scope == b->scope &&
           memcmp(a->ip, b->ip, sizeof a->ip) == 0;
}

#endif

#ifdef __cplusplus
}
#endif

/* ---- addresses of sockets */

#if defined(__unix__) || defined(__APPLE__)
#include <netinet/in.h>
#include <sys/socket.h>

/* The address of a sockaddr_in or a sockaddr_in6. One of another family gives YARROWDOOR_NO_ADDRESS. */
static inline yarrowdoor_address yarrowdoor_of_sockaddr(const struct sockaddr *from)
{
    yarrowdoor_address address;
    uint8_t port[2];
    memset(&address, 0, sizeof address);
    if (from->sa_family == AF_INET) {
        struct sockaddr_in in;
        memcpy(&in, from, sizeof in);
        memcpy(address.ip, &in.sin_addr, 4);
        memcpy(port, &in.sin_port, 2);
        address.family = YARROWDOOR_IPV4;
    } else if (from->sa_family == AF_INET6) {
        struct sockaddr_in6 in;
        memcpy(&in, from, sizeof in);
        memcpy(address.ip, &in.sin6_addr, 16);
        memcpy(port, &in.sin6_port, 2);
        address.flow = in.sin6_flowinfo;
        address.scope = in.sin6_scope_id;
        address.family = YARROWDOOR_IPV6;
    } else {
        return address;
    }
    address.port = YARROWDOOR_CAST(uint16_t, port[0] << 8 | port[1]);
    return address;
}

/* Writes the address as a sockaddr_in or a sockaddr_in6, and returns its length, or 0 if it is no address. */
static inline socklen_t yarrowdoor_to_sockaddr(const yarrowdoor_address *address, struct sockaddr_storage *to)
{
    uint8_t port[2];
    port[0] = YARROWDOOR_CAST(uint8_t, address->port >> 8);
    port[1] = YARROWDOOR_CAST(uint8_t, address->port & 0xff);
    memset(to, 0, sizeof *to);
    if (address->family == YARROWDOOR_IPV4) {
        struct sockaddr_in in;
        memset(&in, 0, sizeof in);
        in.sin_family = AF_INET;
        memcpy(&in.sin_addr, address->ip, 4);
        memcpy(&in.sin_port, port, 2);
        memcpy(to, &in, sizeof in);
        return YARROWDOOR_CAST(socklen_t, sizeof in);
    }
    if (address->family == YARROWDOOR_IPV6) {
        struct sockaddr_in6 in;
        memset(&in, 0, sizeof in);
        in.sin6_family = AF_INET6;
        memcpy(&in.sin6_addr, address->ip, 16);
        memcpy(&in.sin6_port, port, 2);
        in.sin6_flowinfo = address->flow;
        in.sin6_scope_id = address->scope;
        memcpy(to, &in, sizeof in);
        return YARROWDOOR_CAST(socklen_t, sizeof in);
    }
    return 0;
}
#endif

#if defined(__GNUC__)
#pragma GCC diagnostic pop
#endif

#endif
