/* A TURN server that grants all: it challenges the first ALLOCATE, and signs its other answers (RFC 8489, sections
   9.2 and 14.5; RFC 8656). */
#include "bench.h"
#include "sha1.h"
#include <string.h>

enum { ALLOCATE = 3, REFRESH = 4 };
enum { SUCCESS = 0x0100, ERROR = 0x0110 };

/* The MD5 of `user:realm:pass` (RFC 8489, section 9.2.2). */
static const uint8_t KEY[16] = {
    0x84, 0x93, 0xfb, 0xc5, 0x3b, 0xa5, 0x82, 0xfb, 0x4c, 0x04, 0x4c, 0x45, 0x6b, 0xdc, 0x40, 0xeb,
};

/* Error 401 with the realm `realm` and the nonce `nonce`. */
static const uint8_t UNAUTHENTICATED[] = {
    0x00, 0x09, 0x00, 0x04, 0x00, 0x00, 0x04, 0x01, 0x00, 0x14, 0x00, 0x05, 'r', 'e',  'a',  'l',
    'm',  0x00, 0x00, 0x00, 0x00, 0x15, 0x00, 0x05, 'n',  'o',  'n',  'c',  'e', 0x00, 0x00, 0x00,
};

/* A LIFETIME of an hour, XOR-RELAYED-ADDRESS of 10.0.0.4:40000, and XOR-MAPPED-ADDRESS of 192.168.0.1:1000. */
static const uint8_t ALLOCATION[] = {
    0x00, 0x0d, 0x00, 0x04, 0x00, 0x00, 0x0e, 0x10, 0x00, 0x16, 0x00, 0x08, 0x00, 0x01, 0xbd, 0x52,
    0x2b, 0x12, 0xa4, 0x46, 0x00, 0x20, 0x00, 0x08, 0x00, 0x01, 0x22, 0xfa, 0xe1, 0xba, 0xa4, 0x43,
};

/* The type and the length of MESSAGE-INTEGRITY. */
static const uint8_t INTEGRITY[4] = {0x00, 0x08, 0x00, 0x14};

void write_16(uint8_t *place, uint16_t value)
{
    place[0] = value >> 8;
    place[1] = value & 0xff;
}

void write_header(uint8_t *place, uint16_t type, uint16_t len, uint8_t id)
{
    static const uint8_t cookie[4] = {0x21, 0x12, 0xa4, 0x42};
    write_16(place, type);
    write_16(place + 2, len);
    memcpy(place + 4, cookie, 4);
    memset(place + 8, id, 12);
}

size_t write_frame(uint8_t *place, uint16_t channel, size_t len)
{
    write_16(place, channel);
    write_16(place + 2, (uint16_t)len);
    memset(place + 4, 0x55, len);
    return 4 + len;
}

static int is_signed(const uint8_t *request, size_t len)
{
    return len >= 44 && memcmp(request + len - 24, INTEGRITY, 4) == 0;
}

/* Answers with these attributes, and signs them where that is wanted. */
static size_t answer(const uint8_t *request, uint16_t class, const uint8_t *body, size_t len, int sign, uint8_t *room)
{
    uint16_t method = (uint16_t)(request[0] << 8 | request[1]);
    write_header(room, class | method, (uint16_t)(sign ? len + 24 : len), 0);
    memcpy(room + 8, request + 8, 12);
    memcpy(room + 20, body, len);
    if (!sign) {
        return 20 + len;
    }
    memcpy(room + 20 + len, INTEGRITY, 4);
    hmac_sha1(KEY, sizeof KEY, room, 20 + len, room + 24 + len);
    return 44 + len;
}

/* The bytes of the server's answer. */
static size_t served(const uint8_t *request, size_t len, uint8_t *room, size_t room_len)
{
    if (len < 20 || room_len < 256) {
        wrong("a packet of the client");
    }
    uint16_t type = (uint16_t)(request[0] << 8 | request[1]);
    if (!is_signed(request, len)) {
        return answer(request, ERROR, UNAUTHENTICATED, sizeof UNAUTHENTICATED, 0, room);
    }
    switch (type) {
    case ALLOCATE:
        return answer(request, SUCCESS, ALLOCATION, sizeof ALLOCATION, 1, room);
    case REFRESH:
        return answer(request, SUCCESS, ALLOCATION, 8, 1, room);
    default:
        return answer(request, SUCCESS, ALLOCATION, 0, 1, room);
    }
}

size_t bench_answer(const uint8_t *request, size_t len, uint8_t *room, size_t room_len)
{
    pause_clock();
    size_t count = served(request, len, room, room_len);
    resume_clock();
    return count;
}
