/* usage: hints

   Reads messages whose bytes RFC 5769 prints, and others made from them by hand, without a client: what the first frame
   says, and where an attribute lies. Whatever the bytes are, nothing is read behind them. */
#include "hex.h"
#include "yarrowdoor.h"
#include <stdio.h>
#include <stdlib.h>

static unsigned long checks;

static void check(const char *what, unsigned long found, unsigned long want)
{
    checks++;
    if (found != want) {
        fprintf(stderr, "hints: %s: %lu, not %lu\n", what, found, want);
        exit(1);
    }
}

/* RFC 5769, section 2.2: a response with XOR-MAPPED-ADDRESS 192.0.2.1 port 32853, and SOFTWARE "test vector". */
static const char RESPONSE_4[] =
    "0101003c2112a442b7e7a701bc34d686fa87dfae8022000b7465737420766563746f7220002000080001a147e112a643000800142b91f599fd9e90"
    "c38c7489f92af9ba53f06be7d780280004c07d4c96";
/* RFC 5769, section 2.3: the same with 2001:db8:1234:5678:11:2233:4455:6677 port 32853. */
static const char RESPONSE_6[] =
    "010100482112a442b7e7a701bc34d686fa87dfae8022000b7465737420766563746f7220002000140002a1470113a9faa5d3f179bc25f4b5bed2b9"
    "d900080014a382954e4be67bf11784c97c8292c275bfe3ed4180280004c8fb0b4c";
/* RFC 5769, section 2.4: a request with USERNAME, NONCE and REALM "example.org". */
static const char REQUEST[] =
    "000100602112a44278ad3433c6ad72c029da412e00060012e3839ee38388e383aae38383e382afe382b90000001500"
    "1c662f2f3439396b39353464364f4c33346f4c394653547679363473410014000b6578616d706c652e6f726700"
    "00080014f67024656dd64a3e02b8e0712e85c9a28ca89666";
/* An error response to CREATE_PERMISSION: 403 "Forbidden", and behind it ALTERNATE-SERVER 192.0.2.7 port 3478. */
static const char FORBIDDEN[] =
    "011800202112a442000102030405060708090a0b0009000d00000403466f7262696464656e000000802300080001"
    "0d96c0000207";

static yarrowdoor_message read_as(uint32_t transport, const uint8_t *bytes, size_t len, uint32_t want)
{
    yarrowdoor_message said;
    memset(&said, 0xee, sizeof said);
    /* a copy that ends where its memory does, so that a tool sees what is read behind it */
    uint8_t *copy = malloc(len ? len : 1);
    memcpy(copy, bytes, len);
    check("what is returned", yarrowdoor_read_message(transport, copy, len, &said), want);
    check("the kind", said.kind, want);
    free(copy);
    return said;
}

/* All is 0 from here on, and where no frame is named, so is the length. */
static void says_no_more(const yarrowdoor_message *said, size_t from)
{
    const uint8_t *bytes = (const uint8_t *)said;
    check("the length", said->kind == YARROWDOOR_CHANNEL_DATA ? 0 : said->len, 0);
    for (size_t i = from; i < sizeof *said; i++) {
        check("a byte that is not set", bytes[i], 0);
    }
}

static void finds(const uint8_t *bytes, size_t len, uint16_t type, const char *value, size_t value_len)
{
    size_t start = 99, found = 99;
    uint32_t kind = yarrowdoor_read_attribute(bytes, len, type, &start, &found);
    check("an attribute", kind, value ? YARROWDOOR_YES : YARROWDOOR_NO);
    check("its length", found, value_len);
    check("its place", value ? memcmp(bytes + start, value, value_len) != 0 : start != 0, 0);
}

static void mapped_addresses(void)
{
    uint8_t bytes[256];
    size_t len = decode(RESPONSE_4, bytes);
    yarrowdoor_address v4 = yarrowdoor_ipv4(192, 0, 2, 1, 32853);
    yarrowdoor_message said = read_as(YARROWDOOR_UDP, bytes, len, YARROWDOOR_MESSAGE);
    check("the length", said.len, len);
    check("the method", said.method, 1);
    check("the class", said.message_class, YARROWDOOR_CLASS_SUCCESS);
    check("the ID", memcmp(said.id, bytes + 8, 12) != 0, 0);
    check("the mapped address", yarrowdoor_is_same_address(&said.mapped, &v4), 1);
    check("no other server", said.alternate.family, YARROWDOOR_NO_ADDRESS);
    check("no code", said.code + said.channel + said.reason_at + said.reason_len + said.realm_at + said.realm_len, 0);
    finds(bytes, len, 0x8022, "test vector", 11);
    finds(bytes, len, 0x0009, NULL, 0);
    /* a copy of the first attribute's type behind the integrity does not count, but FINGERPRINT there does */
    finds(bytes, len, 0x8028, "\xc0\x7d\x4c\x96", 4);
    bytes[len - 8] = 0x80;
    bytes[len - 7] = 0x23;
    finds(bytes, len, 0x8023, NULL, 0);

    yarrowdoor_address v6;
    memset(&v6, 0, sizeof v6);
    decode("20010db8123456780011223344556677", v6.ip);
    v6.port = 32853;
    v6.family = YARROWDOOR_IPV6;
    len = decode(RESPONSE_6, bytes);
    said = read_as(YARROWDOOR_TCP, bytes, len, YARROWDOOR_MESSAGE);
    check("the mapped address", yarrowdoor_is_same_address(&said.mapped, &v6), 1);
    bytes[41] = 3; /* no such family */
    said = read_as(YARROWDOOR_UDP, bytes, len, YARROWDOOR_MESSAGE);
    check("a malformed address", said.mapped.family, YARROWDOOR_NO_ADDRESS);
}

static void codes(void)
{
    uint8_t bytes[256];
    size_t len = decode(FORBIDDEN, bytes);
    yarrowdoor_address other = yarrowdoor_ipv4(192, 0, 2, 7, 3478);
    yarrowdoor_message said = read_as(YARROWDOOR_UDP, bytes, len, YARROWDOOR_MESSAGE);
    check("the method", said.method, 8);
    check("the class", said.message_class, YARROWDOOR_CLASS_ERROR);
    check("the code", said.code, 403);
    check("the reason", said.reason_len == 9 && memcmp(bytes + said.reason_at, "Forbidden", 9) == 0, 1);
    check("the other server", yarrowdoor_is_same_address(&said.alternate, &other), 1);
    bytes[26] = 2; /* the class of the code is from 3 to 6 */
    said = read_as(YARROWDOOR_UDP, bytes, len, YARROWDOOR_MESSAGE);
    check("a malformed code", said.code + said.reason_at + said.reason_len, 0);
    finds(bytes, len, 0x0009, (const char *)bytes + 24, 13);

    len = decode(REQUEST, bytes);
    said = read_as(YARROWDOOR_UDP, bytes, len, YARROWDOOR_MESSAGE);
    check("the class", said.message_class, YARROWDOOR_CLASS_REQUEST);
    check("the realm", said.realm_len == 11 && memcmp(bytes + said.realm_at, "example.org", 11) == 0, 1);
    finds(bytes, len, 0x0014, "example.org", 11);
}

/* Parts of a message, more than one, and ChannelData, over both transports. */
static void frames(void)
{
    uint8_t bytes[512], channel[] = {0x40, 0x01, 0, 5, 'h', 'e', 'l', 'l', 'o', 0, 0, 0, 9};
    size_t len = decode(FORBIDDEN, bytes);
    yarrowdoor_message said;
    memset(bytes + len, 0x11, 8);
    for (size_t cut = 0; cut < len; cut++) {
        said = read_as(YARROWDOOR_UDP, bytes, cut, YARROWDOOR_NO_FRAME);
        says_no_more(&said, 12);
        said = read_as(YARROWDOOR_TCP, bytes, cut, YARROWDOOR_NOTHING);
        says_no_more(&said, 12);
        finds(bytes, cut, 0x0009, NULL, 0);
    }
    read_as(YARROWDOOR_UDP, bytes, len + 4, YARROWDOOR_NO_FRAME);
    said = read_as(YARROWDOOR_TCP, bytes, len + 4, YARROWDOOR_MESSAGE);
    check("the length", said.len, len);
    finds(bytes, len + 4, 0x0009, (const char *)bytes + 24, 13);
    said = read_as(2, bytes, len, YARROWDOOR_BAD_CALL);
    says_no_more(&said, 12);
    bytes[4] ^= 1; /* another cookie: no message, although a whole frame */
    read_as(YARROWDOOR_TCP, bytes, len, YARROWDOOR_NO_FRAME);

    said = read_as(YARROWDOOR_UDP, channel, 9, YARROWDOOR_CHANNEL_DATA);
    check("the length", said.len, 9);
    check("the channel", said.channel, 0x4001);
    says_no_more(&said, 30);
    read_as(YARROWDOOR_UDP, channel, 8, YARROWDOOR_NO_FRAME);
    read_as(YARROWDOOR_TCP, channel, 11, YARROWDOOR_NOTHING);
    said = read_as(YARROWDOOR_TCP, channel, 13, YARROWDOOR_CHANNEL_DATA);
    check("the length, with the padding", said.len, 12);
    finds(channel, 13, 0x0009, NULL, 0);
    channel[0] = 0x7f;
    check("the greatest channel", read_as(YARROWDOOR_UDP, channel, 9, YARROWDOOR_CHANNEL_DATA).channel, 0x7f01);
    channel[0] = 0x80;
    read_as(YARROWDOOR_UDP, channel, 9, YARROWDOOR_NO_FRAME);
    read_as(YARROWDOOR_TCP, channel, 1, YARROWDOOR_NO_FRAME);
}

/* Of no bytes the pointer may be null. */
static void no_bytes(void)
{
    yarrowdoor_message said;
    check("no datagram", yarrowdoor_read_message(YARROWDOOR_UDP, NULL, 0, &said), YARROWDOOR_NO_FRAME);
    says_no_more(&said, 12);
    check("no stream", yarrowdoor_read_message(YARROWDOOR_TCP, NULL, 0, &said), YARROWDOOR_NOTHING);
    says_no_more(&said, 12);
    finds(NULL, 0, 0x0009, NULL, 0);
}

int main(void)
{
    mapped_addresses();
    codes();
    frames();
    no_bytes();
    printf("hints: %lu checks passed\n", checks);
    return 0;
}
