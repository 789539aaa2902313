/* Times a signed request and a signed response, and the digests in them, with each algorithm of integrity. */
#include "bench.h"
#include "sha1.h"
#include <math.h>
#include <stdio.h>
#include <string.h>

uint32_t bench_sha1(uint8_t *room, size_t len);
uint32_t bench_sha256(uint8_t *room, size_t len);

enum { CHALLENGE, BUILD, SIGN, PARSE, CHECK, BLOCKS, REQUEST_CODE, RESPONSE_CODE, ROWS };

/* A header with XOR-PEER-ADDRESS, and then USERNAME, REALM and NONCE; with SHA-256 also PASSWORD-ALGORITHMS and
   PASSWORD-ALGORITHM. */
enum { BUILT = 20 + 12, COVERED_SHA1 = BUILT + 8 + 16 + 20, COVERED_SHA256 = COVERED_SHA1 + 12 + 8 };

/* A response's integrity covers its header alone. */
enum { RESPONSE = 20 };

enum { SHA1_LEN = 20, SHA256_LEN = 32 };

enum { BLOCK = 64, MANY = 1024 };

/* An algorithm: how many bytes of the request it covers, and how long its code is. */
struct algorithm {
    const char *name;
    uint32_t (*measure)(uint8_t *, size_t);
    size_t covered;
    size_t code_len;
};

enum { ALGORITHMS = 2 };

static const struct algorithm algorithms[ALGORITHMS] = {
    {"SHA-1", bench_sha1, COVERED_SHA1, SHA1_LEN},
    {"SHA-256", bench_sha256, COVERED_SHA256, SHA256_LEN},
};

/* Error 401 with the realm `example.org` and a nonce, which offers SHA-256 and MD5. */
static const uint8_t unauthenticated[] = {
    0x00, 0x09, 0x00, 0x04, 0x00, 0x00, 0x04, 0x01, 0x00, 0x14, 0x00, 0x0b, 'e',  'x',  'a',  'm',  'p',  'l',  'e',
    '.',  'o',  'r',  'g',  0x00, 0x00, 0x15, 0x00, 0x10, '5',  'f',  '2',  'a',  '9',  'c',  '0',  'd',  '8',  '1',
    'e',  '4',  'b',  '3',  '6',  '7',  0x80, 0x02, 0x00, 0x08, 0x00, 0x02, 0x00, 0x00, 0x00, 0x01, 0x00, 0x00,
};

/* The MD5 of `user:example.org:pass` (RFC 8489, section 9.2.2). */
static const uint8_t key[16] = {
    0xab, 0xca, 0x35, 0x35, 0x6f, 0x4b, 0x00, 0xfb, 0xc3, 0x3e, 0x2d, 0x8c, 0x2c, 0x43, 0xb9, 0xd6,
};

static uint8_t room[MANY * BLOCK];
static const struct algorithm *current;

/* Whether a request with HMAC-SHA1 was looked at. */
static int looked;

/* What a turn of each row has to answer. */
static uint64_t answer_of(uint32_t row)
{
    switch (row) {
    case BUILD:
        return BUILT;
    case SIGN:
        return current->covered + 4 + current->code_len;
    case PARSE:
    case CHECK:
        return 1;
    case REQUEST_CODE:
    case RESPONSE_CODE:
        return current->code_len;
    default:
        return 0;
    }
}

static int is_right(uint32_t row, uint64_t turns, uint64_t sum)
{
    return sum == turns * answer_of(row);
}

size_t bench_input(uint32_t row, uint8_t *at, size_t len)
{
    if (len < sizeof room) {
        wrong("the room");
    }
    switch (row) {
    case CHALLENGE:
        write_header(at, 0x0118, sizeof unauthenticated, 1);
        memcpy(at + 20, unauthenticated, sizeof unauthenticated);
        return 20 + sizeof unauthenticated;
    case REQUEST_CODE:
        memset(at, 0x55, current->covered);
        return current->covered;
    case RESPONSE_CODE:
        memset(at, 0x55, RESPONSE);
        return RESPONSE;
    default:
        memset(at, 0x55, sizeof room);
        return sizeof room;
    }
}

size_t bench_turn(uint8_t *at, size_t len)
{
    (void)at;
    (void)len;
    return 0;
}

/* The first request that is signed with HMAC-SHA1 is checked. */
uint64_t bench_made(const uint8_t *bytes, size_t len)
{
    if (!looked && len == COVERED_SHA1 + 4 + SHA1_LEN) {
        uint8_t code[SHA1_LEN];
        hmac_sha1(key, sizeof key, bytes, COVERED_SHA1, code);
        if (memcmp(bytes + COVERED_SHA1 + 4, code, sizeof code) != 0) {
            wrong("a signature");
        }
        looked = 1;
    }
    return len;
}

static void measure(const struct algorithm *algorithm, double found[ROWS])
{
    current = algorithm;
    looked = 0;
    begin(is_right);
    if (algorithm->measure(room, sizeof room) != 0) {
        wrong("memory");
    }
    for (uint32_t row = 0; row < ROWS; row++) {
        keep_least(row, &found[row]);
    }
}

/* How many blocks are digested for the HMAC of so many bytes: they and their padding, and what came of them. The
   blocks of the padded key are digested when the key is made. */
static int blocks_of(size_t len)
{
    return (int)(len + 8) / BLOCK + 1 + 1;
}

/* Prints a row of each algorithm. */
static void print(const char *name, const double spent[ALGORITHMS])
{
    printf("%-68s %9.0f %9.0f\n", name, spent[0], spent[1]);
}

/* Prints what was found in a row of each algorithm. */
static void print_row(const char *name, uint32_t row, double found[ALGORITHMS][ROWS])
{
    const double spent[ALGORITHMS] = {found[0][row], found[1][row]};
    print(name, spent);
}

/* Prints what a row took more than another one. */
static void print_difference(const char *name, uint32_t row, uint32_t less, double found[ALGORITHMS][ROWS])
{
    const double spent[ALGORITHMS] = {found[0][row] - found[0][less], found[1][row] - found[1][less]};
    print(name, spent);
}

/* Prints what the compression function takes for the HMAC of so many bytes. */
static void print_blocks(const char *name, const size_t len[ALGORITHMS], double found[ALGORITHMS][ROWS])
{
    double spent[ALGORITHMS];
    for (int i = 0; i < ALGORITHMS; i++) {
        spent[i] = blocks_of(len[i]) * found[i][BLOCKS] / MANY;
    }
    print(name, spent);
}

int main(void)
{
    const size_t requests[ALGORITHMS] = {COVERED_SHA1, COVERED_SHA256};
    const size_t responses[ALGORITHMS] = {RESPONSE, RESPONSE};
    double found[ALGORITHMS][ROWS];
    for (int i = 0; i < ALGORITHMS * ROWS; i++) {
        found[i / ROWS][i % ROWS] = NAN;
    }
    for (int i = 0; i < ROUNDS * ALGORITHMS; i++) {
        measure(&algorithms[i % ALGORITHMS], found[i % ALGORITHMS]);
    }
    printf("%-68s %9s %9s\n", "Signatures: nanoseconds", algorithms[0].name, algorithms[1].name);
    print_row("CREATE_PERMISSION, built and signed", SIGN, found);
    print_row("CREATE_PERMISSION, built and not signed", BUILD, found);
    print_difference("  so its signature", SIGN, BUILD, found);
    print_row("  the calls of the digest in it, with nothing around them", REQUEST_CODE, found);
    print_blocks("  its blocks, in one call with many others", requests, found);
    print_row("signed success, parsed and checked", CHECK, found);
    print_row("signed success, parsed", PARSE, found);
    print_difference("  so the check of its signature", CHECK, PARSE, found);
    print_row("  the calls of the digest in it, with nothing around them", RESPONSE_CODE, found);
    print_blocks("  its blocks, in one call with many others", responses, found);
    print_machine();
    return 0;
}
