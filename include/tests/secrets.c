/* usage: secrets

   Makes a client, lets it have a key, and frees it. What the library gives back to the C library is looked at before: no
   block has the password, the key or the seed, though each stood in one, nor any byte but its count that is not 0. Linked
   with --wrap of malloc, realloc and free. */
#include "yarrowdoor.h"
#include <stdio.h>
#include <stdlib.h>

enum { BLOCKS = 4096, SECRETS = 3 };

/* Where a block begins include/erase.c keeps the count of its bytes. */
enum { FRONT = 16 };

void *__real_malloc(size_t size);
void __real_free(void *block);
void *__wrap_malloc(size_t size);
void *__wrap_realloc(void *block, size_t size);
void __wrap_free(void *block);

static const char PASSWORD[] = "a password that stands nowhere else";
static const uint8_t SEED[] = "a seed that is found in no block";
/* The key of "user" in "realm" is kept as the state of SHA-1 behind the block of it that HMAC takes first (RFC 2104), made by a
   program of Python whose HMAC from that state is that of its library. */
static const uint32_t KEY[] = {0xb0904866, 0xdca507e7, 0x4de2b9b1, 0xa8d35946, 0x3296d6b7};

static const struct secret {
    const char *name;
    const void *at;
    size_t len;
} secrets[SECRETS] = {
    {"the password", PASSWORD, sizeof PASSWORD - 1}, {"the key", KEY, sizeof KEY}, {"the seed", SEED, 32}};

static struct block {
    unsigned char *at;
    size_t size;
} blocks[BLOCKS];

static unsigned long freed, unerased, given_back[SECRETS];

static void fail(const char *what, const char *which)
{
    fprintf(stderr, "secrets: %s%s\n", what, which);
    exit(1);
}

static int has(const struct block *block, const struct secret *secret)
{
    for (size_t place = 0; place + secret->len <= block->size; place++) {
        if (memcmp(block->at + place, secret->at, secret->len) == 0) {
            return 1;
        }
    }
    return 0;
}

static int is_erased(const struct block *block)
{
    for (size_t place = FRONT; place < block->size; place++) {
        if (block->at[place] != 0) {
            return 0;
        }
    }
    return 1;
}

static struct block *block_at(const void *at)
{
    for (int i = 0; i < BLOCKS; i++) {
        if (blocks[i].at == at) {
            return &blocks[i];
        }
    }
    fail("a block is unknown, or there are too many", "");
    return NULL;
}

void *__wrap_malloc(size_t size)
{
    struct block *block = block_at(NULL);
    block->at = __real_malloc(size);
    block->size = block->at ? size : 0;
    return block->at;
}

void __wrap_free(void *at)
{
    if (at) {
        struct block *block = block_at(at);
        freed++;
        unerased += !is_erased(block);
        for (int i = 0; i < SECRETS; i++) {
            given_back[i] += (unsigned long)has(block, &secrets[i]);
        }
        block->at = NULL;
        __real_free(at);
    }
}

/* As a move, so that the old block is looked at too. */
void *__wrap_realloc(void *at, size_t size)
{
    void *moved = __wrap_malloc(size);
    if (moved && at) {
        size_t old_size = block_at(at)->size;
        memcpy(moved, at, old_size < size ? old_size : size);
        __wrap_free(at);
    }
    return moved;
}

static yarrowdoor *new_client(const yarrowdoor_settings *settings)
{
    yarrowdoor *client;
    if (yarrowdoor_new(settings, (const uint8_t *)"user", 4, (const uint8_t *)PASSWORD, sizeof PASSWORD - 1, SEED, 32,
                       &client)) {
        fail("no client", "");
    }
    return client;
}

/* The packet that is due, as long as it is. */
static size_t transmit(yarrowdoor *client, uint64_t now, uint8_t *packet, size_t room)
{
    yarrowdoor_answer answer;
    if (yarrowdoor_poll_transmit(client, now, packet, room, &answer) != YARROWDOOR_PACKET) {
        fail("no packet is due", "");
    }
    return answer.len;
}

/* A 401 with the realm "realm" and a nonce, to the request of this ID. */
static void challenge(yarrowdoor *client, const yarrowdoor_settings *settings, const uint8_t *request)
{
    static const uint8_t attributes[] = {0,   9, 0, 4, 0, 0,    4, 1, 0,   0x14, 0,   5,   'r', 'e', 'a', 'l',
                                         'm', 0, 0, 0, 0, 0x15, 0, 8, 'a', ' ',  'n', 'o', 'n', 'c', 'e', '!'};
    uint8_t response[20 + sizeof attributes];
    yarrowdoor_answer answer;
    memcpy(response, request, 20);
    response[0] = 1;
    response[1] = 0x13;
    response[2] = 0;
    response[3] = sizeof attributes;
    memcpy(response + 20, attributes, sizeof attributes);
    if (yarrowdoor_recv(client, YARROWDOOR_UDP, &settings->remote, &settings->local, response, sizeof response, 0, NULL,
                        0, &answer) != YARROWDOOR_HANDLED) {
        fail("the challenge is not answered", "");
    }
}

/* Each secret stands in a block that the client has. */
static void expect_live(void)
{
    for (int i = 0; i < SECRETS; i++) {
        int found = 0;
        for (int j = 0; j < BLOCKS; j++) {
            found |= blocks[j].at && has(&blocks[j], &secrets[i]);
        }
        if (!found) {
            fail("no block of the client has ", secrets[i].name);
        }
    }
}

/* A client with a key, which has been challenged. */
static void let_have_key(const yarrowdoor_address *local, const yarrowdoor_address *remote)
{
    yarrowdoor_settings settings = yarrowdoor_settings_of(YARROWDOOR_UDP, local, remote);
    yarrowdoor *client = new_client(&settings);
    uint8_t packet[1500];
    transmit(client, 0, packet, sizeof packet);
    challenge(client, &settings, packet);
    transmit(client, 50000000, packet, sizeof packet); /* signed */
    expect_live();
    yarrowdoor_free(client);
}

/* A client over TCP keeps what has come of a message, in a block that grows with each piece. */
static void let_grow(const yarrowdoor_address *local, const yarrowdoor_address *remote)
{
    enum { PIECE = 400, PIECES = 20 };
    yarrowdoor_settings settings = yarrowdoor_settings_of(YARROWDOOR_TCP, local, remote);
    yarrowdoor *client = new_client(&settings);
    uint8_t piece[PIECE] = {0x40, 0x00, 0x7f, 0xf0}; /* ChannelData of more bytes than come */
    memset(piece + 4, 0x55, sizeof piece - 4);
    for (int i = 0; i < PIECES; i++) {
        yarrowdoor_answer answer;
        yarrowdoor_recv(client, YARROWDOOR_TCP, remote, local, piece, sizeof piece, 0, NULL, 0, &answer);
    }
    yarrowdoor_free(client);
}

int main(void)
{
    yarrowdoor_address local = yarrowdoor_ipv4(192, 168, 0, 1, 1000), remote = yarrowdoor_ipv4(10, 0, 0, 2, 2000);
    let_have_key(&local, &remote);
    let_grow(&local, &remote);
    for (int i = 0; i < SECRETS; i++) {
        if (given_back[i]) {
            fail("a block that is given back has ", secrets[i].name);
        }
    }
    if (unerased) {
        fail("a block that is given back is not erased", "");
    }
    printf("secrets: %lu blocks looked at\n", freed);
    return 0;
}
