/* The library's calls with pointers and lengths of 32 bits, which JavaScript has as plain numbers. The module's memory has no
   more, so that nothing is cut. An answer is set to 0 before a call, as the functions of the header do. The time of a call is a
   double too, which JavaScript has in a register: two halves of 32 bits, written to the request by JavaScript, are slow to read
   as one number. */

typedef __UINT64_TYPE__ u64;
typedef __UINT32_TYPE__ u32;
typedef __UINT8_TYPE__ u8;

/* The bytes of an answer (yarrowdoor_answer). */
#define ANSWER 160UL

u32 yarrowdoor_new(const void *settings, const u8 *user, u64 user_len, const u8 *password, u64 password_len,
                   const u8 *seed, u64 seed_len, void **place);
u32 yarrowdoor_call(void *client, const void *request, const u8 *bytes, u64 bytes_len, u8 *buffer, u64 buffer_len,
                    void *answer);
u32 yarrowdoor_look(const void *client, const void *request, void *answer);
u32 yarrowdoor_read_message(u32 transport, const u8 *bytes, u64 len, void *message);
u32 yarrowdoor_read_attribute(const u8 *bytes, u64 len, u32 type, u64 *start, u64 *value_len);
u64 yarrowdoor_kept_grants(const void *load, u64 request_cadence, u64 refresh_ahead);
u64 yarrowdoor_longest_cadence(const void *load, u64 count, u64 refresh_ahead);
void yarrowdoor_free(void *client);

static void *at(u32 place)
{
    return (void *)(u64)place;
}

static void clear(u8 *answer)
{
    for (u64 place = 0; place < ANSWER; place += 8) {
        *(u64 *)(answer + place) = 0;
    }
}

/* As yarrowdoor_new. The client is put as 32 bits. */
__attribute__((export_name("client_new"))) u32 client_new(u32 settings, u32 user, u32 user_len, u32 password,
                                                          u32 password_len, u32 seed, u32 seed_len, u32 place)
{
    void *client = 0;
    u32 kind =
        yarrowdoor_new(at(settings), at(user), user_len, at(password), password_len, at(seed), seed_len, &client);
    *(u32 *)at(place) = (u32)(u64)client;
    return kind;
}

/* As yarrowdoor_call, with the answer set to 0 before. `now` is the time of the request, whole nanoseconds up to 2^62, or less
   than 0, and then it is the one that stands in the request. */
__attribute__((export_name("client_call"))) u32 client_call(u32 client, u32 request, double now, u32 bytes,
                                                            u32 bytes_len, u32 buffer, u32 buffer_len, u32 answer)
{
    if (now >= 0) {
        *(u64 *)at(request) = (u64)now;
    }
    clear(at(answer));
    return yarrowdoor_call(at(client), at(request), at(bytes), bytes_len, at(buffer), buffer_len, at(answer));
}

/* As yarrowdoor_look, with the answer set to 0 before. */
__attribute__((export_name("client_look"))) u32 client_look(u32 client, u32 request, u32 answer)
{
    clear(at(answer));
    return yarrowdoor_look(at(client), at(request), at(answer));
}

/* As yarrowdoor_free. */
__attribute__((export_name("client_free"))) void client_free(u32 client)
{
    yarrowdoor_free(at(client));
}

/* As yarrowdoor_read_message. */
__attribute__((export_name("read_message"))) u32 read_message(u32 transport, u32 bytes, u32 len, u32 message)
{
    return yarrowdoor_read_message(transport, at(bytes), len, at(message));
}

/* The bytes of a load (yarrowdoor_load). */
#define LOAD 24UL

/* As yarrowdoor_kept_grants, with the load at `place` and the two settings behind it. The number is put to the front. */
__attribute__((export_name("kept_grants"))) void kept_grants(u32 place)
{
    const u64 *settings = at(place + LOAD);
    *(u64 *)at(place) = yarrowdoor_kept_grants(at(place), settings[0], settings[1]);
}

/* As yarrowdoor_longest_cadence, with the load at `place`, and count and setting behind it. The number is put to the front. */
__attribute__((export_name("longest_cadence"))) void longest_cadence(u32 place)
{
    const u64 *words = at(place + LOAD);
    *(u64 *)at(place) = yarrowdoor_longest_cadence(at(place), words[0], words[1]);
}

/* As yarrowdoor_read_attribute, with place and length of the value as two numbers of 32 bits at `place`. */
__attribute__((export_name("read_attribute"))) u32 read_attribute(u32 bytes, u32 len, u32 type, u32 place)
{
    u64 start = 0, value_len = 0;
    u32 kind = yarrowdoor_read_attribute(at(bytes), len, type, &start, &value_len);
    ((u32 *)at(place))[0] = (u32)start;
    ((u32 *)at(place))[1] = (u32)value_len;
    return kind;
}
