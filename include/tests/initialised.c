/* SPDX-License-Identifier: MIT OR Apache-2.0 */
/* Stands before the library, whose functions have other names then, and has valgrind look at all memory that is passed in: what is
   not initialised is an error of the caller, and ends the program. */
#include "yarrowdoor.h"
#include <stdlib.h>
#include <valgrind/memcheck.h>

uint32_t real_new(const yarrowdoor_settings *settings, const uint8_t *user, size_t user_len, const uint8_t *password,
                  size_t password_len, const uint8_t *seed, size_t seed_len, yarrowdoor **place);
uint32_t real_call(yarrowdoor *client, const yarrowdoor_request *request, const uint8_t *bytes, size_t bytes_len,
                   uint8_t *buffer, size_t buffer_len, yarrowdoor_answer *answer);
uint32_t real_look(const yarrowdoor *client, const yarrowdoor_request *request, yarrowdoor_answer *answer);
uint32_t real_read_message(uint32_t transport, const uint8_t *bytes, size_t len, yarrowdoor_message *message);
uint32_t real_read_attribute(const uint8_t *bytes, size_t len, uint16_t type, size_t *start, size_t *value_len);

static void look_at(const void *at, size_t len)
{
    if (len && VALGRIND_CHECK_MEM_IS_DEFINED(at, len)) {
        abort();
    }
}

uint32_t yarrowdoor_new(const yarrowdoor_settings *settings, const uint8_t *user, size_t user_len,
                        const uint8_t *password, size_t password_len, const uint8_t *seed, size_t seed_len,
                        yarrowdoor **place)
{
    look_at(settings, sizeof *settings);
    look_at(user, user_len);
    look_at(password, password_len);
    look_at(seed, seed_len);
    look_at(place, sizeof *place);
    return real_new(settings, user, user_len, password, password_len, seed, seed_len, place);
}

uint32_t yarrowdoor_call(yarrowdoor *client, const yarrowdoor_request *request, const uint8_t *bytes, size_t bytes_len,
                         uint8_t *buffer, size_t buffer_len, yarrowdoor_answer *answer)
{
    look_at(request, sizeof *request);
    look_at(bytes, request->kind == YARROWDOOR_CALL_SEND_HEAD ? 0 : bytes_len);
    look_at(buffer, buffer_len);
    look_at(answer, sizeof *answer);
    return real_call(client, request, bytes, bytes_len, buffer, buffer_len, answer);
}

uint32_t yarrowdoor_look(const yarrowdoor *client, const yarrowdoor_request *request, yarrowdoor_answer *answer)
{
    look_at(request, sizeof *request);
    look_at(answer, sizeof *answer);
    return real_look(client, request, answer);
}

uint32_t yarrowdoor_read_message(uint32_t transport, const uint8_t *bytes, size_t len, yarrowdoor_message *message)
{
    look_at(bytes, len);
    look_at(message, sizeof *message);
    return real_read_message(transport, bytes, len, message);
}

uint32_t yarrowdoor_read_attribute(const uint8_t *bytes, size_t len, uint16_t type, size_t *start, size_t *value_len)
{
    look_at(bytes, len);
    look_at(start, sizeof *start);
    look_at(value_len, sizeof *value_len);
    return real_read_attribute(bytes, len, type, start, value_len);
}
