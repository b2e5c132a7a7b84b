#include "inputs.h"

#include <stdbool.h>
#include <stdio.h>
#include <stdlib.h>
#include <string.h>

#include "reader.h"

enum { CHANNELS = 8, LARGEST = 128, LONGEST_CARGO = 600, MOST_ADDED = 4096 };

static uint32_t state = 1;

static uint32_t below(uint32_t n)
{
    state ^= state << 13;
    state ^= state >> 17;
    state ^= state << 5;
    return state % n;
}

static bool one_in(uint32_t n)
{
    return below(n) == 0;
}

static void *memory(size_t size)
{
    void *at = malloc(size);
    if (!at) {
        fputs("bench: no memory\n", stderr);
        exit(1);
    }
    return at;
}

static void add_byte(struct bytes *b, uint8_t byte)
{
    b->at[b->length++] = byte;
}

static void add_bytes(struct bytes *b, const uint8_t *bytes, size_t n)
{
    memcpy(b->at + b->length, bytes, n);
    b->length += n;
}

static void add_message(struct input *in, uint8_t id, const uint8_t *payload, size_t n)
{
    struct bytes *stream = &in->forms[TWO_FLAGS];
    size_t opening = stream->length;
    add_byte(stream, FLAG);
    add_byte(stream, id);
    for (size_t i = 0; i < n; i++) {
        bool special = payload[i] == FLAG || payload[i] == ESCAPE;
        if (special)
            add_byte(stream, ESCAPE);
        add_byte(stream, special ? payload[i] ^ TURN : payload[i]);
    }
    add_byte(stream, FLAG);
    size_t start = in->messages == 0 ? opening : opening + 1;
    add_bytes(&in->forms[ONE_FLAG], stream->at + start, stream->length - start);
    in->messages++;
}

static void add_transfer(struct input *in, const uint8_t *transfer, size_t n)
{
    add_byte(&in->forms[BARE], n % 256);
    add_byte(&in->forms[BARE], n / 256);
    add_bytes(&in->forms[BARE], transfer, n);
    add_message(in, 1, transfer, n);
}

static void write_header(uint8_t *transfer, size_t length, bool continuation, uint8_t channel, uint8_t number)
{
    transfer[0] = length % 256;
    transfer[1] = length / 256 + (continuation ? 128 : 0);
    transfer[2] = channel;
    transfer[3] = number;
}

static void add_carried(uint8_t *transfer, size_t n)
{
    for (size_t i = 4; i < n; i++)
        transfer[i] = below(256);
}

static struct input empty_input(const char *name, size_t size)
{
    struct input in = {.name = name};
    for (int form = 0; form < FORMS; form++)
        in.forms[form].at = memory(2 * size + 2 * MOST_ADDED);
    return in;
}

static struct input even_input(const char *name, size_t payload, size_t size)
{
    struct input in = empty_input(name, size);
    uint8_t numbers[CHANNELS] = {0};
    uint8_t *transfer = memory(payload);
    while (in.forms[TWO_FLAGS].length < size) {
        uint8_t channel = below(CHANNELS);
        write_header(transfer, payload, false, channel, numbers[channel]++);
        add_carried(transfer, payload);
        add_transfer(&in, transfer, payload);
    }
    free(transfer);
    return in;
}

static void add_on_a_bad_line(struct input *in, uint8_t *transfer, size_t n)
{
    if (one_in(50))
        return;
    if (one_in(100))
        transfer[below(n)] ^= 1u << below(8);
    add_transfer(in, transfer, n);
    if (one_in(50))
        add_transfer(in, transfer, n);
}

static void add_control(struct input *in)
{
    const uint8_t room[2] = {below(256), below(256)};
    add_message(in, one_in(20) ? 2 : 0, room, below(4) % 3);
}

static struct input mixed_input(const char *name, size_t size)
{
    struct input in = empty_input(name, size);
    uint8_t numbers[CHANNELS] = {0};
    uint8_t transfer[LARGEST];
    while (in.forms[TWO_FLAGS].length < size) {
        uint8_t channel = below(CHANNELS);
        size_t left = 1 + below(LONGEST_CARGO);
        for (bool continuation = false; left > 0; continuation = true) {
            size_t n = left + 4 < LARGEST ? left + 4 : LARGEST;
            write_header(transfer, left + 4, continuation, channel, numbers[channel]++);
            add_carried(transfer, n);
            add_on_a_bad_line(&in, transfer, n);
            left -= n - 4;
        }
        if (one_in(20))
            add_control(&in);
    }
    return in;
}

const char *const input_names[INPUTS] = {"64 bytes", "1,000 bytes", "mixed"};
const char *const form_names[FORMS] = {[BARE] = "", [TWO_FLAGS] = "", [ONE_FLAG] = ", one flag"};

struct input make_input(const char *name, size_t size)
{
    if (strcmp(name, "mixed") == 0)
        return mixed_input(name, size);
    return even_input(name, strcmp(name, "64 bytes") == 0 ? 64 : 1000, size);
}

void free_input(struct input *in)
{
    for (int form = 0; form < FORMS; form++)
        free(in->forms[form].at);
}
