#include "calls.h"

#include <string.h>

enum { HEADER = 4, LIMIT = 32766, CHANNELS = 32, LARGEST_OF_MIXED = 128, LONGEST_OF_MIXED = 600, TIMEOUT = 100 };
enum { CARGO_BYTES = 1 << 18, TRIAL_LIMIT = 144, TRIAL_ROOM = 2 * TRIAL_LIMIT + 3 };

const char *const payload_names[PAYLOADS] = {"64 bytes", "1,000 bytes", "mixed"};

static struct call made[MOST_CALLS];
static uint8_t cargo_bytes[CARGO_BYTES];
static uint32_t state = 1;

static uint32_t below(uint32_t n)
{
    state ^= state << 13;
    state ^= state >> 17;
    state ^= state << 5;
    return state % n;
}

static bool one_in(uint32_t n)
{
    return below(n) == 0;
}

/* `left` bytes of the cargo are not sent yet. */
static struct call timed_call(const uint8_t *cargo, size_t length, size_t channel, size_t left, uint64_t clock)
{
    size_t least = left + HEADER;
    return (struct call){
        .cargo = cargo,
        .length = length,
        .channel = channel,
        .came = clock - (one_in(4) ? TIMEOUT : below(TIMEOUT)),
        .clock = clock,
        .timeout = TIMEOUT,
        .allowed = one_in(4) ? least : least + below(UINT16_MAX - least),
        .is_new = true,
    };
}

static void add_cargo(struct calls *calls, const uint8_t *cargo, size_t length)
{
    size_t channel = below(CHANNELS);
    size_t most = calls->settings.largest - HEADER;
    for (size_t left = length; left > 0; left -= left < most ? left : most) {
        struct call *call = &calls->at[calls->count++];
        *call = timed_call(cargo, length, channel, left, TIMEOUT + calls->count);
        call->room = calls->most_room;
    }
}

struct calls timed_calls(const char *name)
{
    bool mixed = strcmp(name, "mixed") == 0;
    size_t size = mixed ? LARGEST_OF_MIXED : strcmp(name, "64 bytes") == 0 ? 64 : 1000;
    struct calls calls = {.settings = {LIMIT, CHANNELS, mixed ? size : LIMIT}, .at = made, .most_room = 2 * size + 3};
    state = 1;
    for (size_t i = 0; i < CARGO_BYTES; i++)
        cargo_bytes[i] = below(256);
    size_t longest = mixed ? LONGEST_OF_MIXED : size - HEADER;
    for (size_t at = 0; at + longest <= CARGO_BYTES;) {
        size_t length = mixed ? 1 + below(longest) : longest;
        add_cargo(&calls, cargo_bytes + at, length);
        at += length;
    }
    return calls;
}

static struct settings trial_settings(void)
{
    struct settings s = {.limit = 5 + below(TRIAL_LIMIT - 4), .count = 1 + below(3)};
    s.largest = 5 + below(s.limit - 4);
    if (one_in(16))
        s.limit = one_in(2) ? below(8) : LIMIT - 1 + below(3);
    if (one_in(16))
        s.count = one_in(2) ? 0 : CHANNELS - 1 + below(3);
    if (one_in(16))
        s.largest = one_in(2) ? below(7) : s.limit - 1 + below(3);
    if (s.limit > TRIAL_LIMIT && s.largest > TRIAL_LIMIT)
        s.largest = TRIAL_LIMIT;
    return s;
}

/* Clocks around 0, 2^32 and the last there is, close to each other. */
static uint64_t trial_clock(void)
{
    uint64_t around = one_in(8) ? UINT64_MAX - 15 : one_in(8) ? UINT32_MAX : 0;
    return around + below(16);
}

/* An L of 125 or 126 now and then: a header with a byte to escape. */
static size_t trial_length(size_t limit)
{
    if (one_in(12))
        return 0;
    if (one_in(4))
        return 0x7D - HEADER + below(2);
    return 1 + below((limit < TRIAL_LIMIT ? limit : TRIAL_LIMIT) + 1);
}

/* Any room, or about as much as the whole cargo takes with some of it escaped, or enough. */
static size_t trial_room(size_t length)
{
    if (one_in(4))
        return below(TRIAL_ROOM + 1);
    return one_in(3) ? length + below(length / 2 + 8) : TRIAL_ROOM;
}

/* The cargo stays the last one in most calls, so that it gets on. */
static struct call trial_call(const struct settings *s, const struct call *last)
{
    struct call call = *last;
    if (call.length == 0 || one_in(8)) {
        call.length = trial_length(s->limit);
        call.channel = one_in(12) ? s->count : below(s->count + 1);
    }
    call.room = trial_room(call.length);
    call.allowed = one_in(3) ? below(TRIAL_LIMIT + 8) : UINT16_MAX - below(2);
    call.came = trial_clock();
    call.clock = one_in(2) ? call.came + below(8) : trial_clock();
    call.timeout = one_in(8) ? UINT32_MAX : below(8);
    call.is_new = !one_in(4);
    return call;
}

struct calls trial_calls(void)
{
    struct calls calls = {trial_settings(), made, 1 + below(TRIAL_CALLS), TRIAL_ROOM};
    for (size_t i = 0; i < 2 * TRIAL_LIMIT; i++)
        cargo_bytes[i] = one_in(3) ? 0x7D + below(2) : below(256);
    struct call last = {.cargo = cargo_bytes};
    for (size_t i = 0; i < calls.count; i++)
        last = calls.at[i] = trial_call(&calls.settings, &last);
    return calls;
}
