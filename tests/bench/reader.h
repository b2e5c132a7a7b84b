/* The C peer of crates/reader: a byte at a time, and over a slice. */
#ifndef BENCH_READER_H
#define BENCH_READER_H

#include <stdbool.h>
#include <stddef.h>
#include <stdint.h>
#include <string.h>

enum { FLAG = 0x7E, ESCAPE = 0x7D, TURN = 0x20 };

/* OUTSIDE is before the first flag of a stream. */
enum phase { OUTSIDE, INSIDE, ESCAPED, LONG };

struct reader {
    enum phase phase;
    size_t held; /* bytes of the message under way, its ID first */
};

enum event_kind { NOTHING, MESSAGE, QUERY, NOTICE, BAD_MESSAGE };

struct event {
    enum event_kind kind;
    size_t value; /* a message's payload length, a notice's room, a refusal's number */
};

static inline struct event nothing(void)
{
    return (struct event){.kind = NOTHING};
}

static inline struct event bad(uint8_t number)
{
    return (struct event){.kind = BAD_MESSAGE, .value = number};
}

static inline struct event whole_message(size_t held, const uint8_t *buffer)
{
    if (buffer[0] > 1)
        return bad(30);
    if (buffer[0] == 1)
        return (struct event){.kind = MESSAGE, .value = held - 1};
    if (held == 1)
        return (struct event){.kind = QUERY};
    if (held == 3)
        return (struct event){.kind = NOTICE, .value = buffer[1] + 256u * buffer[2]};
    return bad(33);
}

/* Closes what precedes the flag and opens what follows. */
static inline struct event at_flag(struct reader *r, const uint8_t *buffer)
{
    struct reader was = *r;
    *r = (struct reader){INSIDE, 0};
    if (was.phase == LONG)
        return bad(32);
    if (was.phase == ESCAPED)
        return bad(31);
    if (was.phase == OUTSIDE || was.held == 0)
        return nothing();
    return whole_message(was.held, buffer);
}

static inline struct event step(struct reader *r, uint8_t byte, uint8_t *buffer, size_t room)
{
    if (r->held > room)
        return bad(23);
    if (byte == FLAG)
        return at_flag(r, buffer);
    if (r->phase == OUTSIDE || r->phase == LONG)
        return nothing();
    if (r->phase == INSIDE && byte == ESCAPE) {
        r->phase = ESCAPED;
        return nothing();
    }
    if (r->held == room) {
        r->phase = LONG;
        return nothing();
    }
    buffer[r->held++] = r->phase == ESCAPED ? byte ^ TURN : byte;
    r->phase = INSIDE;
    return nothing();
}

/* The plain bytes ahead are found in one tight loop and copied at once: how many there were. */
static inline size_t take_run(const uint8_t *input, size_t n, uint8_t *buffer, size_t room)
{
    size_t most = n < room ? n : room;
    size_t run = 0;
    while (run < most && input[run] != FLAG && input[run] != ESCAPE)
        run++;
    memcpy(buffer, input, run);
    return run;
}

/* Reads from `*at` on, until a message closes or the input ends. */
static inline struct event read_slice(struct reader *r, const uint8_t *input, size_t n, size_t *at, uint8_t *buffer,
                                      size_t room)
{
    while (*at < n) {
        struct event event = step(r, input[(*at)++], buffer, room);
        if (event.kind != NOTHING)
            return event;
        if (r->phase == INSIDE && r->held <= room) {
            size_t run = take_run(input + *at, n - *at, buffer + r->held, room - r->held);
            *at += run;
            r->held += run;
        }
    }
    return nothing();
}

#endif
