/* The C peer of crates/sender, crates/permit and crates/writer: a sender and a permit, each behind a pointer. */
#ifndef BENCH_SENDER_H
#define BENCH_SENDER_H

#include <stdbool.h>
#include <stddef.h>
#include <stdint.h>
#include <string.h>

enum { HEADER = 4, MIN_LIMIT = 5, MAX_CHANNELS = 32, MAX_LIMIT = 32766 };

enum { FLAG = 0x7E, ESCAPE = 0x7D, TURN = 0x20, SHTP_ID = 1, FRAME = 3 };

struct sender {
    size_t limit;
    size_t count;
    size_t largest;
    uint8_t numbers[MAX_CHANNELS];
    bool under_way; /* a cargo of `total` bytes on `channel`, of which the first `sent` are out */
    size_t channel;
    size_t total;
    size_t sent;
};

/* For one transfer with an L of at most `room`. */
struct permit {
    bool held;
    uint16_t room;
    uint64_t came;
};

struct write_answer {
    uint8_t number;
    size_t written;
};

/* The next transfer of a cargo: its header, and the part of the cargo behind it. */
struct transfer {
    uint8_t header[HEADER];
    size_t length; /* L */
    size_t from;
    size_t carried;
};

static inline struct sender fresh_sender(size_t limit, size_t count, size_t largest)
{
    return (struct sender){.limit = limit, .count = count, .largest = largest};
}

static inline void grant(struct permit *p, uint16_t room, uint64_t clock)
{
    *p = (struct permit){.held = true, .room = room, .came = clock};
}

static inline struct write_answer refuse(uint8_t number)
{
    return (struct write_answer){.number = number};
}

static inline bool is_sound(const struct sender *s)
{
    if (s->limit < MIN_LIMIT || s->limit > MAX_LIMIT || s->count < 1 || s->count > MAX_CHANNELS)
        return false;
    if (s->largest < MIN_LIMIT || s->largest > s->limit)
        return false;
    if (!s->under_way)
        return true;
    return s->channel < s->count && s->total <= s->limit - HEADER && s->sent >= 1 && s->sent < s->total;
}

/* In order: 23, 9, 26, 27, 29. A short output is asked for behind them. */
static inline uint8_t cargo_refusal(const struct sender *s, size_t channel, size_t n)
{
    if (!is_sound(s))
        return 23;
    if (channel >= s->count)
        return 9;
    if (n == 0)
        return 26;
    if (n > s->limit - HEADER)
        return 27;
    if (s->under_way && (s->channel != channel || s->total != n))
        return 29;
    return 0;
}

/* In order: 43, 45, 44. */
static inline uint8_t permit_refusal(const struct permit *p, size_t length, uint64_t clock, uint32_t timeout)
{
    if (!p->held)
        return 43;
    if (clock < p->came || clock - p->came > timeout)
        return 45;
    if (length > p->room)
        return 44;
    return 0;
}

static inline struct transfer next_transfer(const struct sender *s, size_t channel, size_t n)
{
    size_t from = s->under_way ? s->sent : 0;
    size_t length = n - from + HEADER;
    size_t size = length < s->largest ? length : s->largest;
    return (struct transfer){
        .header = {length % 256, length / 256 + (s->under_way ? 128 : 0), channel, s->numbers[channel]},
        .length = length,
        .from = from,
        .carried = size - HEADER,
    };
}

static inline void move_on(struct sender *s, size_t channel, size_t n, const struct transfer *t)
{
    s->numbers[channel]++;
    s->channel = channel;
    s->total = n;
    s->sent = t->from + t->carried;
    s->under_way = s->sent < n;
}

static inline struct write_answer put_transfer(const struct transfer *t, const uint8_t *cargo, uint8_t *out)
{
    memcpy(out, t->header, HEADER);
    memcpy(out + HEADER, cargo + t->from, t->carried);
    return (struct write_answer){.written = HEADER + t->carried};
}

static inline struct write_answer send(struct sender *s, size_t channel, const uint8_t *cargo, size_t n, uint8_t *out,
                                       size_t room)
{
    uint8_t number = cargo_refusal(s, channel, n);
    if (number != 0)
        return refuse(number);
    struct transfer t = next_transfer(s, channel, n);
    if (room < HEADER + t.carried)
        return refuse(28);
    move_on(s, channel, n, &t);
    return put_transfer(&t, cargo, out);
}

static inline struct write_answer permitted_send(struct sender *s, struct permit *p, size_t channel,
                                                 const uint8_t *cargo, size_t n, uint64_t clock, uint32_t timeout,
                                                 uint8_t *out, size_t room)
{
    uint8_t number = cargo_refusal(s, channel, n);
    if (number != 0)
        return refuse(number);
    struct transfer t = next_transfer(s, channel, n);
    if (room < HEADER + t.carried)
        return refuse(28);
    number = permit_refusal(p, t.length, clock, timeout);
    if (number != 0)
        return refuse(number);
    p->held = false;
    move_on(s, channel, n, &t);
    return put_transfer(&t, cargo, out);
}

static inline bool is_special(uint8_t byte)
{
    return byte == FLAG || byte == ESCAPE;
}

/* The loops stand out of line, so that both writers run the same ones: where gcc places a copy moves its time by a quarter. */
#define OUT_OF_LINE static __attribute__((noinline))

OUT_OF_LINE size_t escaped_length(const uint8_t *bytes, size_t n)
{
    size_t length = n;
    for (size_t i = 0; i < n; i++)
        if (is_special(bytes[i]))
            length++;
    return length;
}

OUT_OF_LINE uint8_t *put_escaped(const uint8_t *bytes, size_t n, uint8_t *out)
{
    const uint8_t *end = bytes + n;
    while (bytes < end)
        if (is_special(*bytes)) {
            *out++ = ESCAPE;
            *out++ = *bytes++ ^ TURN;
        } else {
            *out++ = *bytes++;
        }
    return out;
}

static inline struct write_answer write_message(uint8_t id, const uint8_t *payload, size_t n, uint8_t *out, size_t room)
{
    if (id > 1)
        return refuse(30);
    size_t length = FRAME + escaped_length(payload, n);
    if (room < length)
        return refuse(28);
    out[0] = FLAG;
    out[1] = id;
    *put_escaped(payload, n, out + 2) = FLAG;
    return (struct write_answer){.written = length};
}

static inline struct write_answer put_message(const struct transfer *t, const uint8_t *cargo, uint8_t *out)
{
    out[0] = FLAG;
    out[1] = SHTP_ID;
    uint8_t *end = put_escaped(t->header, HEADER, out + 2);
    end = put_escaped(cargo + t->from, t->carried, end);
    *end++ = FLAG;
    return (struct write_answer){.written = end - out};
}

static inline struct write_answer permitted_message(struct sender *s, struct permit *p, size_t channel,
                                                    const uint8_t *cargo, size_t n, uint64_t clock, uint32_t timeout,
                                                    uint8_t *out, size_t room)
{
    uint8_t number = cargo_refusal(s, channel, n);
    if (number != 0)
        return refuse(number);
    struct transfer t = next_transfer(s, channel, n);
    if (room < FRAME + escaped_length(t.header, HEADER) + escaped_length(cargo + t.from, t.carried))
        return refuse(28);
    number = permit_refusal(p, t.length, clock, timeout);
    if (number != 0)
        return refuse(number);
    p->held = false;
    move_on(s, channel, n, &t);
    return put_message(&t, cargo, out);
}

#endif
