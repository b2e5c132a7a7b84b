/* The C peer of crates/receiver: one direction's receiver, its state behind a pointer. */
#ifndef BENCH_RECEIVER_H
#define BENCH_RECEIVER_H

#include <stdbool.h>
#include <stddef.h>
#include <stdint.h>
#include <string.h>

enum { HEADER = 4, MIN_LIMIT = 5, MAX_CHANNELS = 32, MAX_LIMIT = 32766 };

struct channel {
    uint8_t expected;
    bool heard;
    uint32_t missing;
    uint32_t repeats;
};

struct receiver {
    size_t limit;
    size_t count;
    struct channel channels[MAX_CHANNELS];
    bool under_way; /* a cargo of `total` bytes on `channel`, of which the first `held` are there */
    size_t channel;
    size_t total;
    size_t held;
};

enum answer_kind { DELIVERED, PART, NULL_HEADER, REFUSED };

struct answer {
    enum answer_kind kind;
    uint8_t number;
    uint8_t gap;
    bool dropped;
    size_t channel; /* of a delivered cargo */
    size_t length;
};

static inline struct receiver fresh_receiver(size_t limit, size_t count)
{
    return (struct receiver){.limit = limit, .count = count};
}

static inline struct answer refuse(uint8_t number)
{
    return (struct answer){.kind = REFUSED, .number = number};
}

static inline bool is_sound(const struct receiver *r)
{
    if (r->limit < MIN_LIMIT || r->limit > MAX_LIMIT || r->count < 1 || r->count > MAX_CHANNELS)
        return false;
    if (!r->under_way)
        return true;
    return r->channel < r->count && r->total >= 1 && r->total <= r->limit - HEADER && r->held < r->total;
}

/* The carried bytes go behind those held: the cargo is finished, or is now under way. */
static inline struct answer put(struct receiver *r, const uint8_t *transfer, size_t n, size_t length, uint8_t gap,
                                bool dropped, uint8_t *cargo)
{
    size_t carried = (n < length ? n : length) - HEADER;
    memcpy(cargo + r->held, transfer + HEADER, carried);
    r->under_way = n < length;
    if (r->under_way) {
        r->held += carried;
        return (struct answer){.kind = PART, .gap = gap, .dropped = dropped};
    }
    return (struct answer){
        .kind = DELIVERED, .gap = gap, .dropped = dropped, .channel = r->channel, .length = r->total};
}

static inline struct answer first(struct receiver *r, const uint8_t *transfer, size_t n, size_t length, uint8_t gap,
                                  uint8_t *cargo)
{
    bool dropped = r->under_way;
    r->channel = transfer[2];
    r->total = length - HEADER;
    r->held = 0;
    return put(r, transfer, n, length, gap, dropped, cargo);
}

static inline struct answer continuation(struct receiver *r, const uint8_t *transfer, size_t n, size_t length,
                                         uint8_t gap, uint8_t *cargo)
{
    if (r->under_way && r->channel == transfer[2] && gap == 0 && length - HEADER == r->total - r->held)
        return put(r, transfer, n, length, gap, false, cargo);
    bool dropped = r->under_way;
    r->under_way = false;
    return (struct answer){.kind = REFUSED, .number = 21, .gap = gap, .dropped = dropped};
}

/* Order for each transfer: 23, 24, 2, null, 22, 4, 3, 9, 20, then the gap step. */
static inline struct answer take(struct receiver *r, const uint8_t *transfer, size_t n, uint8_t *cargo, size_t room)
{
    if (!is_sound(r))
        return refuse(23);
    if (room < r->limit - HEADER)
        return refuse(24);
    if (n < HEADER)
        return refuse(2);
    unsigned field = transfer[0] + 256u * transfer[1];
    size_t length = field % 32768;
    if (length == 0)
        return (struct answer){.kind = NULL_HEADER};
    if (length == 32767)
        return refuse(22);
    if (length <= HEADER)
        return refuse(4);
    if (length > r->limit)
        return refuse(3);
    if (transfer[2] >= r->count)
        return refuse(9);
    struct channel *c = &r->channels[transfer[2]];
    uint8_t gap = transfer[3] - c->expected;
    if (c->heard && gap == 255) {
        c->repeats++;
        return refuse(20);
    }
    c->missing += gap;
    c->expected = transfer[3] + 1;
    c->heard = true;
    return field < 32768 ? first(r, transfer, n, length, gap, cargo)
                         : continuation(r, transfer, n, length, gap, cargo);
}

#endif
