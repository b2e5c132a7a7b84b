/* Sending, plain or permitted, as transfers or as UART messages: what each side is given, and what it must answer. */
#ifndef BENCH_SENDS_H
#define BENCH_SENDS_H

#include <stdbool.h>
#include <stddef.h>
#include <stdint.h>

enum { TRANSFER_ROOM = 32766 };

/* One transfer, or a refusal. The permit stands in rows that ask for one: it is granted where it is new. */
struct call {
    const uint8_t *cargo;
    size_t length;
    size_t channel;
    size_t room; /* of the output */
    uint64_t came;
    uint64_t clock;
    uint32_t timeout;
    uint16_t allowed;
    bool is_new;
};

struct settings {
    size_t limit;
    size_t count;
    size_t largest;
};

struct calls {
    struct settings settings;
    struct call *at;
    size_t count;
    size_t most_room;
};

struct told {
    size_t number;
    size_t written;
};

/* Outputs are `apart` from each other: by 0 each goes where the last one went. */
struct job {
    const struct calls *calls;
    struct told *told;
    uint8_t *out;
    size_t apart;
    uint8_t transfer[TRANSFER_ROOM]; /* where a row writes the transfer first, and then the message */
};

/* From a fresh sender through all calls. */
typedef void sending(struct job *);

sending our_send, our_permitted_send, our_permitted_message, our_send_then_message;
sending peer_send, peer_permitted_send, peer_permitted_message, peer_send_then_message;

#endif
