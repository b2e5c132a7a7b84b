/* Both sides of each measured row: what they are given, and the tally that they must agree on. */
#ifndef BENCH_SIDES_H
#define BENCH_SIDES_H

#include <stddef.h>
#include <stdint.h>

enum { MESSAGE_ROOM = 32767, CARGO_ROOM = 32762 };

/* How often each thing was told: nothing, a message or the receiver's four kinds of answer, query, notice, bad message;
 * then the bytes of all cargoes (of a reader alone: of all payloads). */
enum { TALLY_ANSWERS = 1, TALLY_CONTROL = 5, TALLY_BYTES = 8, TALLY = 9 };

struct job {
    const uint8_t *input;
    size_t length;
    uint8_t message[MESSAGE_ROOM];
    uint8_t cargo[CARGO_ROOM];
    size_t tally[TALLY];
};

typedef void side(struct job *);

side peer_receiver, peer_byte_reader, peer_slice_reader, peer_pipeline;

/* The input copied, and nothing told. */
side peer_memcpy;

side our_receiver, our_byte_reader, our_slice_reader, our_slice_reader_loop, our_pipeline, our_pipeline_loop;

#endif
