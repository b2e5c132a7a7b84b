/* Questions about an advertisement, answered by an index or by walking: what each side is given, and what it must answer. */
#ifndef BENCH_QUESTIONS_H
#define BENCH_QUESTIONS_H

#include <stddef.h>
#include <stdint.h>

enum { MOST_QUESTIONS = 1000 };

/* The value of a tag's occurrence, counted from 1. */
struct question {
    uint8_t tag;
    size_t occurrence;
};

/* A value's place and length; both 0 where there is none. */
struct value {
    size_t place;
    size_t length;
};

struct batch {
    const uint8_t *advertisement;
    size_t length;
    const struct question *questions;
    size_t count;
    struct value values[MOST_QUESTIONS];
};

typedef void answerer(struct batch *);

/* Built once, then asked. */
answerer our_index, peer_index;

/* From the start for each question. */
answerer our_walk, peer_walk;

#endif
