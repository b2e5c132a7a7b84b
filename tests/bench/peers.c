/* The C side of each row. */
#include "reader.h"
#include "receiver.h"
#include "sides.h"

static void count(struct job *job, size_t place, size_t bytes)
{
    job->tally[place]++;
    job->tally[TALLY_BYTES] += bytes;
}

static void count_answer(struct job *job, struct answer answer)
{
    count(job, TALLY_ANSWERS + answer.kind, answer.length);
}

static void count_event(struct job *job, struct event event)
{
    if (event.kind == NOTHING)
        count(job, 0, 0);
    else if (event.kind == MESSAGE)
        count(job, TALLY_ANSWERS, event.value);
    else
        count(job, TALLY_CONTROL + event.kind - QUERY, 0);
}

void peer_receiver(struct job *job)
{
    struct receiver receiver = fresh_receiver(MAX_LIMIT, MAX_CHANNELS);
    size_t at = 0;
    while (at + 2 <= job->length) {
        size_t n = job->input[at] + 256u * job->input[at + 1];
        count_answer(job, take(&receiver, job->input + at + 2, n, job->cargo, CARGO_ROOM));
        at += 2 + n;
    }
}

void peer_byte_reader(struct job *job)
{
    struct reader reader = {OUTSIDE, 0};
    for (size_t i = 0; i < job->length; i++)
        count_event(job, step(&reader, job->input[i], job->message, MESSAGE_ROOM));
}

void peer_slice_reader(struct job *job)
{
    struct reader reader = {OUTSIDE, 0};
    size_t at = 0;
    while (at < job->length)
        count_event(job, read_slice(&reader, job->input, job->length, &at, job->message, MESSAGE_ROOM));
}

void peer_pipeline(struct job *job)
{
    struct reader reader = {OUTSIDE, 0};
    struct receiver receiver = fresh_receiver(MAX_LIMIT, MAX_CHANNELS);
    size_t at = 0;
    while (at < job->length) {
        struct event event = read_slice(&reader, job->input, job->length, &at, job->message, MESSAGE_ROOM);
        if (event.kind == MESSAGE)
            count_answer(job, take(&receiver, job->message + 1, event.value, job->cargo, CARGO_ROOM));
        else
            count_event(job, event);
    }
}

void peer_memcpy(struct job *job)
{
    static uint8_t copied[4 << 20];
    memcpy(copied, job->input, job->length < sizeof copied ? job->length : sizeof copied);
    /* the copy counts as read, so that no compiler drops it */
    __asm__ volatile("" : : "r"(copied) : "memory");
}
