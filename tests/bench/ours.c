/* Our side of each row: the proved functions, called as C calls them. */
#include "boherlin.h"
#include "boherlin_whole.h"
#include "sides.h"

static void count(struct job *job, size_t place, size_t bytes)
{
    job->tally[place]++;
    job->tally[TALLY_BYTES] += bytes;
}

static void count_answer(struct job *job, const size_t *receiver)
{
    count(job, TALLY_ANSWERS + receiver[BOHERLIN_RX_KIND], receiver[BOHERLIN_RX_CARGO_LENGTH]);
}

/* Events are 0 nothing, 1 message, 2 query, 3 notice, 4 refused. */
static void count_event(struct job *job, const size_t *reader)
{
    size_t event = reader[BOHERLIN_READER_EVENT];
    if (event == 0)
        count(job, 0, 0);
    else if (event == 1)
        count(job, TALLY_ANSWERS, reader[BOHERLIN_READER_VALUE]);
    else
        count(job, TALLY_CONTROL + event - 2, 0);
}

/* A call a transfer; the state is a row of numbers that each call loads and stores. */
void our_receiver(struct job *job)
{
    size_t row[BOHERLIN_RX_ROW] = {[BOHERLIN_RX_LIMIT] = 32766, [BOHERLIN_RX_COUNT] = 32};
    size_t at = 0;
    while (at + 2 <= job->length) {
        size_t n = job->input[at] + 256u * job->input[at + 1];
        boherlin_take(row, BOHERLIN_RX_ROW, job->input + at + 2, n, job->cargo, CARGO_ROOM);
        count_answer(job, row);
        at += 2 + n;
    }
}

/* A call a byte. */
void our_byte_reader(struct job *job)
{
    size_t row[4] = {0};
    for (size_t i = 0; i < job->length; i++) {
        boherlin_step(row, 4, job->input[i], job->message, MESSAGE_ROOM);
        count_event(job, row);
    }
}

/* A call a message. */
void our_slice_reader(struct job *job)
{
    size_t row[5] = {0};
    while (row[BOHERLIN_READER_NEXT] < job->length) {
        boherlin_read(row, 5, job->input, job->length, row[BOHERLIN_READER_NEXT], job->message, MESSAGE_ROOM);
        count_event(job, row);
    }
}

/* A call a message, the receiver's state in the row too. */
void our_pipeline(struct job *job)
{
    size_t row[BOHERLIN_LISTENER_ROW] = {[BOHERLIN_RX_LIMIT] = 32766, [BOHERLIN_RX_COUNT] = 32};
    const size_t *reader = row + BOHERLIN_LISTENER_READER;
    while (reader[BOHERLIN_READER_NEXT] < job->length) {
        boherlin_listen(row, BOHERLIN_LISTENER_ROW, job->input, job->length, reader[BOHERLIN_READER_NEXT],
                        job->message, MESSAGE_ROOM, job->cargo, CARGO_ROOM);
        if (reader[BOHERLIN_READER_EVENT] == 1)
            count_answer(job, row);
        else
            count_event(job, reader);
    }
}

/* One call for the whole input: the loop is Rattle's. */
void our_slice_reader_loop(struct job *job)
{
    boherlin_tally_messages(job->input, job->length, job->message, MESSAGE_ROOM, job->tally, TALLY);
}

void our_pipeline_loop(struct job *job)
{
    boherlin_tally_stream(32766, 32, job->input, job->length, job->message, MESSAGE_ROOM, job->cargo, CARGO_ROOM,
                          job->tally, TALLY);
}
