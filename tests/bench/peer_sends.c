/* The C side. */
#include "sender.h"
#include "sends.h"

static struct sender fresh(const struct job *job)
{
    const struct settings *of = &job->calls->settings;
    return fresh_sender(of->limit, of->count, of->largest);
}

static struct told told(struct write_answer answer)
{
    return (struct told){answer.number, answer.written};
}

void peer_send(struct job *job)
{
    struct sender s = fresh(job);
    for (size_t i = 0; i < job->calls->count; i++) {
        const struct call *c = &job->calls->at[i];
        job->told[i] = told(send(&s, c->channel, c->cargo, c->length, job->out + i * job->apart, c->room));
    }
}

void peer_permitted_send(struct job *job)
{
    struct sender s = fresh(job);
    struct permit p = {0};
    for (size_t i = 0; i < job->calls->count; i++) {
        const struct call *c = &job->calls->at[i];
        if (c->is_new)
            grant(&p, c->allowed, c->came);
        job->told[i] = told(permitted_send(&s, &p, c->channel, c->cargo, c->length, c->clock, c->timeout,
                                           job->out + i * job->apart, c->room));
    }
}

void peer_permitted_message(struct job *job)
{
    struct sender s = fresh(job);
    struct permit p = {0};
    for (size_t i = 0; i < job->calls->count; i++) {
        const struct call *c = &job->calls->at[i];
        if (c->is_new)
            grant(&p, c->allowed, c->came);
        job->told[i] = told(permitted_message(&s, &p, c->channel, c->cargo, c->length, c->clock, c->timeout,
                                              job->out + i * job->apart, c->room));
    }
}

void peer_send_then_message(struct job *job)
{
    struct sender s = fresh(job);
    for (size_t i = 0; i < job->calls->count; i++) {
        const struct call *c = &job->calls->at[i];
        struct write_answer answer = send(&s, c->channel, c->cargo, c->length, job->transfer, TRANSFER_ROOM);
        if (answer.number == 0)
            answer = write_message(SHTP_ID, job->transfer, answer.written, job->out + i * job->apart, c->room);
        job->told[i] = told(answer);
    }
}
