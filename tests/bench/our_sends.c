/* Our side: the proved functions, called as C calls them. Each call loads the sender from its row and stores it. */
#include "boherlin.h"
#include "sends.h"

struct sender {
    size_t row[BOHERLIN_TX_ROW];
    size_t permit[BOHERLIN_PERMIT_ROW];
};

static struct sender fresh(const struct job *job)
{
    struct sender s = {0};
    const struct settings *of = &job->calls->settings;
    boherlin_fresh_sender(of->limit, of->count, of->largest, s.row, BOHERLIN_TX_ROW);
    return s;
}

void our_send(struct job *job)
{
    struct sender s = fresh(job);
    for (size_t i = 0; i < job->calls->count; i++) {
        const struct call *c = &job->calls->at[i];
        uint8_t number = boherlin_send(s.row, BOHERLIN_TX_ROW, c->channel, c->cargo, c->length,
                                       job->out + i * job->apart, c->room);
        job->told[i] = (struct told){number, s.row[BOHERLIN_TX_WRITTEN]};
    }
}

void our_permitted_send(struct job *job)
{
    struct sender s = fresh(job);
    for (size_t i = 0; i < job->calls->count; i++) {
        const struct call *c = &job->calls->at[i];
        if (c->is_new)
            boherlin_grant(c->allowed, c->came, s.permit, BOHERLIN_PERMIT_ROW);
        uint8_t number = boherlin_permitted_send(s.row, BOHERLIN_TX_ROW, s.permit, BOHERLIN_PERMIT_ROW, c->channel,
                                                 c->cargo, c->length, c->clock, c->timeout,
                                                 job->out + i * job->apart, c->room);
        job->told[i] = (struct told){number, s.row[BOHERLIN_TX_WRITTEN]};
    }
}

void our_permitted_message(struct job *job)
{
    struct sender s = fresh(job);
    for (size_t i = 0; i < job->calls->count; i++) {
        const struct call *c = &job->calls->at[i];
        if (c->is_new)
            boherlin_grant(c->allowed, c->came, s.permit, BOHERLIN_PERMIT_ROW);
        uint8_t number = boherlin_permitted_message(s.row, BOHERLIN_TX_ROW, s.permit, BOHERLIN_PERMIT_ROW, c->channel,
                                                    c->cargo, c->length, c->clock, c->timeout,
                                                    job->out + i * job->apart, c->room);
        job->told[i] = (struct told){number, s.row[BOHERLIN_TX_WRITTEN]};
    }
}

void our_send_then_message(struct job *job)
{
    struct sender s = fresh(job);
    for (size_t i = 0; i < job->calls->count; i++) {
        const struct call *c = &job->calls->at[i];
        size_t written = 0;
        uint8_t number = boherlin_send(s.row, BOHERLIN_TX_ROW, c->channel, c->cargo, c->length, job->transfer,
                                       TRANSFER_ROOM);
        if (number == 0)
            number = boherlin_write(1, job->transfer, s.row[BOHERLIN_TX_WRITTEN], job->out + i * job->apart, c->room,
                                    &written);
        job->told[i] = (struct told){number, written};
    }
}
