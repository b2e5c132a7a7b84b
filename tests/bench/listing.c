/* The C peer of the listing program: a byte by getchar, a line by printf. */
#include <stdio.h>

#include "reader.h"
#include "receiver.h"

enum { MESSAGE_ROOM = 32767, CARGO_ROOM = 32762 };

static void print_line(const char *event, int channel, size_t bytes, unsigned number, unsigned gap, bool dropped)
{
    if (channel < 0)
        printf("%s\t-\t%zu\t%u\t%u\t%d\n", event, bytes, number, gap, dropped);
    else
        printf("%s\t%d\t%zu\t%u\t%u\t%d\n", event, channel, bytes, number, gap, dropped);
}

static void print_answer(struct answer answer, const struct receiver *receiver, const uint8_t *message)
{
    bool told = answer.number == 9 || answer.number == 20 || answer.number == 21;
    switch (answer.kind) {
    case DELIVERED:
        print_line("cargo", (int)answer.channel, answer.length, 0, answer.gap, answer.dropped);
        break;
    case PART:
        print_line("part", (int)receiver->channel, receiver->held, 0, answer.gap, answer.dropped);
        break;
    case NULL_HEADER:
        print_line("null", -1, 0, 0, 0, false);
        break;
    case REFUSED:
        print_line("refused", told ? message[3] : -1, 0, answer.number, answer.gap, answer.dropped);
        break;
    }
}

static void print_event(struct event event, struct receiver *receiver, const uint8_t *message, uint8_t *cargo)
{
    switch (event.kind) {
    case NOTHING:
        break;
    case MESSAGE:
        print_answer(take(receiver, message + 1, event.value, cargo, CARGO_ROOM), receiver, message);
        break;
    case QUERY:
        print_line("query", -1, 0, 0, 0, false);
        break;
    case NOTICE:
        print_line("notice", -1, event.value, 0, 0, false);
        break;
    case BAD_MESSAGE:
        print_line("refused", -1, 0, (unsigned)event.value, 0, false);
        break;
    }
}

int main(void)
{
    static uint8_t message[MESSAGE_ROOM], cargo[CARGO_ROOM];
    struct reader reader = {OUTSIDE, 0};
    struct receiver receiver = fresh_receiver(MAX_LIMIT, MAX_CHANNELS);
    int byte;
    puts("event\tchannel\tbytes\tnumber\tgap\tdropped");
    while ((byte = getchar()) != EOF)
        print_event(step(&reader, (uint8_t)byte, message, MESSAGE_ROOM), &receiver, message, cargo);
}
