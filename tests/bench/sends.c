/* Times sending, both sides in turn, and prints the best of all turns. Before that both sides are tried on the same calls,
 * refused ones too: they must tell the same numbers and lengths, and leave the same bytes in all of the output. All is warm,
 * and in a timed turn each transfer is written where the last one was. */
#define _POSIX_C_SOURCE 199309L
#include "calls.h"

#include <stdio.h>
#include <stdlib.h>
#include <string.h>
#include <time.h>

enum { OUTPUT = 1 << 20, TRIALS = 20000 };

static const struct row {
    const char *name;
    sending *ours;
    sending *peer;
} rows[] = {
    {"send", our_send, peer_send},
    {"permitted send", our_permitted_send, peer_permitted_send},
    {"permitted message", our_permitted_message, peer_permitted_message},
    {"send, then message", our_send_then_message, peer_send_then_message},
};

enum { ROWS = sizeof rows / sizeof *rows };

struct side {
    struct told told[MOST_CALLS];
    uint8_t out[OUTPUT];
    struct job job;
};

static struct side ours, peer;
static size_t met[256];

static double nanoseconds(void)
{
    struct timespec t;
    clock_gettime(CLOCK_MONOTONIC, &t);
    return 1e9 * t.tv_sec + t.tv_nsec;
}

static double run(struct side *side, sending *send, const struct calls *calls, size_t apart)
{
    side->job.calls = calls;
    side->job.told = side->told;
    side->job.out = side->out;
    side->job.apart = apart;
    double start = nanoseconds();
    send(&side->job);
    return nanoseconds() - start;
}

static void must_agree(const struct row *row, const char *on, const struct calls *calls, size_t bytes)
{
    if (memcmp(ours.told, peer.told, calls->count * sizeof *ours.told) == 0 && memcmp(ours.out, peer.out, bytes) == 0
        && memcmp(ours.job.transfer, peer.job.transfer, TRANSFER_ROOM) == 0)
        return;
    printf("bench: %s on %s: the two sides differ\n", row->name, on);
    exit(1);
}

/* Every output is kept, and has the same bytes before. */
static void compare(const struct row *row, const char *on, const struct calls *calls)
{
    size_t bytes = calls->count * calls->most_room;
    if (calls->count > MOST_CALLS || bytes > OUTPUT) {
        printf("bench: %s: too many calls\n", on);
        exit(1);
    }
    memset(ours.out, 0xA5, bytes);
    memset(peer.out, 0xA5, bytes);
    run(&ours, row->ours, calls, calls->most_room);
    run(&peer, row->peer, calls, calls->most_room);
    must_agree(row, on, calls, bytes);
}

static void try_refusals(void)
{
    static const uint8_t numbers[] = {0, 9, 23, 26, 27, 28, 29, 43, 44, 45};
    for (int trial = 0; trial < TRIALS; trial++) {
        struct calls calls = trial_calls();
        for (size_t r = 0; r < ROWS; r++) {
            compare(&rows[r], "trials", &calls);
            for (size_t i = 0; i < calls.count; i++)
                met[ours.told[i].number]++;
        }
    }
    for (size_t i = 0; i < sizeof numbers; i++)
        if (met[numbers[i]] == 0) {
            printf("bench: no call was answered with %d\n", numbers[i]);
            exit(1);
        }
}

static void must_be_written(const struct row *row, const char *on, const struct calls *calls)
{
    for (size_t i = 0; i < calls->count; i++)
        if (ours.told[i].number != 0) {
            printf("bench: %s on %s: refused with %zu\n", row->name, on, ours.told[i].number);
            exit(1);
        }
}

static void measure(const struct row *row, const char *name, const struct calls *calls, int turns)
{
    double our_best = 1e18, peer_best = 1e18;
    compare(row, name, calls);
    must_be_written(row, name, calls);
    for (int turn = 0; turn < turns; turn++) {
        double our_time = run(&ours, row->ours, calls, 0);
        double peer_time = run(&peer, row->peer, calls, 0);
        our_best = our_time < our_best ? our_time : our_best;
        peer_best = peer_time < peer_best ? peer_time : peer_best;
        must_agree(row, name, calls, calls->most_room);
    }
    printf("| %s | %s | %.1f | %.1f | %.2f |\n", row->name, name, our_best / calls->count, peer_best / calls->count,
           our_best / peer_best);
}

int main(int argc, char **argv)
{
    int turns = argc > 1 ? atoi(argv[1]) : 250;
    try_refusals();
    printf("\nBest of %d turns. Sending cargoes of 256 KiB together, warm; ns for each transfer.\n\n", turns);
    puts("| row | payloads | ours, ns | C, ns | ours / C |");
    puts("|---|---|---|---|---|");
    for (size_t r = 0; r < ROWS; r++)
        for (int p = 0; p < PAYLOADS; p++) {
            struct calls calls = timed_calls(payload_names[p]);
            measure(&rows[r], payload_names[p], &calls, turns);
        }
}
