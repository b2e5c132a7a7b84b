/* Times both sides of each row on the same inputs, in turn, and prints the best of all turns as ratios. Inputs and buffers are
 * warm: from the second turn on all of them were touched before. */
#define _POSIX_C_SOURCE 199309L
#include <stdbool.h>
#include <stdio.h>
#include <stdlib.h>
#include <string.h>
#include <time.h>

#include "inputs.h"
#include "sides.h"

enum { SIZE = 1 << 20 };

struct row {
    const char *name;
    bool bare; /* run on bare transfers, not on messages */
    side *ours;
    side *peer;
};

static const struct row rows[] = {
    {"receiver, a call a transfer", true, our_receiver, peer_receiver},
    {"byte reader, a call a byte", false, our_byte_reader, peer_byte_reader},
    {"slice reader, a call a message", false, our_slice_reader, peer_slice_reader},
    {"slice reader, looped in Rattle", false, our_slice_reader_loop, peer_slice_reader},
    {"pipeline, a call a message", false, our_pipeline, peer_pipeline},
    {"pipeline, looped in Rattle", false, our_pipeline_loop, peer_pipeline},
};

static double seconds(void)
{
    struct timespec t;
    clock_gettime(CLOCK_MONOTONIC, &t);
    return t.tv_sec + 1e-9 * t.tv_nsec;
}

/* Runs a side from a fresh start and keeps the shorter time. */
static void run(side *side, struct job *job, const struct bytes *input, double *best)
{
    job->input = input->at;
    job->length = input->length;
    memset(job->tally, 0, sizeof job->tally);
    double start = seconds();
    side(job);
    double took = seconds() - start;
    if (took < *best)
        *best = took;
}

/* Both sides must have counted the same, and left the same bytes in both buffers. */
static void compare(const struct row *row, const struct input *in, enum form form, const struct job *ours,
                    const struct job *peer)
{
    bool same = memcmp(ours->tally, peer->tally, sizeof ours->tally) == 0
        && memcmp(ours->message, peer->message, MESSAGE_ROOM) == 0
        && memcmp(ours->cargo, peer->cargo, CARGO_ROOM) == 0;
    if (same)
        return;
    printf("bench: %s on %s%s: the two sides differ\n", row->name, in->name, form_names[form]);
    exit(1);
}

static void measure(const struct row *row, const struct input *in, enum form form, int turns)
{
    static struct job ours, peer, copy;
    const struct bytes *input = &in->forms[form];
    double our_best = 1e9, peer_best = 1e9, copy_best = 1e9;
    for (int turn = 0; turn < turns; turn++) {
        run(row->ours, &ours, input, &our_best);
        run(row->peer, &peer, input, &peer_best);
        run(peer_memcpy, &copy, input, &copy_best);
        compare(row, in, form, &ours, &peer);
    }
    double each = 1e9 / in->messages;
    printf("| %s | %s%s | %.1f | %.1f | %.1f | %.2f | %.1f |\n", row->name, in->name, form_names[form], our_best * each,
           peer_best * each, copy_best * each, our_best / peer_best, our_best / copy_best);
}

static void measure_forms(const struct row *row, const struct input *in, int turns)
{
    if (row->bare) {
        measure(row, in, BARE, turns);
        return;
    }
    measure(row, in, TWO_FLAGS, turns);
    measure(row, in, ONE_FLAG, turns);
}

int main(int argc, char **argv)
{
    int turns = argc > 1 ? atoi(argv[1]) : 250;
    struct input inputs[INPUTS];
    for (int i = 0; i < INPUTS; i++)
        inputs[i] = make_input(input_names[i], SIZE);
    printf("Best of %d turns. Inputs of 1 MiB, warm; ns for each message (bare transfers in the first rows).\n\n", turns);
    puts("| row | payloads | ours, ns | C, ns | memcpy, ns | ours / C | ours / memcpy |");
    puts("|---|---|---|---|---|---|---|");
    for (size_t r = 0; r < sizeof rows / sizeof *rows; r++)
        for (int i = 0; i < INPUTS; i++)
            measure_forms(&rows[r], &inputs[i], turns);
    for (int i = 0; i < INPUTS; i++)
        free_input(&inputs[i]);
}
