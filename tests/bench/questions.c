/* Times questions about an advertisement, by an index and by walking, both sides in turn, and prints the best of all
 * turns. A turn asks a thousand questions, so that a batch of fewer is asked several times; all is warm. */
#define _POSIX_C_SOURCE 199309L
#include "questions.h"

#include <stdio.h>
#include <stdlib.h>
#include <string.h>
#include <time.h>

enum { ENTRIES = 60, TAGS = 12, LONGEST = 12, STRIDE = 37, WAYS = 4 };

static const struct {
    const char *name;
    answerer *answer;
} ways[WAYS] = {{"our index", our_index}, {"our walk", our_walk}, {"C index", peer_index}, {"C walk", peer_walk}};

static uint8_t advertisement[ENTRIES * (2 + LONGEST)];
static size_t length;
static struct question questions[MOST_QUESTIONS];
static struct value expected[MOST_QUESTIONS];

static uint32_t below(uint32_t n)
{
    static uint32_t state = 1;
    state ^= state << 13;
    state ^= state >> 17;
    state ^= state << 5;
    return state % n;
}

static double nanoseconds(void)
{
    struct timespec t;
    clock_gettime(CLOCK_MONOTONIC, &t);
    return 1e9 * t.tv_sec + t.tv_nsec;
}

/* The questions ask for the entries in an order that spreads them; each tenth for one occurrence more than there are. */
static void make_questions(void)
{
    struct question of[ENTRIES];
    struct value values[ENTRIES];
    size_t met[TAGS + 1] = {0};
    for (size_t e = 0; e < ENTRIES; e++) {
        uint8_t tag = 1 + below(TAGS);
        size_t n = below(LONGEST + 1);
        of[e] = (struct question){tag, ++met[tag]};
        values[e] = (struct value){length + 2, n};
        advertisement[length++] = tag;
        advertisement[length++] = n;
        while (n-- > 0)
            advertisement[length++] = below(256);
    }
    for (size_t i = 0; i < MOST_QUESTIONS; i++) {
        size_t e = (ENTRIES / 2 + i * STRIDE) % ENTRIES;
        questions[i] = of[e];
        expected[i] = values[e];
        if (i % 10 == 9) {
            questions[i].occurrence = met[of[e].tag] + 1;
            expected[i] = (struct value){0, 0};
        }
    }
}

static void measure(size_t count, int turns)
{
    static struct batch batch;
    double best[WAYS] = {1e18, 1e18, 1e18, 1e18};
    int times = MOST_QUESTIONS / count;
    for (int turn = 0; turn < turns; turn++)
        for (int w = 0; w < WAYS; w++) {
            batch = (struct batch){.advertisement = advertisement, .length = length, .questions = questions, .count = count};
            double start = nanoseconds();
            for (int i = 0; i < times; i++)
                ways[w].answer(&batch);
            double took = (nanoseconds() - start) / times;
            if (took < best[w])
                best[w] = took;
            if (memcmp(batch.values, expected, count * sizeof *expected) != 0) {
                printf("bench: %s: a wrong answer\n", ways[w].name);
                exit(1);
            }
        }
    printf("| %zu | %.0f | %.0f | %.0f | %.0f | %.2f | %.2f | %.2f | %.2f |\n", count, best[0], best[1], best[2], best[3],
           best[0] / best[1], best[2] / best[3], best[0] / best[2], best[1] / best[3]);
}

int main(int argc, char **argv)
{
    int turns = argc > 1 ? atoi(argv[1]) : 2500;
    make_questions();
    printf("\nBest of %d turns. An advertisement of %d entries in %zu bytes; ns for the batch.\n\n", turns, ENTRIES, length);
    puts("| questions | our index, ns | our walk, ns | C index, ns | C walk, ns "
         "| index / walk, ours | in C | ours / C, index | walk |");
    puts("|---|---|---|---|---|---|---|---|---|");
    for (size_t count = 1; count <= MOST_QUESTIONS; count *= count < 10 ? 10 : 100)
        measure(count, turns);
}
