/* The C peer of crates/index and of the walk below it: an index behind a pointer. Tags are not marked as known: nothing
 * here asks for it. */
#ifndef BENCH_INDEX_H
#define BENCH_INDEX_H

#include <stdbool.h>
#include <stddef.h>
#include <stdint.h>

enum { MOST_ENTRIES = 64 };

enum entry_kind { ENTRY, NO_MORE, BAD_ENTRY };

struct entry {
    enum entry_kind kind;
    uint8_t number;
    uint8_t tag;
    size_t length;
    size_t next;
};

static inline struct entry entry_at(const uint8_t *cargo, size_t n, size_t place)
{
    if (n <= place)
        return (struct entry){.kind = NO_MORE};
    if (n - place == 1)
        return (struct entry){.kind = BAD_ENTRY, .number = 34};
    size_t length = cargo[place + 1];
    if (n - place - 2 < length)
        return (struct entry){.kind = BAD_ENTRY, .number = 35};
    return (struct entry){.kind = ENTRY, .tag = cargo[place], .length = length, .next = place + 2 + length};
}

struct index {
    uint8_t tags[MOST_ENTRIES];
    size_t places[MOST_ENTRIES];
    size_t lengths[MOST_ENTRIES];
    size_t count;
    size_t next;
};

static inline bool is_sound(const struct index *index, size_t n)
{
    if (index->count > MOST_ENTRIES)
        return false;
    for (size_t i = 0; i < index->count; i++)
        if (index->places[i] > n || index->lengths[i] > n - index->places[i])
            return false;
    return true;
}

/* What stands behind the count means nothing, so that a refusal has no more to put back than the two numbers. */
static inline uint8_t put_back(struct index *index, size_t count, size_t next, uint8_t number)
{
    index->count = count;
    index->next = next;
    return number;
}

static inline uint8_t extend(struct index *index, const uint8_t *cargo, size_t n)
{
    if (!is_sound(index, n))
        return 23;
    size_t count = index->count, next = index->next;
    for (;;) {
        struct entry entry = entry_at(cargo, n, index->next);
        if (entry.kind == NO_MORE)
            return 0;
        if (entry.kind == BAD_ENTRY)
            return put_back(index, count, next, entry.number);
        if (index->count == MOST_ENTRIES)
            return put_back(index, count, next, 38);
        index->tags[index->count] = entry.tag;
        index->places[index->count] = entry.next - entry.length;
        index->lengths[index->count] = entry.length;
        index->count++;
        index->next = entry.next;
    }
}

static inline uint8_t build(struct index *index, const uint8_t *cargo, size_t n, size_t place)
{
    *index = (struct index){.next = place};
    return extend(index, cargo, n);
}

enum finding_kind { FOUND, NOWHERE, BAD_INDEX };

struct finding {
    enum finding_kind kind;
    size_t place;
    size_t length;
};

static inline struct finding find(const struct index *index, size_t n, uint8_t tag, size_t occurrence)
{
    if (!is_sound(index, n))
        return (struct finding){.kind = BAD_INDEX};
    size_t met = 0;
    for (size_t i = 0; i < index->count; i++)
        if (index->tags[i] == tag && ++met == occurrence)
            return (struct finding){FOUND, index->places[i], index->lengths[i]};
    return (struct finding){.kind = NOWHERE};
}

#endif
