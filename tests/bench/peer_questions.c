/* The C side. */
#include "index.h"
#include "questions.h"

void peer_index(struct batch *b)
{
    static struct index index;
    build(&index, b->advertisement, b->length, 0);
    for (size_t i = 0; i < b->count; i++) {
        struct finding finding = find(&index, b->length, b->questions[i].tag, b->questions[i].occurrence);
        b->values[i] = (struct value){finding.place, finding.length};
    }
}

static struct value walk(const struct batch *b, struct question q)
{
    struct entry entry = {.next = 0};
    size_t met = 0;
    for (;;) {
        entry = entry_at(b->advertisement, b->length, entry.next);
        if (entry.kind != ENTRY)
            return (struct value){0, 0};
        if (entry.tag == q.tag && ++met == q.occurrence)
            return (struct value){entry.next - entry.length, entry.length};
    }
}

void peer_walk(struct batch *b)
{
    for (size_t i = 0; i < b->count; i++)
        b->values[i] = walk(b, b->questions[i]);
}
