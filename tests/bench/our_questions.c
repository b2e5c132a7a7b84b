/* Our side: the proved functions, called as C calls them. */
#include "boherlin.h"
#include "questions.h"

void our_index(struct batch *b)
{
    static struct boherlin_index index;
    boherlin_build_index(b->advertisement, b->length, 0, index.tags, index.places, index.lengths, &index.count,
                         &index.next);
    for (size_t i = 0; i < b->count; i++) {
        size_t told[BOHERLIN_FOUND];
        boherlin_find_tag(b->advertisement, b->length, index.tags, index.places, index.lengths, index.count,
                          b->questions[i].tag, b->questions[i].occurrence, told);
        b->values[i] = (struct value){told[1], told[2]};
    }
}

static struct value walk(const struct batch *b, struct question q)
{
    size_t entry[BOHERLIN_ENTRY] = {0};
    size_t met = 0;
    for (;;) {
        boherlin_entry_at(b->advertisement, b->length, entry[3], entry);
        if (entry[0] != 0)
            return (struct value){0, 0};
        if (entry[1] == q.tag && ++met == q.occurrence)
            return (struct value){entry[3] - entry[2], entry[2]};
    }
}

void our_walk(struct batch *b)
{
    for (size_t i = 0; i < b->count; i++)
        b->values[i] = walk(b, b->questions[i]);
}
