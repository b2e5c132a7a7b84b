/* What every side is run on: the same transfers in three forms. */
#ifndef BENCH_INPUTS_H
#define BENCH_INPUTS_H

#include <stddef.h>
#include <stdint.h>

struct bytes {
    uint8_t *at;
    size_t length;
};

/* BARE: each transfer behind two bytes of its length, low byte first. The others are streams of UART messages.
 * TWO_FLAGS: each message between flags of its own, as our writer writes it. ONE_FLAG: the same messages, of which only
 * the first has an opening flag. */
enum form { BARE, TWO_FLAGS, ONE_FLAG, FORMS };

struct input {
    const char *name;
    struct bytes forms[FORMS];
    size_t messages;
};

enum { INPUTS = 3 };

extern const char *const input_names[INPUTS];

/* What the table adds to an input's name. */
extern const char *const form_names[FORMS];

/* "64 bytes" and "1,000 bytes": cargoes that each fill one transfer of so many bytes. "mixed": cargoes of many lengths in
 * transfers of at most 128 bytes; some lost, some repeated, some damaged; control messages between. */
struct input make_input(const char *name, size_t size);

void free_input(struct input *input);

#endif
