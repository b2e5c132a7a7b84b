/* Calls the proved functions for a comparison.
 *
 * Standard output begins with the names of the calls, one to a line, and an empty line. A name is a function's of
 * boherlin.h or boherlin_whole.h without its boherlin_; the number of its line, counted from 1, stands for it.
 * Standard input is a row of calls: the byte that stands for the name, then the arguments in the order of the headers.
 * A number is eight bytes, low byte first; a slice is the number of its elements, then the elements.
 * A place that is lent only to be written is no argument: it holds 0xEE bytes, so that one left unwritten shows.
 * Behind the names comes a row of answers: the answer's number as one byte, then the slices and numbers that were lent
 * to be changed, in order, without their lengths. What is no number of the scope paper is eight bytes; a part is
 * its place in what was lent, 0 for an empty one, and its length. Calls on an index give back its cargo and its lists
 * too, so that a change to them shows. The byte 0 is no call: what was answered so far goes out.
 *
 * step_stream and read_stream read a whole stream, one by boherlin_step, the other by boherlin_read. Their arguments
 * are the stream, the message buffer, the reader's phase and held bytes as a row and, for the second, another row: the
 * lengths of the slices that the stream is lent in. The answer is the number of bytes that follow, then for each
 * message told: the place of the byte that closed it, counted over the whole stream, its kind and value as in the
 * reader's row, and a transfer's payload.
 */
#include "boherlin.h"
#include "boherlin_whole.h"

#include <stdio.h>
#include <stdlib.h>
#include <string.h>

enum { SLICES = 4 };

struct slice {
    void *elements;
    size_t length;
    size_t width;
};

static void give_up(const char *why) {
    fprintf(stderr, "driver: %s\n", why);
    exit(1);
}

static void get(void *place, size_t size) {
    if (size != 0 && fread(place, 1, size, stdin) != size) {
        give_up("a call is cut short");
    }
}

static void put(const void *place, size_t size) {
    if (size != 0 && fwrite(place, 1, size, stdout) != size) {
        give_up("an answer cannot be written");
    }
}

static size_t get_number(void) {
    uint64_t number;
    get(&number, sizeof number);
    return number;
}

/* One block for each slice of a call, kept and grown from call to call. */
static struct slice get_slice(int place, size_t width) {
    static void *blocks[SLICES];
    static size_t sizes[SLICES];
    size_t length = get_number();
    if (length > ((size_t)1 << 30)) {
        give_up("a slice is too long");
    }
    size_t size = length * width + 1;
    if (sizes[place] < size) {
        free(blocks[place]);
        blocks[place] = malloc(size);
        sizes[place] = size;
        if (blocks[place] == NULL) {
            give_up("no memory");
        }
    }
    get(blocks[place], length * width);
    return (struct slice){blocks[place], length, width};
}

static struct slice get_row(void) { return get_slice(0, sizeof(size_t)); }

static struct slice get_bytes(int place) { return get_slice(place, 1); }

/* So many numbers that are a row of their own, without their count. */
static void get_numbers(size_t *numbers, size_t count) { get(numbers, count * sizeof *numbers); }

static void put_number(uint8_t number) { put(&number, 1); }

static void put_word(size_t word) { put(&word, sizeof word); }

static void put_words(const size_t *words, size_t count) { put(words, count * sizeof *words); }

static void make_stale(void *place, size_t size) { memset(place, 0xEE, size); }

static size_t stale_word(void) {
    size_t word;
    make_stale(&word, sizeof word);
    return word;
}

static void put_slice(struct slice s) { put(s.elements, s.length * s.width); }

static void call_take(void) {
    struct slice row = get_row(), transfer = get_bytes(1), cargo = get_bytes(2);
    put_number(boherlin_take(row.elements, row.length, transfer.elements, transfer.length, cargo.elements,
                             cargo.length));
    put_slice(row);
    put_slice(cargo);
}

static void call_copy_counts(void) {
    struct slice row = get_row(), counts = get_slice(1, sizeof(uint32_t));
    put_number(boherlin_copy_counts(row.elements, row.length, counts.elements, counts.length));
    put_slice(counts);
}

static void call_clear_counts(void) {
    struct slice row = get_row();
    put_number(boherlin_clear_counts(row.elements, row.length));
    put_slice(row);
}

static void call_send(void) {
    struct slice row = get_row();
    size_t channel = get_number();
    struct slice cargo = get_bytes(1), out = get_bytes(2);
    put_number(boherlin_send(row.elements, row.length, channel, cargo.elements, cargo.length, out.elements,
                             out.length));
    put_slice(row);
    put_slice(out);
}

static void call_abandon(void) {
    struct slice row = get_row();
    put_number(boherlin_abandon(row.elements, row.length));
    put_slice(row);
}

static void put_written(uint8_t number, struct slice out, size_t written) {
    put_number(number);
    put_slice(out);
    put_word(written);
}

static void call_write(void) {
    uint8_t id = (uint8_t)get_number();
    struct slice payload = get_bytes(1), out = get_bytes(2);
    size_t written = stale_word();
    uint8_t number = boherlin_write(id, payload.elements, payload.length, out.elements, out.length, &written);
    put_written(number, out, written);
}

static void call_write_query(void) {
    struct slice out = get_bytes(1);
    size_t written = stale_word();
    uint8_t number = boherlin_write_query(out.elements, out.length, &written);
    put_written(number, out, written);
}

static void call_write_notice(void) {
    uint16_t room = (uint16_t)get_number();
    struct slice out = get_bytes(1);
    size_t written = stale_word();
    uint8_t number = boherlin_write_notice(room, out.elements, out.length, &written);
    put_written(number, out, written);
}

static void call_step(void) {
    struct slice row = get_row();
    uint8_t byte = (uint8_t)get_number();
    struct slice message = get_bytes(1);
    put_number(boherlin_step(row.elements, row.length, byte, message.elements, message.length));
    put_slice(row);
    put_slice(message);
}

static void call_read(void) {
    struct slice row = get_row(), input = get_bytes(1);
    size_t from = get_number();
    struct slice message = get_bytes(2);
    put_number(boherlin_read(row.elements, row.length, input.elements, input.length, from, message.elements,
                             message.length));
    put_slice(row);
    put_slice(message);
}

static void call_listen(void) {
    struct slice row = get_row(), input = get_bytes(1);
    size_t from = get_number();
    struct slice message = get_bytes(2), cargo = get_bytes(3);
    put_number(boherlin_listen(row.elements, row.length, input.elements, input.length, from, message.elements,
                               message.length, cargo.elements, cargo.length));
    put_slice(row);
    put_slice(message);
    put_slice(cargo);
}

static void call_fresh_receiver(void) {
    size_t limit = get_number(), count = get_number();
    struct slice row = get_row();
    put_number(boherlin_fresh_receiver(limit, count, row.elements, row.length));
    put_slice(row);
}

static void call_fresh_sender(void) {
    size_t limit = get_number(), count = get_number(), largest = get_number();
    struct slice row = get_row();
    put_number(boherlin_fresh_sender(limit, count, largest, row.elements, row.length));
    put_slice(row);
}

/* A part of nothing that was lent, so that one left unwritten shows. */
static struct boherlin_part stale_part(void) {
    static const uint8_t elsewhere[3];
    return (struct boherlin_part){elsewhere, sizeof elsewhere};
}

static void put_part(struct boherlin_part part, struct slice whole) {
    size_t place = part.length == 0 ? 0 : (size_t)((uintptr_t)part.begin - (uintptr_t)whole.elements);
    put_word(place);
    put_word(part.length);
}

static void call_told(void) {
    size_t answer[BOHERLIN_ANSWER];
    get_numbers(answer, BOHERLIN_ANSWER);
    uint8_t gap = 0xEE;
    bool dropped = false;
    put_number(boherlin_told(answer, &gap, &dropped));
    put_word(gap);
    put_word(dropped);
}

static void call_delivered(void) {
    size_t answer[BOHERLIN_ANSWER];
    get_numbers(answer, BOHERLIN_ANSWER);
    struct slice cargo = get_bytes(1);
    struct boherlin_part part = stale_part();
    boherlin_delivered(answer, cargo.elements, cargo.length, &part);
    put_part(part, cargo);
}

static void call_is_sound(void) {
    size_t limit = get_number(), count = get_number(), load[BOHERLIN_LOAD];
    get_numbers(load, BOHERLIN_LOAD);
    put_word(boherlin_is_sound(limit, count, load));
}

static void call_heading(void) {
    struct slice out = get_bytes(1);
    size_t written = stale_word();
    uint8_t number = boherlin_heading(out.elements, out.length, &written);
    put_written(number, out, written);
}

static void call_line(void) {
    size_t news[BOHERLIN_NEWS], answer[BOHERLIN_ANSWER], load[BOHERLIN_LOAD];
    get_numbers(news, BOHERLIN_NEWS);
    get_numbers(answer, BOHERLIN_ANSWER);
    get_numbers(load, BOHERLIN_LOAD);
    struct slice message = get_bytes(1), out = get_bytes(2);
    size_t written = stale_word();
    uint8_t number =
        boherlin_line(news, answer, load, message.elements, message.length, out.elements, out.length, &written);
    put_written(number, out, written);
}

static void call_read_header(void) {
    struct slice transfer = get_bytes(1);
    size_t told[BOHERLIN_HEADER];
    make_stale(told, sizeof told);
    put_number(boherlin_read_header(transfer.elements, transfer.length, told));
    put_words(told, BOHERLIN_HEADER);
}

static void call_write_header(void) {
    bool continuation = get_number() != 0;
    size_t length = get_number(), channel = get_number();
    uint8_t number = (uint8_t)get_number();
    struct slice out = get_bytes(1);
    put_number(boherlin_write_header(continuation, length, channel, number, out.elements, out.length));
    put_slice(out);
}

static void call_first_number(void) { put_word(boherlin_first_number()); }

static void call_next_number(void) { put_word(boherlin_next_number((uint8_t)get_number())); }

static void call_gap(void) {
    uint8_t received = (uint8_t)get_number(), expected = (uint8_t)get_number();
    put_word(boherlin_gap(received, expected));
}

static void call_entry_at(void) {
    struct slice cargo = get_bytes(1);
    size_t place = get_number(), told[BOHERLIN_ENTRY];
    make_stale(told, sizeof told);
    put_number(boherlin_entry_at(cargo.elements, cargo.length, place, told));
    put_words(told, BOHERLIN_ENTRY);
}

static void call_next_entry(void) {
    struct slice cargo = get_bytes(1);
    size_t place = get_number(), told[BOHERLIN_ENTRY];
    make_stale(told, sizeof told);
    put_number(boherlin_next_entry(cargo.elements, cargo.length, &place, told));
    put_word(place);
    put_words(told, BOHERLIN_ENTRY);
}

static void call_value_at(void) {
    struct slice cargo = get_bytes(1);
    size_t place = get_number();
    struct boherlin_part part = stale_part();
    boherlin_value_at(cargo.elements, cargo.length, place, &part);
    put_part(part, cargo);
}

static void call_write_entry(void) {
    uint8_t tag = (uint8_t)get_number();
    struct slice value = get_bytes(1), out = get_bytes(2);
    size_t written = stale_word();
    uint8_t number = boherlin_write_entry(tag, value.elements, value.length, out.elements, out.length, &written);
    put_written(number, out, written);
}

static void call_count_codes(void) {
    struct slice cargo = get_bytes(1);
    size_t count = stale_word();
    put_number(boherlin_count_codes(cargo.elements, cargo.length, &count));
    put_word(count);
}

static void call_code_at(void) {
    struct slice cargo = get_bytes(1);
    size_t place = get_number(), told[BOHERLIN_CODE];
    make_stale(told, sizeof told);
    put_number(boherlin_code_at(cargo.elements, cargo.length, place, told));
    put_words(told, BOHERLIN_CODE);
}

static void call_meaning_of(void) { put_word(boherlin_meaning_of((uint8_t)get_number())); }

static void call_step_in(void) {
    size_t limit = get_number(), count = get_number();
    size_t load[BOHERLIN_LOAD], channel[BOHERLIN_CHANNEL], answer[BOHERLIN_ANSWER];
    get_numbers(load, BOHERLIN_LOAD);
    get_numbers(channel, BOHERLIN_CHANNEL);
    struct slice transfer = get_bytes(1), cargo = get_bytes(2);
    make_stale(answer, sizeof answer);
    put_number(boherlin_step_in(limit, count, load, channel, transfer.elements, transfer.length, cargo.elements,
                                cargo.length, answer));
    put_words(load, BOHERLIN_LOAD);
    put_words(channel, BOHERLIN_CHANNEL);
    put_slice(cargo);
    put_words(answer, BOHERLIN_ANSWER);
}

static void call_slot(void) {
    struct slice transfer = get_bytes(1);
    put_word(boherlin_slot(transfer.elements, transfer.length));
}

static void call_outside(void) {
    size_t reader[2];
    make_stale(reader, sizeof reader);
    boherlin_outside(reader);
    put_words(reader, 2);
}

static void call_tally_messages(void) {
    struct slice input = get_bytes(1), message = get_bytes(2), tally = get_row();
    put_number(boherlin_tally_messages(input.elements, input.length, message.elements, message.length, tally.elements,
                                       tally.length));
    put_slice(message);
    put_slice(tally);
}

static void call_tally_stream(void) {
    size_t limit = get_number(), count = get_number();
    struct slice input = get_bytes(1), message = get_bytes(2), cargo = get_bytes(3), tally = get_row();
    put_number(boherlin_tally_stream(limit, count, input.elements, input.length, message.elements, message.length,
                                     cargo.elements, cargo.length, tally.elements, tally.length));
    put_slice(message);
    put_slice(cargo);
    put_slice(tally);
}

static void call_fresh_odometer(void) {
    size_t channel = get_number(), circumference = get_number(), odometer[BOHERLIN_ODOMETER];
    make_stale(odometer, sizeof odometer);
    boherlin_fresh_odometer(channel, circumference, odometer);
    put_words(odometer, BOHERLIN_ODOMETER);
}

static void put_heard(uint8_t number, const size_t *odometer, const size_t *told) {
    put_number(number);
    put_words(odometer, BOHERLIN_ODOMETER);
    put_words(told, BOHERLIN_HEARD);
}

static void call_hear(void) {
    size_t odometer[BOHERLIN_ODOMETER], told[BOHERLIN_HEARD];
    get_numbers(odometer, BOHERLIN_ODOMETER);
    size_t channel = get_number();
    struct slice cargo = get_bytes(1);
    make_stale(told, sizeof told);
    uint8_t number = boherlin_hear(odometer, channel, cargo.elements, cargo.length, told);
    put_heard(number, odometer, told);
}

static void call_hear_answer(void) {
    size_t odometer[BOHERLIN_ODOMETER], answer[BOHERLIN_ANSWER], told[BOHERLIN_HEARD];
    get_numbers(odometer, BOHERLIN_ODOMETER);
    get_numbers(answer, BOHERLIN_ANSWER);
    struct slice cargo = get_bytes(1);
    make_stale(told, sizeof told);
    uint8_t number = boherlin_hear_answer(odometer, answer, cargo.elements, cargo.length, told);
    put_heard(number, odometer, told);
}

static void call_distance(void) {
    size_t odometer[BOHERLIN_ODOMETER];
    get_numbers(odometer, BOHERLIN_ODOMETER);
    uint64_t millimetres = stale_word();
    put_number(boherlin_distance(odometer, &millimetres));
    put_word(millimetres);
}

static void call_total_in(void) {
    struct slice cargo = get_bytes(1);
    uint32_t total;
    make_stale(&total, sizeof total);
    put_number(boherlin_total_in(cargo.elements, cargo.length, &total));
    put_word(total);
}

/* All but the next place, which a question does not take. */
static void get_listed(struct boherlin_index *index) {
    get(index->tags, sizeof index->tags);
    get_numbers(index->places, BOHERLIN_INDEX);
    get_numbers(index->lengths, BOHERLIN_INDEX);
    index->count = get_number();
}

static void put_listed(struct slice cargo, const struct boherlin_index *index) {
    put_slice(cargo);
    put(index->tags, sizeof index->tags);
    put_words(index->places, BOHERLIN_INDEX);
    put_words(index->lengths, BOHERLIN_INDEX);
}

static void put_index(struct slice cargo, const struct boherlin_index *index) {
    put_listed(cargo, index);
    put_word(index->count);
    put_word(index->next);
}

static void call_build_index(void) {
    struct slice cargo = get_bytes(1);
    size_t place = get_number();
    struct boherlin_index index;
    make_stale(&index, sizeof index);
    put_number(boherlin_build_index(cargo.elements, cargo.length, place, index.tags, index.places, index.lengths,
                                    &index.count, &index.next));
    put_index(cargo, &index);
}

static void call_extend_index(void) {
    struct slice cargo = get_bytes(1);
    struct boherlin_index index;
    get_listed(&index);
    index.next = get_number();
    put_number(boherlin_extend_index(cargo.elements, cargo.length, index.tags, index.places, index.lengths,
                                     &index.count, &index.next));
    put_index(cargo, &index);
}

static void call_find_tag(void) {
    struct slice cargo = get_bytes(1);
    struct boherlin_index index;
    get_listed(&index);
    uint8_t tag = (uint8_t)get_number();
    size_t occurrence = get_number(), told[BOHERLIN_FOUND];
    make_stale(told, sizeof told);
    put_number(boherlin_find_tag(cargo.elements, cargo.length, index.tags, index.places, index.lengths, index.count,
                                 tag, occurrence, told));
    put_listed(cargo, &index);
    put_words(told, BOHERLIN_FOUND);
}

static void call_tag_value(void) {
    struct slice cargo = get_bytes(1);
    struct boherlin_index index;
    get_listed(&index);
    uint8_t tag = (uint8_t)get_number();
    size_t occurrence = get_number();
    struct boherlin_part part = stale_part();
    boherlin_tag_value(cargo.elements, cargo.length, index.tags, index.places, index.lengths, index.count, tag,
                       occurrence, &part);
    put_listed(cargo, &index);
    put_part(part, cargo);
}

static void call_grant(void) {
    uint16_t room = (uint16_t)get_number();
    uint64_t clock = get_number();
    struct slice permit = get_row();
    put_number(boherlin_grant(room, clock, permit.elements, permit.length));
    put_slice(permit);
}

typedef uint8_t permitted(size_t *row, size_t row_length, size_t *permit, size_t permit_length, size_t channel,
                          const uint8_t *cargo, size_t cargo_length, uint64_t clock, uint32_t timeout, uint8_t *out,
                          size_t out_length);

static void call_permitted(permitted *write) {
    struct slice row = get_row(), permit = get_slice(1, sizeof(size_t));
    size_t channel = get_number();
    struct slice cargo = get_bytes(2);
    uint64_t clock = get_number();
    uint32_t timeout = (uint32_t)get_number();
    struct slice out = get_bytes(3);
    put_number(write(row.elements, row.length, permit.elements, permit.length, channel, cargo.elements, cargo.length,
                     clock, timeout, out.elements, out.length));
    put_slice(row);
    put_slice(permit);
    put_slice(out);
}

static void call_permitted_send(void) { call_permitted(boherlin_permitted_send); }

static void call_permitted_message(void) { call_permitted(boherlin_permitted_message); }

/* What a reader told of a stream so far, in a block that is kept and grown from call to call. */
static struct {
    uint8_t *bytes;
    size_t length;
    size_t room;
} told;

static void tell(const void *place, size_t size) {
    if (told.room - told.length < size) {
        told.room = 2 * told.room + size;
        told.bytes = realloc(told.bytes, told.room);
        if (told.bytes == NULL) {
            give_up("no memory");
        }
    }
    if (size != 0) {
        memcpy(told.bytes + told.length, place, size);
    }
    told.length += size;
}

/* Tells of the message, if any, that the byte at this place of the stream closed; a payload stands behind its ID. */
static void tell_message(const size_t *row, size_t place, struct slice message) {
    size_t kind = row[BOHERLIN_READER_EVENT], value = row[BOHERLIN_READER_VALUE];
    if (kind == BOHERLIN_EVENT_NOTHING) {
        return;
    }
    tell(&place, sizeof place);
    tell(&kind, sizeof kind);
    tell(&value, sizeof value);
    if (kind == BOHERLIN_EVENT_MESSAGE) {
        if (value >= message.length) {
            give_up("a payload passes the message buffer");
        }
        tell((const uint8_t *)message.elements + 1, value);
    }
}

static void put_told(void) {
    put_word(told.length);
    put(told.bytes, told.length);
    told.length = 0;
}

/* A reader that starts so, in a row whose other places are stale. */
static void start_reader(size_t *row, size_t places, struct slice start) {
    if (start.length != BOHERLIN_READER_EVENT) {
        give_up("a reader starts with two numbers");
    }
    make_stale(row, places * sizeof *row);
    memcpy(row, start.elements, start.length * sizeof *row);
}

static struct slice get_start(void) { return get_slice(3, sizeof(size_t)); }

static void call_step_stream(void) {
    struct slice stream = get_bytes(1), message = get_bytes(2), start = get_start();
    size_t row[BOHERLIN_STEP_ROW];
    start_reader(row, BOHERLIN_STEP_ROW, start);
    for (size_t place = 0; place < stream.length; place++) {
        uint8_t byte = ((const uint8_t *)stream.elements)[place];
        boherlin_step(row, BOHERLIN_STEP_ROW, byte, message.elements, message.length);
        tell_message(row, place, message);
    }
    put_told();
}

/* Reads a slice to its end; it begins at this place of the stream. An empty one is read too, but whatever an unsound
 * reader answers there, no byte closed a message. */
static void read_slice(size_t *row, const uint8_t *slice, size_t length, size_t place, struct slice message) {
    size_t from = 0;
    do {
        boherlin_read(row, BOHERLIN_READ_ROW, slice, length, from, message.elements, message.length);
        size_t next = row[BOHERLIN_READER_NEXT];
        if (next > length || (next <= from && length != 0)) {
            give_up("a reader does not go on in its slice");
        }
        if (next != from) {
            tell_message(row, place + next - 1, message);
        }
        from = next;
    } while (from < length);
}

static void call_read_stream(void) {
    struct slice stream = get_bytes(1), message = get_bytes(2), start = get_start(), lengths = get_row();
    size_t row[BOHERLIN_READ_ROW], place = 0;
    start_reader(row, BOHERLIN_READ_ROW, start);
    for (size_t i = 0; i < lengths.length; i++) {
        size_t length = ((const size_t *)lengths.elements)[i];
        if (length > stream.length - place) {
            give_up("the slices pass the stream");
        }
        read_slice(row, (const uint8_t *)stream.elements + place, length, place, message);
        place += length;
    }
    if (place != stream.length) {
        give_up("the slices leave a rest of the stream");
    }
    put_told();
}

static void send_answers(void) {
    if (fflush(stdout) != 0) {
        give_up("the answers cannot be written");
    }
}

struct call {
    const char *name;
    void (*make)(void);
};

#define CALL(name) {#name, call_##name}

static const struct call calls[] = {
    CALL(take),
    CALL(copy_counts),
    CALL(clear_counts),
    CALL(send),
    CALL(abandon),
    CALL(write),
    CALL(write_query),
    CALL(write_notice),
    CALL(step),
    CALL(read),
    CALL(listen),
    CALL(fresh_receiver),
    CALL(fresh_sender),
    CALL(told),
    CALL(delivered),
    CALL(is_sound),
    CALL(heading),
    CALL(line),
    CALL(read_header),
    CALL(write_header),
    CALL(first_number),
    CALL(next_number),
    CALL(gap),
    CALL(entry_at),
    CALL(next_entry),
    CALL(value_at),
    CALL(write_entry),
    CALL(count_codes),
    CALL(code_at),
    CALL(meaning_of),
    CALL(step_in),
    CALL(slot),
    CALL(outside),
    CALL(tally_messages),
    CALL(tally_stream),
    CALL(fresh_odometer),
    CALL(hear),
    CALL(hear_answer),
    CALL(distance),
    CALL(total_in),
    CALL(build_index),
    CALL(extend_index),
    CALL(find_tag),
    CALL(tag_value),
    CALL(grant),
    CALL(permitted_send),
    CALL(permitted_message),
    CALL(step_stream),
    CALL(read_stream),
};

enum { CALLS = sizeof calls / sizeof calls[0] };

_Static_assert(CALLS <= UINT8_MAX, "a byte stands for each call");

static void send_names(void) {
    for (size_t i = 0; i < CALLS; i++) {
        put(calls[i].name, strlen(calls[i].name));
        put_number('\n');
    }
    put_number('\n');
    send_answers();
}

int main(void) {
    setvbuf(stdin, NULL, _IOFBF, 1 << 16);
    setvbuf(stdout, NULL, _IOFBF, 1 << 16);
    send_names();
    for (int byte = getchar(); byte != EOF; byte = getchar()) {
        if (byte == 0) {
            send_answers();
        } else if (byte <= CALLS) {
            calls[byte - 1].make();
        } else {
            give_up("no such call");
        }
    }
    send_answers();
    return 0;
}
