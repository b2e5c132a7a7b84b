/* The proved SHTP transport, for C and C++, on x86-64. docs/WORDS.md says what the words mean, and of every answer
 * when it is given, what it leaves and what to do about it.
 *
 * The archives are made by rt of the Rattle kit: `tests/archives export` proves the crate and makes
 * target/archives/libexport.a; likewise export_plain and export_index. A program that calls any of the functions below:
 * gcc -Iinclude program.c target/archives/lib*.a (or g++).
 *
 * A slice is a pointer and a length; where the length is 0 the pointer is still not null. No two slices of one call may
 * overlap. The buffer that a cargo or a message is read into is the same from call to call, until it is finished.
 *
 * What a call answers is one of the BOHERLIN_E numbers below, or BOHERLIN_OK. These answer something else:
 *     nothing                        boherlin_outside, boherlin_delivered, boherlin_value_at, boherlin_tag_value,
 *                                    boherlin_fresh_odometer
 *     true or false                  boherlin_is_sound
 *     a place, a line of a table     boherlin_slot, boherlin_meaning_of
 *     a sequence number, a gap       boherlin_first_number, boherlin_next_number, boherlin_gap
 *     the number of what it is lent  boherlin_told
 *
 * A state is lent as a row of numbers, so any state can be built, unsound ones too. A row of another length than its
 * place says is refused with 23, and nothing changes at all. Any other row that is not const is read and written back,
 * whether the call refuses or not:
 *   - A sequence number is taken modulo 256, a count and an odometer's last total modulo 2^32, a permit's room modulo
 *     65,536; a flag other than 0 is 1; a phase above 3 is 3; where no cargo is under way, or no permit is held, the
 *     numbers behind that flag are 0. So a row whose numbers lie in range, as in every row that was written here, comes
 *     back from a refusal as it was; another one comes back reduced.
 *   - What the call tells is written over what the call before told, at a refusal too.
 * A refusal changes no more than that, except as docs/WORDS.md says of its number: 20, 21 and 30 to 33 change the
 * state. What is lent for a call to tell in (`told`, `answer`, `written`, `part` ..) is always written.
 */
#ifndef BOHERLIN_H
#define BOHERLIN_H

#include <stdbool.h>
#include <stddef.h>
#include <stdint.h>

#ifdef __cplusplus
extern "C" {
#endif

/* The answers. 2, 3, 4 and 9 are SHTP's own error codes. A number that is left out is no answer. */
enum {
    BOHERLIN_OK = 0,                    /* taken, delivered, written, told; null, no more and none too */
    BOHERLIN_E_SHORT_TRANSFER = 2,      /* under 4 bytes */
    BOHERLIN_E_L_ABOVE_LIMIT = 3,       /* of a header to be written: above 32,767 */
    BOHERLIN_E_L_BELOW_5 = 4,           /* L is 1 to 4 */
    BOHERLIN_E_CHANNEL = 9,             /* not below the channel count; of a header to be written: above 255 */
    BOHERLIN_E_REPEAT = 20,             /* the number that the channel had last */
    BOHERLIN_E_NOT_JOINED = 21,         /* a continuation that does not fit what is under way */
    BOHERLIN_E_L_RESERVED = 22,         /* L is 32,767 */
    BOHERLIN_E_UNSOUND = 23,            /* a state or settings, or a row of another length */
    BOHERLIN_E_SHORT_CARGO_BUFFER = 24, /* under limit - 4 bytes */
    BOHERLIN_E_EMPTY_CARGO = 26,
    BOHERLIN_E_LONG_CARGO = 27,         /* above limit - 4 bytes */
    BOHERLIN_E_SHORT_OUTPUT = 28,       /* or a short row of counts, or a short tally */
    BOHERLIN_E_OTHER_UNDER_WAY = 29,    /* a cargo of another channel or length */
    BOHERLIN_E_ID = 30,                 /* neither 0 nor 1 */
    BOHERLIN_E_HANGING_ESCAPE = 31,     /* a flag right after 0x7D */
    BOHERLIN_E_LONG_MESSAGE = 32,       /* longer than the message buffer */
    BOHERLIN_E_CONTROL = 33,            /* a control message of neither 0 nor 2 bytes */
    BOHERLIN_E_CUT_ENTRY = 34,          /* one byte, a tag without a length */
    BOHERLIN_E_CUT_VALUE = 35,          /* an entry's length says more bytes than are left */
    BOHERLIN_E_LONG_VALUE = 36,         /* a value to write of more than 255 bytes */
    BOHERLIN_E_NO_ERROR_LIST = 37,
    BOHERLIN_E_FULL_INDEX = 38,         /* a 65th entry */
    BOHERLIN_E_CIRCUMFERENCE = 39,      /* not 1 to 10,000 mm */
    BOHERLIN_E_NO_TOTAL = 40,           /* not five bytes, or not of kind 1 */
    BOHERLIN_E_DIFFERENCE = 41,         /* the total is 2^31 turns or more ahead, modulo 2^32, or behind */
    BOHERLIN_E_DISTANCE = 42,           /* it does not fit 64 bits */
    BOHERLIN_E_NO_PERMIT = 43,
    BOHERLIN_E_L_ABOVE_ROOM = 44,       /* the permit's room */
    BOHERLIN_E_PERMIT_ENDED = 45        /* its time is over, or the clock is earlier than it */
};

/* A receiver: 140 numbers. The last six are what the last answer told; they are written, and never read. */
enum {
    BOHERLIN_RX_EXPECTED = 0,   /* 32: the number expected next, 0 to 255 */
    BOHERLIN_RX_HEARD = 32,     /* 32: 0 where the channel was never heard */
    BOHERLIN_RX_MISSING = 64,   /* 32: modulo 2^32 */
    BOHERLIN_RX_REPEATS = 96,   /* 32: modulo 2^32 */
    BOHERLIN_RX_LIMIT = 128,
    BOHERLIN_RX_COUNT = 129,
    BOHERLIN_RX_UNDER_WAY = 130, /* 0: none; then channel, total and bytes held are 0 */
    BOHERLIN_RX_CHANNEL = 131,
    BOHERLIN_RX_TOTAL = 132,
    BOHERLIN_RX_HELD = 133,
    BOHERLIN_RX_KIND = 134,     /* a BOHERLIN_KIND */
    BOHERLIN_RX_NUMBER = 135,
    BOHERLIN_RX_GAP = 136,
    BOHERLIN_RX_DROPPED = 137,
    BOHERLIN_RX_CARGO_CHANNEL = 138, /* of a delivered cargo, else 0 */
    BOHERLIN_RX_CARGO_LENGTH = 139,
    BOHERLIN_RX_ROW = 140
};

/* What became of a transfer. */
enum {
    BOHERLIN_KIND_DELIVERED = 0, /* its cargo is finished, at the front of the cargo buffer */
    BOHERLIN_KIND_PART = 1,      /* taken; more of its cargo is due */
    BOHERLIN_KIND_NULL = 2,
    BOHERLIN_KIND_REFUSED = 3
};

/* A sender: 40 numbers. The last is written, and never read. */
enum {
    BOHERLIN_TX_NUMBERS = 0,    /* 32: the number that the next transfer bears */
    BOHERLIN_TX_LIMIT = 32,
    BOHERLIN_TX_COUNT = 33,
    BOHERLIN_TX_UNDER_WAY = 34, /* 0: none; then channel, total and bytes sent are 0 */
    BOHERLIN_TX_CHANNEL = 35,
    BOHERLIN_TX_TOTAL = 36,
    BOHERLIN_TX_SENT = 37,
    BOHERLIN_TX_LARGEST = 38,
    BOHERLIN_TX_WRITTEN = 39,   /* the bytes that the last boherlin_send wrote, 0 where it refused */
    BOHERLIN_TX_ROW = 40
};

/* A fresh record keeps whatever settings it is given; what the last call told stays. 0, or 23 for the row's length. */
uint8_t boherlin_fresh_receiver(size_t limit, size_t count, size_t *row, size_t row_length);
uint8_t boherlin_fresh_sender(size_t limit, size_t count, size_t largest, size_t *row, size_t row_length);

/* A message reader before the first flag of a stream: BOHERLIN_READER_PHASE and BOHERLIN_READER_HELD. */
void boherlin_outside(size_t reader[2]);

/* One transfer; the cargo under way stands in `cargo`. 23, 24, 2, 22, 4, 3, 9, 20, 21 in this order, or 0. */
uint8_t boherlin_take(size_t *row, size_t row_length, const uint8_t *transfer, size_t transfer_length,
                      uint8_t *cargo, size_t cargo_length);
/* Every channel's missing count, then every channel's repeats, to the front of `counts`: 23, 28 or 0. */
uint8_t boherlin_copy_counts(const size_t *row, size_t row_length, uint32_t *counts, size_t counts_length);
/* Both counts of all 32 channels are 0 then; what the last answer told stays. 23 or 0. */
uint8_t boherlin_clear_counts(size_t *row, size_t row_length);

/* The next transfer of the cargo, which is lent whole at each call. 23, 9, 26, 27, 29, 28 in this order, or 0. */
uint8_t boherlin_send(size_t *row, size_t row_length, size_t channel, const uint8_t *cargo, size_t cargo_length,
                      uint8_t *out, size_t out_length);
/* The cargo under way is given up; BOHERLIN_TX_WRITTEN stays. 23 or 0. */
uint8_t boherlin_abandon(size_t *row, size_t row_length);

/* A message reader: 4 numbers for a byte; 5 for a slice, which also tells the next place. All but the first two are
 * written, and never read. */
enum {
    BOHERLIN_READER_PHASE = 0,  /* a BOHERLIN_PHASE */
    BOHERLIN_READER_HELD = 1,
    BOHERLIN_READER_EVENT = 2,  /* a BOHERLIN_EVENT */
    BOHERLIN_READER_VALUE = 3,  /* of a message the payload's length, of a notice its room, of a refusal its number */
    BOHERLIN_READER_NEXT = 4,
    BOHERLIN_STEP_ROW = 4,
    BOHERLIN_READ_ROW = 5
};

/* Where a reader stands. Every flag closes what precedes it and leaves the reader inside with nothing held, refusals 30
 * to 33 too: it is never outside again. */
enum {
    BOHERLIN_PHASE_OUTSIDE = 0, /* before the first flag */
    BOHERLIN_PHASE_INSIDE = 1,
    BOHERLIN_PHASE_ESCAPED = 2, /* right after 0x7D */
    BOHERLIN_PHASE_LONG = 3     /* bytes were dropped; so does any larger number say */
};

/* What a reader or a listener told; then READER_VALUE is what is said here. */
enum {
    BOHERLIN_EVENT_NOTHING = 0,  /* 0: no message has closed */
    BOHERLIN_EVENT_MESSAGE = 1,  /* of a reader: the length of the payload, which stands behind its ID in `message` */
    BOHERLIN_EVENT_TRANSFER = 1, /* of a listener: 0; the receiver's answer stands from BOHERLIN_RX_KIND on */
    BOHERLIN_EVENT_QUERY = 2,    /* 0 */
    BOHERLIN_EVENT_NOTICE = 3,   /* the room */
    BOHERLIN_EVENT_REFUSED = 4   /* the number, by the reader: 23, 30 to 33 */
};

/* One byte: 23, 32, 31, 30, 33 in this order, or 0. */
uint8_t boherlin_step(size_t *row, size_t row_length, uint8_t byte, uint8_t *message, size_t message_length);

/* The bytes from `from` on, until a message closes or they end: the same numbers. READER_NEXT is the place behind the
 * last byte taken, and `from` itself where no byte is left there. A reader that holds more bytes than `message` has is
 * unsound: it answers 23 at every call, also where no byte is left, and stays as it is; where a byte is left
 * READER_NEXT is then from + 1. */
uint8_t boherlin_read(size_t *row, size_t row_length, const uint8_t *input, size_t input_length, size_t from,
                      uint8_t *message, size_t message_length);

/* A listener, which is a message reader above a receiver: 145 numbers, a receiver's 140, then a reader's five. Where
 * the event is not BOHERLIN_EVENT_TRANSFER nothing was handed on to the receiver, and the six numbers from
 * BOHERLIN_RX_KIND on are 0: that is no delivered cargo. So look at the event first. A fresh one:
 *     size_t row[BOHERLIN_LISTENER_ROW] = {0};
 *     boherlin_fresh_receiver(32766, 32, row, BOHERLIN_RX_ROW);
 *     boherlin_outside(row + BOHERLIN_LISTENER_READER);
 * The receiver's part is lent with the length of a receiver, 140. Event, value and next may be anything, as 0 here. */
enum { BOHERLIN_LISTENER_READER = 140, BOHERLIN_LISTENER_ROW = 145 };

/* As boherlin_read, and a message with ID 1 is handed to the receiver, whose answer it then is: the receiver's 23 comes
 * with BOHERLIN_EVENT_TRANSFER, the reader's with BOHERLIN_EVENT_REFUSED. */
uint8_t boherlin_listen(size_t *row, size_t row_length, const uint8_t *input, size_t input_length, size_t from,
                        uint8_t *message, size_t message_length, uint8_t *cargo, size_t cargo_length);

/* The message writers: 30, 28 or 0. `written` gets the number of bytes written, 0 where the answer is a refusal. */
uint8_t boherlin_write(uint8_t id, const uint8_t *payload, size_t payload_length, uint8_t *out, size_t out_length,
                       size_t *written);
uint8_t boherlin_write_query(uint8_t *out, size_t out_length, size_t *written);
uint8_t boherlin_write_notice(uint16_t room, uint8_t *out, size_t out_length, size_t *written);

/* What an answer in a row says: `answer` is where BOHERLIN_RX_KIND stands, `load` where BOHERLIN_RX_UNDER_WAY does,
 * `news` where the BOHERLIN_READER_EVENT of a listener does. Numbers too large for a field are taken modulo its range,
 * a kind or an event above those named is refused. */
enum { BOHERLIN_ANSWER = 6, BOHERLIN_LOAD = 4, BOHERLIN_NEWS = 2 };

/* A part of memory that was lent. It is lent too, and so has to be some part before the call. */
struct boherlin_part {
    const uint8_t *begin;
    size_t length;
};

/* One transfer, for loops that hold a receiver's parts; the numbers are boherlin_take's. `channel` has four numbers of
 * the transfer's channel: the one expected next, whether it was heard, missing and repeats. `slot` tells where among 32
 * channels they are kept. */
enum { BOHERLIN_CHANNEL = 4 };

uint8_t boherlin_step_in(size_t limit, size_t count, size_t load[BOHERLIN_LOAD], size_t channel[BOHERLIN_CHANNEL],
                         const uint8_t *transfer, size_t transfer_length, uint8_t *cargo, size_t cargo_length,
                         size_t answer[BOHERLIN_ANSWER]);
size_t boherlin_slot(const uint8_t *transfer, size_t transfer_length);

/* The number of an answer; its gap, and whether a cargo was dropped, are told. */
uint8_t boherlin_told(const size_t answer[BOHERLIN_ANSWER], uint8_t *gap, bool *dropped);
/* The delivered cargo; an empty part at the front of `cargo` where the kind is another, or `cargo` is shorter. */
void boherlin_delivered(const size_t answer[BOHERLIN_ANSWER], const uint8_t *cargo, size_t cargo_length,
                        struct boherlin_part *part);
/* Whether these settings with this cargo under way are a receiver's that does not answer 23. */
bool boherlin_is_sound(size_t limit, size_t count, const size_t load[BOHERLIN_LOAD]);

/* The listing's text: 28 or 0. */
uint8_t boherlin_heading(uint8_t *out, size_t out_length, size_t *written);
uint8_t boherlin_line(const size_t news[BOHERLIN_NEWS], const size_t answer[BOHERLIN_ANSWER],
                      const size_t load[BOHERLIN_LOAD], const uint8_t *message, size_t message_length, uint8_t *out,
                      size_t out_length, size_t *written);

/* A header: whether it is a continuation, L, channel and number; all 0 where it is null, or under four bytes (2). */
enum { BOHERLIN_HEADER = 4 };

uint8_t boherlin_read_header(const uint8_t *transfer, size_t transfer_length, size_t told[BOHERLIN_HEADER]);
/* 3, 9, 28 or 0. */
uint8_t boherlin_write_header(bool continuation, size_t length, size_t channel, uint8_t number, uint8_t *out,
                              size_t out_length);

/* A channel's numbers: the first one, the one that follows, and how far one is ahead of another. */
uint8_t boherlin_first_number(void);
uint8_t boherlin_next_number(uint8_t number);
uint8_t boherlin_gap(uint8_t received, uint8_t expected);

/* An entry: its kind, tag, length, next place and mark. At "no more", 34 and 35 all but the kind are 0. */
enum { BOHERLIN_ENTRY = 5 };

enum {
    BOHERLIN_ENTRY_HERE = 0,
    BOHERLIN_ENTRY_NO_MORE = 1, /* the place is at or past the end; the answer is 0 */
    BOHERLIN_ENTRY_REFUSED = 2  /* 34 or 35 */
};

enum {
    BOHERLIN_MARK_KNOWN = 0,
    BOHERLIN_MARK_UNKNOWN = 1,     /* the tag */
    BOHERLIN_MARK_OTHER_LENGTH = 2 /* a known tag with another length than it has to have */
};

uint8_t boherlin_entry_at(const uint8_t *cargo, size_t cargo_length, size_t place, size_t told[BOHERLIN_ENTRY]);
/* The next entry of an advertisement that is open at `place`; `place` moves on behind an entry, and else stays. */
uint8_t boherlin_next_entry(const uint8_t *cargo, size_t cargo_length, size_t *place, size_t told[BOHERLIN_ENTRY]);
/* The value; an empty part at the front of `cargo` where the kind is not BOHERLIN_ENTRY_HERE. */
void boherlin_value_at(const uint8_t *cargo, size_t cargo_length, size_t place, struct boherlin_part *part);
/* 36, 28 or 0; `written` is 0 where it is refused. */
uint8_t boherlin_write_entry(uint8_t tag, const uint8_t *value, size_t value_length, uint8_t *out, size_t out_length,
                             size_t *written);

/* An index of an advertisement: for up to 64 entries, in the order they stand, the tag, the place where the value
 * begins and its length; how many there are, and where the next one would begin. Places behind the count mean nothing,
 * and adding leaves them. */
enum { BOHERLIN_INDEX = 64 };

/* A way to keep one: its parts are lent one by one. */
struct boherlin_index {
    uint8_t tags[BOHERLIN_INDEX];
    size_t places[BOHERLIN_INDEX];
    size_t lengths[BOHERLIN_INDEX];
    size_t count;
    size_t next;
};

/* The index of the entries from `place` on: 0, 34, 35 or 38. Where it is refused all is 0, and `next` is `place`. */
uint8_t boherlin_build_index(const uint8_t *cargo, size_t cargo_length, size_t place, uint8_t tags[BOHERLIN_INDEX],
                             size_t places[BOHERLIN_INDEX], size_t lengths[BOHERLIN_INDEX], size_t *count,
                             size_t *next);
/* Entries were added at the end of the cargo, which is lent whole: 0, 23, 34, 35 or 38. Where it is refused the index
 * is as it was. */
uint8_t boherlin_extend_index(const uint8_t *cargo, size_t cargo_length, uint8_t tags[BOHERLIN_INDEX],
                              size_t places[BOHERLIN_INDEX], size_t lengths[BOHERLIN_INDEX], size_t *count,
                              size_t *next);

/* The value of a tag's occurrence, counted from 1: its kind, place and length, both 0 unless it is found; 0 or 23. The
 * second call tells it as a part of the cargo, an empty one at its front unless it is found. */
enum { BOHERLIN_FOUND = 3 };

enum {
    BOHERLIN_FOUND_HERE = 0,
    BOHERLIN_FOUND_NONE = 1,   /* the answer is 0 */
    BOHERLIN_FOUND_REFUSED = 2 /* 23 */
};

uint8_t boherlin_find_tag(const uint8_t *cargo, size_t cargo_length, const uint8_t tags[BOHERLIN_INDEX],
                          const size_t places[BOHERLIN_INDEX], const size_t lengths[BOHERLIN_INDEX], size_t count,
                          uint8_t tag, size_t occurrence, size_t told[BOHERLIN_FOUND]);
void boherlin_tag_value(const uint8_t *cargo, size_t cargo_length, const uint8_t tags[BOHERLIN_INDEX],
                        const size_t places[BOHERLIN_INDEX], const size_t lengths[BOHERLIN_INDEX], size_t count,
                        uint8_t tag, size_t occurrence, struct boherlin_part *part);

/* A code: its kind, the code, and its meaning: its line in 004's table, 13 for none. At "no more" and 37 all but the
 * kind are 0. Places are counted from 0. */
enum { BOHERLIN_CODE = 3 };

enum {
    BOHERLIN_CODE_HERE = 0,
    BOHERLIN_CODE_NO_MORE = 1, /* the place is at or past the number of codes; the answer is 0 */
    BOHERLIN_CODE_REFUSED = 2  /* 37 */
};

/* How many codes there are, 0 where it is refused: 37 or 0. */
uint8_t boherlin_count_codes(const uint8_t *cargo, size_t cargo_length, size_t *count);
uint8_t boherlin_code_at(const uint8_t *cargo, size_t cargo_length, size_t place, size_t told[BOHERLIN_CODE]);
size_t boherlin_meaning_of(uint8_t code);

/* An odometer: 5 numbers. A fresh one keeps whatever settings it is given. */
enum {
    BOHERLIN_ODOMETER_CHANNEL = 0,
    BOHERLIN_ODOMETER_CIRCUMFERENCE = 1, /* in millimetres */
    BOHERLIN_ODOMETER_BASED = 2,         /* 0: no total was heard yet */
    BOHERLIN_ODOMETER_LAST = 3,          /* modulo 2^32 */
    BOHERLIN_ODOMETER_TURNS = 4,
    BOHERLIN_ODOMETER = 5
};

void boherlin_fresh_odometer(size_t channel, uint64_t circumference, size_t odometer[BOHERLIN_ODOMETER]);

/* A cargo heard: its outcome and by how many turns it advanced, else 0. 39, 40, 41, 42 in this order, or 0. The second
 * call reads the cargo off an answer and the buffer that it was taken into; of a listener call it only where the event
 * is BOHERLIN_EVENT_TRANSFER. */
enum { BOHERLIN_HEARD = 2 };

enum {
    BOHERLIN_OUTCOME_PASSED = 0, /* another channel, or no cargo was delivered */
    BOHERLIN_OUTCOME_BASE = 1,
    BOHERLIN_OUTCOME_ADVANCED = 2,
    BOHERLIN_OUTCOME_REFUSED = 3
};

uint8_t boherlin_hear(size_t odometer[BOHERLIN_ODOMETER], size_t channel, const uint8_t *cargo, size_t cargo_length,
                      size_t told[BOHERLIN_HEARD]);
uint8_t boherlin_hear_answer(size_t odometer[BOHERLIN_ODOMETER], const size_t answer[BOHERLIN_ANSWER],
                             const uint8_t *cargo, size_t cargo_length, size_t told[BOHERLIN_HEARD]);

/* The distance (39, 42 or 0), and the total that a cargo carries (40 or 0): 0 where the answer is a refusal. */
uint8_t boherlin_distance(const size_t odometer[BOHERLIN_ODOMETER], uint64_t *millimetres);
uint8_t boherlin_total_in(const uint8_t *cargo, size_t cargo_length, uint32_t *total);

/* A permit to write: 3 numbers. Three zeros are none, as at the start. */
enum {
    BOHERLIN_PERMIT_HELD = 0, /* 0: none; then room and time are stored as 0, and not read */
    BOHERLIN_PERMIT_ROOM = 1, /* the largest L of the transfer, modulo 65,536 */
    BOHERLIN_PERMIT_CAME = 2, /* the clock, in milliseconds, when it came */
    BOHERLIN_PERMIT_ROW = 3
};

/* A Notification of `room` bytes, heard at this clock, replaces whatever permit there is. 0, or 23 for the length. */
uint8_t boherlin_grant(uint16_t room, uint64_t clock, size_t *permit, size_t permit_length);

/* As boherlin_send, where the transfer has to be permitted. After all that the sender refuses: 43 none held; 45 ended,
 * for more than the timeout has passed since it came, or the clock is earlier; 44 L above its room. A write uses the
 * permit up. `row` is a sender's; clock and timeout are in milliseconds. The second call writes the whole UART message
 * that carries the transfer: its 28 asks for the message's bytes, and 2n + 3 are enough for a transfer of n. */
uint8_t boherlin_permitted_send(size_t *row, size_t row_length, size_t *permit, size_t permit_length, size_t channel,
                                const uint8_t *cargo, size_t cargo_length, uint64_t clock, uint32_t timeout,
                                uint8_t *out, size_t out_length);
uint8_t boherlin_permitted_message(size_t *row, size_t row_length, size_t *permit, size_t permit_length,
                                   size_t channel, const uint8_t *cargo, size_t cargo_length, uint64_t clock,
                                   uint32_t timeout, uint8_t *out, size_t out_length);

#ifdef __cplusplus
}
#endif

#endif
