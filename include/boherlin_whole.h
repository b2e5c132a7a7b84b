/* The proved SHTP transport over a whole input in one call, for C and C++, on x86-64. `tests/archives whole`
 * makes target/archives/libwhole.a; the archives, slices and buffers are as in boherlin.h.
 *
 * Each call begins afresh. What the input told is added to a tally of nine numbers, modulo 2^64; later places stay. The
 * answer is 0 (BOHERLIN_OK), or 28 (BOHERLIN_E_SHORT_OUTPUT) where the tally is shorter, and then nothing changes. The
 * numbers of what was refused in the input are not told. `message` and `cargo` are left as boherlin_read and
 * boherlin_listen leave them.
 */
#ifndef BOHERLIN_WHOLE_H
#define BOHERLIN_WHOLE_H

#include <stddef.h>
#include <stdint.h>

#ifdef __cplusplus
extern "C" {
#endif

enum {
    BOHERLIN_TALLY_NOTHING = 0,    /* the input ended, and no message closed there */
    BOHERLIN_TALLY_DELIVERED = 1,  /* the receiver's answers; of a reader alone, messages with ID 1 */
    BOHERLIN_TALLY_PARTS = 2,
    BOHERLIN_TALLY_NULLS = 3,
    BOHERLIN_TALLY_REFUSED = 4,
    BOHERLIN_TALLY_QUERIES = 5,
    BOHERLIN_TALLY_NOTICES = 6,
    BOHERLIN_TALLY_UNREADABLE = 7, /* refused by the reader */
    BOHERLIN_TALLY_BYTES = 8,      /* of all delivered cargoes; of a reader alone, of all payloads */
    BOHERLIN_TALLY = 9
};

/* The message reader alone. */
uint8_t boherlin_tally_messages(const uint8_t *input, size_t input_length, uint8_t *message, size_t message_length,
                                size_t *tally, size_t tally_length);

/* The reader above a receiver with these settings. */
uint8_t boherlin_tally_stream(size_t limit, size_t count, const uint8_t *input, size_t input_length, uint8_t *message,
                              size_t message_length, uint8_t *cargo, size_t cargo_length, size_t *tally,
                              size_t tally_length);

#ifdef __cplusplus
}
#endif

#endif
