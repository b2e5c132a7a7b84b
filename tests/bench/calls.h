/* The calls that both sides make. */
#ifndef BENCH_CALLS_H
#define BENCH_CALLS_H

#include "sends.h"

enum { PAYLOADS = 3, MOST_CALLS = 8192, TRIAL_CALLS = 16 };

extern const char *const payload_names[PAYLOADS];

/* "64 bytes" and "1,000 bytes": cargoes that each fill one transfer of so many bytes. "mixed": cargoes of 1 to 600 bytes in
 * transfers of at most 128. All are written; a quarter of the permits have just the room, a quarter just the time. */
struct calls timed_calls(const char *name);

/* A few calls under settings of all kinds, sound or not, most of them refused: each number again and again. */
struct calls trial_calls(void);

#endif
