/* What a receiver has to answer, worked out without the library: the indices of a stream that were given back, none of them ever forgotten. */
#ifndef LEDGER_H
#define LEDGER_H

#include <stdint.h>

/* Indices that a ledger can hold, from its first on. */
enum { LEDGER_SPAN = 1 << 21 };

typedef struct {
    uint32_t rollover;
    int started;
    uint64_t first;
    uint64_t highest;
    uint8_t held[LEDGER_SPAN / 8];
} ledger;

/* The number for a packet that has this sequence number, and that was sent with this index. */
uint32_t ledger_answer(const ledger *l, uint16_t sequence, uint64_t index);

/* An index was given back; the first one has to be the lowest of all. */
void ledger_take(ledger *l, uint64_t index);

#endif
