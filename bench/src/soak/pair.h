/* A sender's and a receiver's session with the network between them, every answer checked. */
#ifndef PAIR_H
#define PAIR_H

#include "delugash.h"
#include "dice.h"
#include "ledger.h"

enum { STREAMS = 32, HISTORY = 128, ROOM = DELUGASH_MAX_PACKET + 64, NUMBERS = 20 };

/* A packet that was sent: as it was, and its bytes on the wire. */
typedef struct {
    uint64_t index;
    size_t plain_length;
    size_t wire_length;
    uint8_t plain[ROOM];
    uint8_t wire[ROOM];
} sent;

typedef struct {
    uint32_t ssrc;
    uint32_t rollover;
    /* Packets sent, the first and the last index, and the last step. */
    uint64_t count;
    uint64_t first;
    uint64_t last;
    uint64_t step;
    /* The last packets sent: any of them can arrive, again or for the first time. */
    sent history[HISTORY];
    ledger given_back;
} stream;

/* How often each number was given. */
typedef struct {
    uint64_t sent[NUMBERS];
    uint64_t arrived[NUMBERS];
    uint64_t forged[NUMBERS];
    /* Given back although a later packet had been before; lost on the way at first; sequence numbers that went back to 0. */
    uint64_t late;
    uint64_t lost;
    uint64_t wraps;
} tally;

typedef struct {
    uint64_t seed;
    uint64_t run;
    uint64_t packet;
    uint64_t policy;
    uint32_t suite;
    /* The bytes of its tag. */
    size_t tag;
    dice d;
    uint64_t sender[DELUGASH_WORDS];
    uint64_t receiver[DELUGASH_WORDS];
    stream streams[STREAMS];
    tally counts;
} pair;

/* New sessions and streams; seed and counts stay. Takes the pair's whole memory into use. */
void start_run(pair *p, uint64_t run);

/* One packet of some stream is sent, and something arrives. Ends the program at the first disagreement. */
void step_pair(pair *p);

#endif
