/* The cost of a packet as the session's streams grow: the stream in use is the last that was added. */
#include "pass.h"
#include "tables.h"

#include <stdio.h>

enum { BYTES = 200, STEPS = 6 };

/* The first suite, policy 0: what finds the stream is the same for all. */
static void run_round(const engine *ours, batch work, size_t round, double sent[][MOST_ROUNDS], double received[][MOST_ROUNDS])
{
    for (unsigned k = 0; k < STEPS; k++) {
        unsigned streams = 1u << k;
        fill(work, DELUGASH_PLAIN, FIRST_SSRC + streams - 1, BYTES, round * work.count);
        sent[k][round] = pass_fresh(ours, modes[0], SENDING, streams, work, BYTES);
        received[k][round] = pass_fresh(ours, modes[0], RECEIVING, streams, work, BYTES + tag_of(modes[0]));
    }
}

static void print_line(unsigned streams, const char *call, double *times, size_t rounds)
{
    spread time = spread_of(times, rounds);
    printf("streams %u %s  %.1f %.1f %.1f\n", streams, call, time.median, time.low, time.high);
}

void grow(const engine *ours, effort e)
{
    double sent[STEPS][MOST_ROUNDS], received[STEPS][MOST_ROUNDS];
    batch work = make_batch(e.packets, BYTES + tag_of(modes[0]));
    for (size_t r = 0; r < e.rounds; r++)
        run_round(ours, work, r, sent, received);
    for (unsigned k = 0; k < STEPS; k++) {
        print_line(1u << k, "protect", sent[k], e.rounds);
        print_line(1u << k, "unprotect", received[k], e.rounds);
    }
    free_batch(work);
}
