/* Packets in a row, all of one length, each with room for a tag. */
#ifndef BATCH_H
#define BATCH_H

#include <stddef.h>
#include <stdint.h>

typedef struct {
    size_t count;
    /* From one packet to the next. */
    size_t stride;
    uint8_t *bytes;
} batch;

/* For packets of up to n bytes, tag included. */
batch make_batch(size_t count, size_t n);
void free_batch(batch b);

static inline uint8_t *packet_at(batch b, size_t i)
{
    return b.bytes + i * b.stride;
}

/* Plain packets of n bytes, 40 or more, with sequence numbers from first on. Policies 1 and 3 get an extension of three elements, padding last. */
void fill(batch b, uint64_t policy, uint32_t ssrc, size_t n, size_t first);

/* One such packet. */
void write_packet(uint8_t *p, uint64_t policy, uint32_t ssrc, size_t n, size_t sequence);

void copy_batch(batch to, batch from);

/* The first n bytes of every packet are the same in both. */
int same(batch a, batch b, size_t n);

#endif
