#include "batch.h"

#include "engine.h"

#include <stdlib.h>
#include <string.h>

/* A word of extension header and three words of elements: ids 1 (one byte), 2 (three bytes) and 5 (two bytes), then padding. */
static const uint8_t extension[16] = {0xbe, 0xde, 0, 3, 0x10, 0xa7, 0x22, 0x01, 0x02, 0x03, 0x51, 0x44, 0x55, 0, 0, 0};

batch make_batch(size_t count, size_t n)
{
    /* Whole cache lines, so that neighbours do not share one. */
    batch b = {count, (n + 63) / 64 * 64, NULL};
    b.bytes = calloc(b.count, b.stride);
    if (b.bytes == NULL)
        give_up("no memory", "packets");
    return b;
}

void free_batch(batch b)
{
    free(b.bytes);
}

void write_packet(uint8_t *p, uint64_t policy, uint32_t ssrc, size_t n, size_t sequence)
{
    for (size_t i = 0; i < n; i++)
        p[i] = (uint8_t)(sequence + 7 * i);
    p[0] = 0x80;
    p[1] = 111;
    p[2] = (uint8_t)(sequence >> 8);
    p[3] = (uint8_t)sequence;
    for (size_t i = 0; i < 4; i++)
        p[8 + i] = (uint8_t)(ssrc >> (24 - 8 * i));
    if (policy != DELUGASH_PLAIN) {
        p[0] |= 0x10;
        memcpy(p + 12, extension, sizeof extension);
    }
}

void fill(batch b, uint64_t policy, uint32_t ssrc, size_t n, size_t first)
{
    for (size_t i = 0; i < b.count; i++)
        write_packet(packet_at(b, i), policy, ssrc, n, first + i);
}

void copy_batch(batch to, batch from)
{
    memcpy(to.bytes, from.bytes, from.count * from.stride);
}

int same(batch a, batch b, size_t n)
{
    for (size_t i = 0; i < a.count; i++)
        if (memcmp(packet_at(a, i), packet_at(b, i), n) != 0)
            return 0;
    return 1;
}
