/* Random packets that a sender may protect, and what has to be given back for one. */
#ifndef CRAFT_H
#define CRAFT_H

#include "dice.h"

/* Writes a packet of at most so many bytes, 400 or more; gives its length. */
size_t craft(dice *d, uint64_t policy, size_t most, uint32_t ssrc, uint16_t sequence, uint8_t *packet);

/* Cryptex puts a block into this packet. */
int gets_block(uint64_t policy, const uint8_t *packet);

/* Writes the packet as a receiver gives it back, with such a block left in; gives its length. */
size_t restored(uint64_t policy, const uint8_t *packet, size_t n, uint8_t *out);

#endif
