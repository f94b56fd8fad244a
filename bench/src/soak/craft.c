#include "craft.h"

#include "delugash.h"

static void put16(uint8_t *p, unsigned value)
{
    p[0] = (uint8_t)(value >> 8);
    p[1] = (uint8_t)value;
}

/* Elements of RFC 8285 one after another, with padding between them, as far as the block goes. Their data is random already. */
static void write_elements(dice *d, uint8_t *block, size_t length, int two_byte)
{
    size_t at = 0;
    while (at < length) {
        size_t data = two_byte ? below(d, 24) : 1 + below(d, 16);
        size_t head = two_byte ? 2 : 1;
        if (one_in(d, 4)) {
            block[at++] = 0;
        } else if (at + head + data > length) {
            memset(block + at, 0, length - at);
            at = length;
        } else {
            block[at] = (uint8_t)(two_byte ? 1 + below(d, 255) : (1 + below(d, 14)) << 4 | (data - 1));
            if (two_byte)
                block[at + 1] = (uint8_t)data;
            at += head + data;
        }
    }
}

/* An extension at p; gives its length. Cryptex has a form for two profiles only. */
static size_t write_extension(dice *d, uint64_t policy, uint8_t *p)
{
    int cryptex = policy == DELUGASH_CRYPTEX || policy == DELUGASH_CRYPTEX_REQUIRED;
    size_t words = below(d, 12);
    roll_bytes(d, p + 4, 4 * words);
    put16(p + 2, (unsigned)words);
    switch (below(d, cryptex ? 2 : 3)) {
    case 0:
        put16(p, 0xbede);
        write_elements(d, p + 4, 4 * words, 0);
        break;
    case 1:
        put16(p, 0x1000);
        write_elements(d, p + 4, 4 * words, 1);
        break;
    default:
        put16(p, 0xabcd);
    }
    return 4 + 4 * words;
}

/* Mostly the length of sound, sometimes any that fits. */
static size_t payload_length(dice *d, size_t most)
{
    return one_in(d, 16) ? below(d, most + 1) : below(d, 240);
}

size_t craft(dice *d, uint64_t policy, size_t most, uint32_t ssrc, uint16_t sequence, uint8_t *packet)
{
    unsigned contributors = one_in(d, 2) ? 0 : (unsigned)below(d, 16);
    int extension = one_in(d, 2);
    size_t n = 12 + 4 * contributors;
    roll_bytes(d, packet, n);
    packet[0] = (uint8_t)(0x80 | (packet[0] & 0x20) | extension << 4 | contributors);
    put16(packet + 2, sequence);
    put16(packet + 8, ssrc >> 16);
    put16(packet + 10, ssrc & 0xffff);
    if (extension)
        n += write_extension(d, policy, packet + n);
    size_t payload = payload_length(d, most - n);
    roll_bytes(d, packet + n, payload);
    return n + payload;
}

int gets_block(uint64_t policy, const uint8_t *packet)
{
    int cryptex = policy == DELUGASH_CRYPTEX || policy == DELUGASH_CRYPTEX_REQUIRED;
    return cryptex && (packet[0] & 0x10) == 0 && (packet[0] & 0x0f) != 0;
}

size_t restored(uint64_t policy, const uint8_t *packet, size_t n, uint8_t *out)
{
    static const uint8_t block[4] = {0xbe, 0xde, 0, 0};
    if (!gets_block(policy, packet)) {
        memcpy(out, packet, n);
        return n;
    }
    size_t head = 12 + 4 * (size_t)(packet[0] & 0x0f);
    memcpy(out, packet, head);
    out[0] |= 0x10;
    memcpy(out + head, block, sizeof block);
    memcpy(out + head + sizeof block, packet + head, n - head);
    return n + sizeof block;
}
