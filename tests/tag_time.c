/* Refused calls for callgrind to count: tests/tag_time runs it, and collects only inside delugash_unprotect.
 *
 *     tag_time SUITE
 *
 * A packet whose tag is wrong in one bit, for each of its bits; then in every bit of one byte, for each byte; then in every byte. */
#include "delugash.h"

#include <stdint.h>
#include <stdio.h>
#include <stdlib.h>
#include <string.h>

enum { PLAIN = 200, MOST_TAG = 16, SSRC = 0x5eed0001 };

static const uint8_t key[16] = {1}, salt[14] = {2};

static uint32_t suite;
static size_t tag;

static void open_session(uint64_t *session, uint32_t way)
{
    size_t salt_length = suite == DELUGASH_SUITE_GCM ? 12 : 14;
    if (delugash_make(session, DELUGASH_WORDS, key, sizeof key, salt, salt_length, DELUGASH_PLAIN, key, 0, suite) != DELUGASH_OK ||
        delugash_add(session, DELUGASH_WORDS, SSRC, way, 0) != DELUGASH_OK)
        exit(2);
}

/* The packet with these bits of its tag turned over; `what` is printed once the call was refused with 14. */
static void refused(uint64_t *receiver, const uint8_t *wire, const uint8_t *bits, const char *what, size_t number)
{
    uint8_t buf[PLAIN + MOST_TAG];
    memcpy(buf, wire, PLAIN + tag);
    for (size_t i = 0; i < tag; i++)
        buf[PLAIN + i] ^= bits[i];
    if (delugash_unprotect(receiver, DELUGASH_WORDS, buf, PLAIN + tag, PLAIN + tag).number != DELUGASH_TAG)
        exit(3);
    printf("%s %zu\n", what, number);
}

int main(int argc, char **argv)
{
    static uint64_t sender[DELUGASH_WORDS], receiver[DELUGASH_WORDS];
    uint8_t wire[PLAIN + MOST_TAG] = {0x80, 0, 0, 1, 0, 0, 0, 0, 0x5e, 0xed, 0, 1};
    uint8_t bits[MOST_TAG];
    if (argc != 2)
        exit(2);
    suite = argv[1][0] == '1' ? DELUGASH_SUITE_GCM : DELUGASH_SUITE_CM_HMAC;
    tag = suite == DELUGASH_SUITE_GCM ? 16 : 10;
    open_session(sender, DELUGASH_SENDING);
    open_session(receiver, DELUGASH_RECEIVING);
    if (delugash_protect(sender, DELUGASH_WORDS, wire, sizeof wire, PLAIN).length != PLAIN + tag)
        exit(2);
    /* The first call may differ by what the dynamic linker does once. */
    memset(bits, 0xff, sizeof bits);
    refused(receiver, wire, bits, "first", 0);
    for (int bit = 0; bit < 8; bit++)
        for (size_t i = 0; i < tag; i++) {
            memset(bits, 0, sizeof bits);
            bits[i] = (uint8_t)(1u << bit);
            refused(receiver, wire, bits, "byte", i);
        }
    for (size_t i = 0; i < tag; i++) {
        memset(bits, 0, sizeof bits);
        bits[i] = 0xff;
        refused(receiver, wire, bits, "byte", i);
    }
    memset(bits, 0xff, sizeof bits);
    refused(receiver, wire, bits, "every", 0);
    return 0;
}
