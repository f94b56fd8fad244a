/* The most stack that each call of the library needs. A call runs on a stack of its own, which was filled with a pattern and is searched afterwards for the last
 * byte that changed; what an empty call leaves there is taken off. A line for each suite and policy: their numbers, and the bytes of each call. */
#define _XOPEN_SOURCE 600
#include "delugash.h"

#include <stdint.h>
#include <stdio.h>
#include <stdlib.h>
#include <string.h>
#include <ucontext.h>

enum { STACK = 1 << 16, SSRC = 0x5eed0001, ID = 3 };

static const uint8_t key[16] = {1}, salt[14] = {2}, ids[3] = {1, ID, 5};

/* What the call under measurement is given, and the number that it gave. */
static struct {
    uint64_t sender[DELUGASH_WORDS], receiver[DELUGASH_WORDS], policy;
    uint32_t suite;
    uint8_t buf[DELUGASH_MAX_PACKET];
    size_t n;
    uint32_t number;
    size_t length;
} at;

static unsigned char stack[STACK];
static ucontext_t here, there;

static void nothing(void)
{
    at.number = DELUGASH_OK;
}

static uint32_t make_session(uint64_t *session)
{
    size_t salt_length = at.suite == DELUGASH_SUITE_GCM ? 12 : 14;
    return delugash_make(session, DELUGASH_WORDS, key, sizeof key, salt, salt_length, at.policy, ids, sizeof ids, at.suite);
}

static void make(void)
{
    at.number = make_session(at.sender);
}

static void add(void)
{
    at.number = delugash_add(at.sender, DELUGASH_WORDS, SSRC, DELUGASH_SENDING, 0);
}

static void protect(void)
{
    delugash_answer a = delugash_protect(at.sender, DELUGASH_WORDS, at.buf, sizeof at.buf, at.n);
    at.number = a.number;
    at.length = a.length;
}

static void unprotect(void)
{
    at.number = delugash_unprotect(at.receiver, DELUGASH_WORDS, at.buf, sizeof at.buf, at.n).number;
}

static void find(void)
{
    at.number = delugash_find(at.buf, at.n, ID).number;
}

static void stretch(void)
{
    at.number = delugash_stretch(key, sizeof key, salt, sizeof salt, SSRC, 1, 5, at.buf, at.n);
}

static size_t deepest(void (*call)(void), unsigned char pattern)
{
    memset(stack, pattern, sizeof stack);
    getcontext(&there);
    there.uc_stack.ss_sp = stack;
    there.uc_stack.ss_size = sizeof stack;
    there.uc_link = &here;
    makecontext(&there, call, 0);
    swapcontext(&here, &there);
    size_t i = 0;
    while (i < sizeof stack && stack[i] == pattern)
        i++;
    return sizeof stack - i;
}

/* What a call needs beyond an empty one, and that it gave the number that is expected. Whoever measures a call again sets its session back. */
static void measure(void (*call)(void), uint32_t number, size_t *most)
{
    size_t used = deepest(call, 0xA5);
    if (at.number != number) {
        fprintf(stderr, "the number %u came, and not %u\n", (unsigned)at.number, (unsigned)number);
        exit(1);
    }
    used -= deepest(nothing, 0xA5);
    if (used > *most)
        *most = used;
}

/* A packet with contributors, an extension of so many words whose elements are listed, and a payload. */
static void craft(unsigned contributors, size_t words, size_t payload, unsigned sequence)
{
    size_t k = 12 + 4 * contributors, end;
    memset(at.buf, 0, sizeof at.buf);
    at.buf[0] = (uint8_t)(0x80 | (words ? 0x10 : 0) | contributors);
    at.buf[2] = (uint8_t)(sequence >> 8);
    at.buf[3] = (uint8_t)sequence;
    for (int i = 0; i < 4; i++)
        at.buf[8 + i] = (uint8_t)((uint32_t)SSRC >> (24 - 8 * i));
    if (words) {
        at.buf[k] = 0x10;
        at.buf[k + 2] = (uint8_t)(words >> 8);
        at.buf[k + 3] = (uint8_t)words;
        end = k + 4 + 4 * words;
        for (k += 4; k + 2 <= end; k += 2 + at.buf[k + 1]) {
            at.buf[k] = ID;
            at.buf[k + 1] = (uint8_t)(end - k - 2 < 200 ? end - k - 2 : 200);
        }
        k = end;
    }
    memset(at.buf + k, 0x5A, payload);
    at.n = k + payload;
}

static size_t protects, unprotects, forged, repeated, finds, stretches;

/* One packet: its bytes under a stretch of keystream; found in, protected, and then received with a wrong tag, as it is, and once more. */
static void pass(void)
{
    uint8_t sent[sizeof at.buf];
    memcpy(sent, at.buf, sizeof sent);
    measure(stretch, DELUGASH_OK, &stretches);
    memcpy(at.buf, sent, sizeof sent);
    measure(find, at.buf[0] & 0x10 ? DELUGASH_OK : DELUGASH_ABSENT, &finds);
    measure(protect, DELUGASH_OK, &protects);
    at.n = at.length;
    at.buf[at.n - 1] ^= 1;
    measure(unprotect, DELUGASH_TAG, &forged);
    at.buf[at.n - 1] ^= 1;
    memcpy(sent, at.buf, sizeof sent);
    measure(unprotect, DELUGASH_OK, &unprotects);
    memcpy(at.buf, sent, sizeof sent);
    measure(unprotect, DELUGASH_REPEAT, &repeated);
}

static void packets(void)
{
    static const size_t payloads[] = {0, 20, 28, 40, 52, 100, 200, 1200, 1980, 2000};
    /* a block that Cryptex adds, and the tag */
    size_t largest = DELUGASH_MAX_PACKET - 4 - (at.suite == DELUGASH_SUITE_GCM ? 16 : 10);
    unsigned sequence = 0;
    for (size_t i = 0; i < sizeof payloads / sizeof *payloads; i++)
        for (size_t words = 0; words <= 480; words = words ? 2 * words + 1 : 1)
            for (unsigned contributors = 0; contributors <= 15; contributors += 5)
                if (12 + 4 * contributors + (words ? 4 + 4 * words : 0) + payloads[i] <= largest) {
                    craft(contributors, words, payloads[i], ++sequence);
                    pass();
                }
}

int main(void)
{
    for (at.suite = 0; at.suite <= DELUGASH_SUITE_GCM; at.suite++)
        for (at.policy = 0; at.policy <= (at.suite == DELUGASH_SUITE_GCM ? DELUGASH_CRYPTEX_REQUIRED : DELUGASH_MASK); at.policy++) {
            size_t makes = 0, adds = 0;
            protects = unprotects = forged = repeated = finds = stretches = 0;
            measure(make, DELUGASH_OK, &makes);
            measure(add, DELUGASH_OK, &adds);
            if (make_session(at.receiver) != DELUGASH_OK || delugash_add(at.receiver, DELUGASH_WORDS, SSRC, DELUGASH_RECEIVING, 0) != DELUGASH_OK)
                return 1;
            packets();
            printf("%u %u %zu %zu %zu %zu %zu %zu %zu %zu\n", (unsigned)at.suite, (unsigned)at.policy, protects, unprotects, forged, repeated, makes, adds,
                   finds, stretches);
        }
    return 0;
}
