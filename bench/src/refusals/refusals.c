/* Refused calls for callgrind to count, beside accepted ones: bench/refusals collects inside one of the library's calls at a time. A line for each call, in
 * order: which call, what it is for, policy and 4 more with GCM, bytes, shape, the number that it gave. The shapes are those that the sender of forgeries would
 * choose. */
#include "delugash.h"

#include <stdint.h>
#include <stdio.h>
#include <stdlib.h>
#include <string.h>

/* HIGHEST: the sequence number of the packet that was accepted before the forged one comes. DATAGRAM: the most that UDP over IPv4 brings. */
enum { STREAMS = 32, FIRST_SSRC = 0x5eed0001, HIGHEST = 1000, DATAGRAM = 65507 };

static const uint8_t key[16] = {1}, salt[14] = {2}, ids[2] = {1, 2};

/* The suite in use, and the length of its tag. */
static uint32_t suite;
static size_t tag;

static void use_suite(uint32_t number)
{
    suite = number;
    tag = number == DELUGASH_SUITE_GCM ? 16 : 10;
}

typedef struct {
    const char *name;
    unsigned contributors;
    /* The extension, which fills the packet: its tag, 0 for none, and bytes that are repeated. */
    uint16_t tag;
    const char *pattern;
    size_t period;
    /* Sent as under policy 0, also to a receiver that takes Cryptex. */
    int clear;
} shape;

static const shape shapes[] = {
    {"ordinary", 0, 0, "", 0, 0},
    {"15_contributors", 15, 0, "", 0, 0},
    {"15_contributors_clear", 15, 0, "", 0, 1},
    {"tag_without_elements", 0, 0xabcd, "\x00", 1, 1},
    {"one-byte,_1_byte_each", 0, 0xbede, "\x10\x00", 2, 0},
    {"one-byte,_1_byte_each,_clear", 0, 0xbede, "\x10\x00", 2, 1},
    {"one-byte,_16_bytes_each", 0, 0xbede, "\x1f\0\0\0\0\0\0\0\0\0\0\0\0\0\0\0\0", 17, 0},
    {"one-byte,_padding", 0, 0xbede, "\x00", 1, 0},
    {"one-byte,_padding,_clear", 0, 0xbede, "\x00", 1, 1},
    {"two-byte,_empty", 0, 0x1000, "\x01\x00", 2, 0},
    {"two-byte,_1_byte_each", 0, 0x1000, "\x01\x01\x00", 3, 0},
    {"two-byte,_padding", 0, 0x1000, "\x00", 1, 0},
    {"15_contributors,_two-byte,_empty", 15, 0x1000, "\x01\x00", 2, 0},
    {"15_contributors,_one-byte,_padding", 15, 0xbede, "\x00", 1, 0},
};
enum { SHAPES = sizeof shapes / sizeof *shapes };

static void check(int holds, const char *what)
{
    if (holds)
        return;
    fprintf(stderr, "%s\n", what);
    exit(1);
}

static void print_call(const char *what, uint64_t policy, size_t n, const shape *s, uint32_t number)
{
    printf("%s %d %zu %s %u\n", what, (int)(policy + 4 * suite), n, s->name, (unsigned)number);
}

static void open_session(uint64_t *session, uint64_t policy, uint32_t way)
{
    size_t salt_length = suite == DELUGASH_SUITE_GCM ? 12 : 14;
    check(delugash_make(session, DELUGASH_WORDS, key, sizeof key, salt, salt_length, policy, ids, sizeof ids, suite) == DELUGASH_OK, "make refused");
    for (uint32_t i = 0; i < STREAMS; i++)
        check(delugash_add(session, DELUGASH_WORDS, FIRST_SSRC + i, way, 0) == DELUGASH_OK, "add refused");
}

static void put16(uint8_t *at, size_t number)
{
    at[0] = (uint8_t)(number >> 8);
    at[1] = (uint8_t)number;
}

/* Where the extension's block begins. */
static size_t block_of(const shape *s)
{
    return 16 + 4 * s->contributors;
}

/* The shape without its tag in n bytes, of the last stream; 0 where it does not fit. */
static int fill(const shape *s, uint8_t *packet, size_t n, unsigned sequence)
{
    size_t block = block_of(s);
    if (n < (s->tag == 0 ? block - 4 : block))
        return 0;
    memset(packet, 0, n);
    packet[0] = (uint8_t)(0x80 | s->contributors);
    put16(packet + 2, sequence);
    put16(packet + 8, FIRST_SSRC >> 16);
    put16(packet + 10, (FIRST_SSRC + STREAMS - 1) & 0xffff);
    if (s->tag == 0)
        return 1;
    size_t size = (n - block) / 4 * 4;
    packet[0] |= 0x10;
    put16(packet + block - 4, s->tag);
    put16(packet + block - 2, size / 4);
    for (size_t i = 0; i + s->period <= size; i += s->period)
        memcpy(packet + block + i, s->pattern, s->period);
    return 1;
}

/* The shape as it is sent, with its tag: n bytes. */
static int wire(const shape *s, uint64_t policy, uint8_t *packet, size_t n, unsigned sequence)
{
    uint64_t sender[DELUGASH_WORDS];
    int cryptex = !s->clear && (policy == DELUGASH_CRYPTEX || policy == DELUGASH_CRYPTEX_REQUIRED);
    size_t added = tag + (cryptex && s->tag == 0 && s->contributors > 0 ? 4 : 0);
    if (n < added || !fill(s, packet, n - added, sequence))
        return 0;
    open_session(sender, s->clear && policy != DELUGASH_MASK ? DELUGASH_PLAIN : policy, DELUGASH_SENDING);
    return delugash_protect(sender, DELUGASH_WORDS, packet, n, n - added).length == n;
}

/* A receiver that has accepted a packet of its last stream. The call is none of those that count. */
static void listen(uint64_t *receiver, uint64_t policy)
{
    uint8_t packet[40];
    open_session(receiver, policy, DELUGASH_RECEIVING);
    check(wire(&shapes[0], policy, packet, sizeof packet, HIGHEST), "not sent");
    check(delugash_unprotect(receiver, DELUGASH_WORDS, packet, sizeof packet, sizeof packet).number == DELUGASH_OK, "not accepted");
    puts("unprotect aside");
}

static void count_accepted(const shape *s, uint64_t policy, size_t n)
{
    uint64_t receiver[DELUGASH_WORDS];
    uint8_t packet[DELUGASH_MAX_PACKET];
    /* each shape in the clear has contributors or an extension, which required Cryptex refuses */
    if ((policy == DELUGASH_CRYPTEX_REQUIRED && s->clear) || !wire(s, policy, packet, n, HIGHEST + 1))
        return;
    listen(receiver, policy);
    check(delugash_unprotect(receiver, DELUGASH_WORDS, packet, n, n).number == DELUGASH_OK, "not accepted");
    print_call("unprotect accepted", policy, n, s, DELUGASH_OK);
}

static void new_and_wrong_tag(const shape *s, uint8_t *packet, size_t n)
{
    (void)s;
    packet[n - 1] ^= 1;
}

static void repeated(const shape *s, uint8_t *packet, size_t n)
{
    (void)s, (void)n;
    put16(packet + 2, HIGHEST);
}

static void far_behind(const shape *s, uint8_t *packet, size_t n)
{
    (void)s, (void)n;
    put16(packet + 2, HIGHEST - 64);
}

static void unknown_stream(const shape *s, uint8_t *packet, size_t n)
{
    (void)s, (void)n;
    packet[8] ^= 0x80;
}

/* The last two bytes of the block become an element's header, of either kind, whose data is past the block. */
static void broken_at_the_end(const shape *s, uint8_t *packet, size_t n)
{
    if (s->tag != 0 && n - tag >= block_of(s) + 4)
        put16(packet + block_of(s) + (n - tag - block_of(s)) / 4 * 4 - 2, 0x1fff);
}

static void (*const forgeries[])(const shape *, uint8_t *, size_t) = {
    new_and_wrong_tag, repeated, far_behind, unknown_stream, broken_at_the_end,
};

static void count_refused(const shape *s, uint64_t policy, size_t n, void (*forge)(const shape *, uint8_t *, size_t))
{
    uint64_t receiver[DELUGASH_WORDS];
    uint8_t packet[DELUGASH_MAX_PACKET];
    if (!wire(s, policy, packet, n, HIGHEST + 1))
        return;
    listen(receiver, policy);
    forge(s, packet, n);
    delugash_answer a = delugash_unprotect(receiver, DELUGASH_WORDS, packet, n, n);
    /* Elements are read under the mask alone: elsewhere a broken one is no refusal of its own. */
    int aside = a.number == DELUGASH_OK || (forge == broken_at_the_end && a.number != DELUGASH_ELEMENT);
    print_call(aside ? "unprotect aside" : "unprotect refused", policy, n, s, a.number);
}

/* A packet too large to be accepted; and an element sought in it that is not there, and one that most of the elements are. */
static void count_large(const shape *s, size_t n)
{
    static uint8_t packet[DATAGRAM];
    uint64_t receiver[DELUGASH_WORDS];
    check(fill(s, packet, n - tag, HIGHEST + 1), "too short");
    print_call("find absent", 0, n, s, delugash_find(packet, n, 3).number);
    print_call("find first", 0, n, s, delugash_find(packet, n, 1).number);
    for (uint64_t policy = 0; policy < 4; policy++) {
        open_session(receiver, policy, DELUGASH_RECEIVING);
        print_call("unprotect large", policy, n, s, delugash_unprotect(receiver, DELUGASH_WORDS, packet, n, n).number);
    }
}

int main(void)
{
    /* the first is the shortest of all, and the second the shortest with GCM */
    static const size_t lengths[] = {22, 28, 38, 50, 70, 134, 210, 1210, 2046, DELUGASH_MAX_PACKET};
    for (size_t l = 0; l < sizeof lengths / sizeof *lengths; l++)
        for (uint64_t kind = 0; kind < 7; kind++)
            for (size_t s = 0; s < SHAPES; s++) {
                use_suite(kind < 4 ? DELUGASH_SUITE_CM_HMAC : DELUGASH_SUITE_GCM);
                count_accepted(&shapes[s], kind % 4, lengths[l]);
                for (size_t f = 0; f < sizeof forgeries / sizeof *forgeries; f++)
                    count_refused(&shapes[s], kind % 4, lengths[l], forgeries[f]);
            }
    /* with GCM there is no mask, and so nothing is read of a packet that is too large */
    use_suite(DELUGASH_SUITE_CM_HMAC);
    for (size_t s = 0; s < SHAPES; s++)
        count_large(&shapes[s], DATAGRAM);
    return 0;
}
