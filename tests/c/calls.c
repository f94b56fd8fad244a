/* The C interface: published packets of both suites both ways, published keystream in stretches, refusals, wrong memory, and memory that holds anything. */
#include "delugash.h"

#include <stdint.h>
#include <stdio.h>
#include <stdlib.h>
#include <string.h>

static unsigned passed, failed;

static void check(int holds, const char *what, int line)
{
    if (holds) {
        passed++;
    } else {
        failed++;
        fprintf(stderr, "line %d: %s\n", line, what);
    }
}

#define CHECK(fact) check((fact), #fact, __LINE__)

/* The master key and salt of RFC 3711's B.3, which RFC 9335's appendix takes. */
static const uint8_t key[16] = {0xe1, 0xf9, 0x7a, 0x0d, 0x3e, 0x01, 0x8b, 0xe0, 0xd6, 0x4f, 0xa3, 0x2c, 0x06, 0xde, 0x41, 0x39};
static const uint8_t salt[14] = {0x0e, 0xc6, 0x75, 0xad, 0x49, 0x8a, 0xfe, 0xeb, 0xb6, 0x96, 0x0b, 0x3a, 0xab, 0xe6};

/* RFC 9335, A.1.1: the packet, and what is sent. */
static const uint8_t plain[36] = "\x90\x0f\x12\x35\xde\xca\xfb\xad\xca\xfe\xba\xbe\xbe\xde\x00\x01\x51\x00\x02\x00"
                                 "\xab\xab\xab\xab\xab\xab\xab\xab\xab\xab\xab\xab\xab\xab\xab\xab";
static const uint8_t wire[46] = "\x90\x0f\x12\x35\xde\xca\xfb\xad\xca\xfe\xba\xbe\xc0\xde\x00\x01\xeb\x92\x36\x52"
                                "\x51\xc3\xe0\x36\xf8\xde\x27\xe9\xc2\x7e\xe3\xe0\xb4\x65\x1d\x9f\xbc\x42\x18\xa7"
                                "\x02\x44\x52\x2f\x34\xa5";

/* RFC 9335, A.1.5: two contributors and an empty block. */
static const uint8_t with_block[40] = "\x92\x0f\x12\x3a\xde\xca\xfb\xad\xca\xfe\xba\xbe\x00\x01\xe2\x40\x00\x00\xb2\x6e"
                                      "\xbe\xde\x00\x00\xab\xab\xab\xab\xab\xab\xab\xab\xab\xab\xab\xab\xab\xab\xab\xab";
static const uint8_t with_block_wire[50] = "\x92\x0f\x12\x3a\xde\xca\xfb\xad\xca\xfe\xba\xbe\x71\x30\xb6\xab\xfe\x2a\xb0\xe3"
                                           "\xc0\xde\x00\x00\xe3\xd9\xf6\x4b\x25\xc9\xe7\x4c\xb4\xcf\x8e\x43\xfb\x92\xe3\x78"
                                           "\x1c\x2c\x0c\xea\xb6\xb3\xa4\x99\xa1\x4c";

/* The same without its block, X = 0 and CC = 2, and as plain SRTP sends it: the RFC's plain and protected packet give the keystream, its authentication
 * key the tag. */
static const uint8_t with_contributors[36] = "\x82\x0f\x12\x3a\xde\xca\xfb\xad\xca\xfe\xba\xbe\x00\x01\xe2\x40\x00\x00\xb2\x6e"
                                             "\xab\xab\xab\xab\xab\xab\xab\xab\xab\xab\xab\xab\xab\xab\xab\xab";
static const uint8_t in_clear[46] = "\x82\x0f\x12\x3a\xde\xca\xfb\xad\xca\xfe\xba\xbe\x00\x01\xe2\x40\x00\x00\xb2\x6e"
                                    "\xda\x9a\xff\x40\x55\x81\xa9\x26\xe3\xd9\xf6\x4b\x25\xc9\xe7\x4c\xae\xd0\xdd\x3d"
                                    "\x9c\x17\xcb\xe1\x89\xf5";

/* And without contributors. */
static const uint8_t bare[28] = "\x80\x0f\x12\x3a\xde\xca\xfb\xad\xca\xfe\xba\xbe\xab\xab\xab\xab\xab\xab\xab\xab"
                                "\xab\xab\xab\xab\xab\xab\xab\xab";
static const uint8_t bare_wire[38] = "\x80\x0f\x12\x3a\xde\xca\xfb\xad\xca\xfe\xba\xbe\xda\x9a\xff\x40\x55\x81\xa9\x26"
                                     "\xe3\xd9\xf6\x4b\x25\xc9\xe7\x4c\x29\x36\x56\x31\xa1\xa5\xa7\x04\x45\x3a";

/* RFC 9335, A.2: the master key and salt of its second suite; A.2.1 to A.2.6: the packet's length, the packet, and what is sent, 16 bytes longer. */
static const uint8_t gcm_key[16] = {0x00, 0x01, 0x02, 0x03, 0x04, 0x05, 0x06, 0x07, 0x08, 0x09, 0x0a, 0x0b, 0x0c, 0x0d, 0x0e, 0x0f};
static const uint8_t gcm_salt[12] = {0xa0, 0xa1, 0xa2, 0xa3, 0xa4, 0xa5, 0xa6, 0xa7, 0xa8, 0xa9, 0xaa, 0xab};
static const struct {
    size_t n;
    uint8_t plain[44], wire[60];
} gcm_published[6] = {
    {36,
     "\x90\x0f\x12\x35\xde\xca\xfb\xad\xca\xfe\xba\xbe\xbe\xde\x00\x01\x51\x00\x02\x00\xab\xab\xab\xab\xab\xab"
     "\xab\xab\xab\xab\xab\xab\xab\xab\xab\xab",
     "\x90\x0f\x12\x35\xde\xca\xfb\xad\xca\xfe\xba\xbe\xc0\xde\x00\x01\x39\x97\x2d\xc9\x57\x2c\x4d\x99\xe8\xfc"
     "\x35\x5d\xe7\x43\xfb\x2e\x94\xf9\xd8\xff\x54\xe7\x2f\x41\x93\xbb\xc5\xc7\x4f\xfa\xb0\xfa\x9f\xa0\xfb\xeb"},
    {36,
     "\x90\x0f\x12\x36\xde\xca\xfb\xad\xca\xfe\xba\xbe\x10\x00\x00\x01\x05\x02\x00\x02\xab\xab\xab\xab\xab\xab"
     "\xab\xab\xab\xab\xab\xab\xab\xab\xab\xab",
     "\x90\x0f\x12\x36\xde\xca\xfb\xad\xca\xfe\xba\xbe\xc2\xde\x00\x01\xbb\x75\xa4\xc5\x45\xcd\x1f\x41\x3b\xdb"
     "\x7d\xaa\x2b\x1e\x32\x63\xde\x31\x36\x67\xc9\x63\x24\x90\x81\xb3\x5a\x65\xf5\xcb\x6c\x88\xb3\x94\x23\x5f"},
    {44,
     "\x92\x0f\x12\x38\xde\xca\xfb\xad\xca\xfe\xba\xbe\x00\x01\xe2\x40\x00\x00\xb2\x6e\xbe\xde\x00\x01\x51\x00"
     "\x02\x00\xab\xab\xab\xab\xab\xab\xab\xab\xab\xab\xab\xab\xab\xab\xab\xab",
     "\x92\x0f\x12\x38\xde\xca\xfb\xad\xca\xfe\xba\xbe\x63\xbb\xcc\xc4\xa7\xf6\x95\xc4\xc0\xde\x00\x01\x8a\xd7"
     "\xc7\x1f\xac\x70\xa8\x0c\x92\x86\x6b\x4c\x6b\xa9\x85\x46\xef\x91\x35\x86\xe9\x5f\xfa\xaf\xfe\x95\x68\x85"
     "\xbb\x06\x47\xa8\xbc\x09\x4a\xc8"},
    {44,
     "\x92\x0f\x12\x39\xde\xca\xfb\xad\xca\xfe\xba\xbe\x00\x01\xe2\x40\x00\x00\xb2\x6e\x10\x00\x00\x01\x05\x02"
     "\x00\x02\xab\xab\xab\xab\xab\xab\xab\xab\xab\xab\xab\xab\xab\xab\xab\xab",
     "\x92\x0f\x12\x39\xde\xca\xfb\xad\xca\xfe\xba\xbe\x36\x80\x52\x4f\x8d\x31\x2b\x00\xc2\xde\x00\x01\xc7\x8d"
     "\x12\x00\x38\x42\x2b\xc1\x11\xa7\x18\x7a\x18\x24\x6f\x98\x0c\x05\x9c\xc6\xbc\x9d\xf8\xb6\x26\x39\x4e\xca"
     "\x34\x4e\x4b\x05\xd8\x0f\xea\x83"},
    {40,
     "\x92\x0f\x12\x3a\xde\xca\xfb\xad\xca\xfe\xba\xbe\x00\x01\xe2\x40\x00\x00\xb2\x6e\xbe\xde\x00\x00\xab\xab"
     "\xab\xab\xab\xab\xab\xab\xab\xab\xab\xab\xab\xab\xab\xab",
     "\x92\x0f\x12\x3a\xde\xca\xfb\xad\xca\xfe\xba\xbe\x15\xb6\xbb\x43\x37\x90\x6f\xff\xc0\xde\x00\x00\xb7\xb9"
     "\x64\x53\x7a\x2b\x03\xab\x7b\xa5\x38\x9c\xe9\x33\x17\x12\x6b\x5d\x97\x4d\xf3\x0c\x68\x84\xdc\xb6\x51\xc5"
     "\xe1\x20\xc1\xda"},
    {40,
     "\x92\x0f\x12\x3b\xde\xca\xfb\xad\xca\xfe\xba\xbe\x00\x01\xe2\x40\x00\x00\xb2\x6e\x10\x00\x00\x00\xab\xab"
     "\xab\xab\xab\xab\xab\xab\xab\xab\xab\xab\xab\xab\xab\xab",
     "\x92\x0f\x12\x3b\xde\xca\xfb\xad\xca\xfe\xba\xbe\xdc\xb3\x8c\x9e\x48\xbf\x95\xf4\xc2\xde\x00\x00\x61\xee"
     "\x43\x2c\xf9\x20\x31\x70\x76\x61\x32\x58\xd3\xce\x42\x36\xc0\x6a\xc4\x29\x68\x1a\xd0\x84\x13\x51\x2d\xc9"
     "\x8b\x52\x07\xd8"},
};

/* A packet without contributors and extension under the same key and salt, as libsrtp sends it. */
static const uint8_t gcm_bare[28] = "\x80\x0f\x12\x34\xde\xca\xfb\xad\xca\xfe\xba\xbe\xab\xab\xab\xab\xab\xab"
                                    "\xab\xab\xab\xab\xab\xab\xab\xab\xab\xab";
static const uint8_t gcm_bare_wire[44] = "\x80\x0f\x12\x34\xde\xca\xfb\xad\xca\xfe\xba\xbe\xc5\x00\x2e\xde"
                                         "\x04\xcf\xdd\x2e\xb9\x11\x59\xe0\x88\x0a\xa0\x6e\xd2\x97\x68\x26"
                                         "\xf7\x96\xb2\x01\xdf\x31\x31\xa1\x27\xe8\xa3\x92";

/* What a suite sets: its number, the bytes of salt and tag, and the last policy; then the keys that its tests take. */
typedef struct {
    uint32_t number;
    size_t salt_length, tag;
    uint64_t last_policy;
    const uint8_t *key, *salt;
} suite;

static const suite suites[2] = {
    {DELUGASH_SUITE_CM_HMAC, 14, 10, 3, key, salt},
    {DELUGASH_SUITE_GCM, 12, 16, 2, gcm_key, gcm_salt},
};

/* Session memory of exactly the size asked for, so that a tool can see a step beyond it. */
static uint64_t *memory(void)
{
    uint64_t *words = calloc(delugash_size(), sizeof *words);
    if (words == NULL)
        exit(2);
    return words;
}

static uint64_t *session_of(const suite *of, uint64_t policy, uint32_t way)
{
    uint64_t *s = memory();
    CHECK(delugash_make(s, delugash_size(), of->key, 16, of->salt, of->salt_length, policy, NULL, 0, of->number) == DELUGASH_OK);
    CHECK(delugash_add(s, delugash_size(), 0xcafebabe, way, 0) == DELUGASH_OK);
    return s;
}

static uint64_t *session(uint64_t policy, uint32_t way)
{
    return session_of(&suites[0], policy, way);
}

static void published_packet_both_ways(void)
{
    uint64_t *sender = session(1, DELUGASH_SENDING), *receiver = session(1, DELUGASH_RECEIVING);
    uint8_t buf[60];
    memset(buf, 0x55, sizeof buf);
    memcpy(buf, plain, sizeof plain);
    delugash_answer a = delugash_protect(sender, delugash_size(), buf, sizeof buf, sizeof plain);
    CHECK(a.number == DELUGASH_OK && a.length == sizeof wire);
    CHECK(memcmp(buf, wire, sizeof wire) == 0);
    CHECK(buf[46] == 0x55 && buf[59] == 0x55);
    a = delugash_unprotect(receiver, delugash_size(), buf, sizeof buf, sizeof wire);
    CHECK(a.number == DELUGASH_OK && a.length == sizeof plain);
    CHECK(memcmp(buf, plain, sizeof plain) == 0 && memcmp(buf + 36, wire + 36, 10) == 0);
    memcpy(buf, wire, sizeof wire);
    a = delugash_unprotect(receiver, delugash_size(), buf, sizeof buf, sizeof wire);
    CHECK(a.number == DELUGASH_REPEAT && a.length == 0);
    CHECK(memcmp(buf, wire, sizeof wire) == 0);
    free(sender);
    free(receiver);
}

/* Session memory can be moved: a copy goes on where the other stood. */
static void memory_moves(void)
{
    uint64_t *receiver = session(1, DELUGASH_RECEIVING), *moved = memory();
    memcpy(moved, receiver, delugash_size() * sizeof *moved);
    free(receiver);
    uint8_t buf[46];
    memcpy(buf, wire, sizeof wire);
    CHECK(delugash_unprotect(moved, delugash_size(), buf, sizeof buf, sizeof wire).number == DELUGASH_OK);
    free(moved);
}

static void refusals_leave_everything(void)
{
    uint64_t *s = session(1, DELUGASH_RECEIVING), *before = memory();
    memcpy(before, s, delugash_size() * sizeof *s);
    uint8_t buf[46], forged[46];
    memcpy(forged, wire, sizeof wire);
    forged[30] ^= 0x80;
    memcpy(buf, forged, sizeof buf);
    CHECK(delugash_unprotect(s, delugash_size(), buf, sizeof buf, sizeof buf).number == DELUGASH_TAG);
    CHECK(delugash_unprotect(s, delugash_size(), buf, sizeof buf, 47).number == DELUGASH_LENGTH);
    CHECK(delugash_unprotect(s, delugash_size(), buf, sizeof buf, SIZE_MAX).number == DELUGASH_LENGTH);
    CHECK(delugash_unprotect(s, delugash_size(), buf, sizeof buf, 21).number == DELUGASH_SHORT);
    CHECK(delugash_protect(s, delugash_size(), buf, sizeof buf, 36).number == DELUGASH_PROFILE);
    CHECK(delugash_add(s, delugash_size(), 0xcafebabe, DELUGASH_SENDING, 0) == DELUGASH_TWICE);
    CHECK(delugash_add(s, delugash_size(), 1, 2, 0) == DELUGASH_WAY);
    CHECK(memcmp(buf, forged, sizeof buf) == 0);
    CHECK(memcmp(s, before, delugash_size() * sizeof *s) == 0);
    free(s);
    free(before);
}

/* Whether a receiver under this policy gives a packet back, and as this. */
static int given_back(uint64_t policy, const uint8_t *sent, size_t n, const uint8_t *expected)
{
    uint64_t *s = session(policy, DELUGASH_RECEIVING);
    uint8_t buf[50];
    memcpy(buf, sent, n);
    delugash_answer a = delugash_unprotect(s, delugash_size(), buf, sizeof buf, n);
    free(s);
    return a.number == DELUGASH_OK && a.length == n - 10 && memcmp(buf, expected, n - 10) == 0;
}

/* Required Cryptex refuses contributors without an extension. It takes them in their Cryptex form, and a packet that has neither; other policies take all. */
static void required_means_required(void)
{
    uint64_t *s = session(DELUGASH_CRYPTEX_REQUIRED, DELUGASH_RECEIVING), *before = memory();
    uint8_t buf[46];
    memcpy(before, s, delugash_size() * sizeof *s);
    memcpy(buf, in_clear, sizeof in_clear);
    delugash_answer a = delugash_unprotect(s, delugash_size(), buf, sizeof buf, sizeof in_clear);
    CHECK(a.number == DELUGASH_PROFILE && a.length == 0);
    /* one byte too few for the contributors before the tag */
    CHECK(delugash_unprotect(s, delugash_size(), buf, sizeof buf, 29).number == DELUGASH_HEADER);
    CHECK(memcmp(buf, in_clear, sizeof in_clear) == 0 && memcmp(s, before, delugash_size() * sizeof *s) == 0);
    CHECK(given_back(DELUGASH_CRYPTEX_REQUIRED, with_block_wire, sizeof with_block_wire, with_block));
    CHECK(given_back(DELUGASH_CRYPTEX_REQUIRED, bare_wire, sizeof bare_wire, bare));
    CHECK(given_back(DELUGASH_PLAIN, in_clear, sizeof in_clear, with_contributors));
    CHECK(given_back(DELUGASH_CRYPTEX, in_clear, sizeof in_clear, with_contributors));
    CHECK(given_back(DELUGASH_MASK, in_clear, sizeof in_clear, with_contributors));
    free(s);
    free(before);
}

static void wrong_memory(void)
{
    uint64_t *s = session(0, DELUGASH_SENDING), few[1] = {0x5555};
    uint8_t buf[46];
    memcpy(buf, plain, sizeof plain);
    CHECK(delugash_protect(s, delugash_size() - 1, buf, sizeof buf, 36).number == DELUGASH_MEMORY);
    CHECK(delugash_unprotect(few, 1, buf, sizeof buf, 46).number == DELUGASH_MEMORY);
    CHECK(delugash_add(few, 0, 1, DELUGASH_SENDING, 0) == DELUGASH_MEMORY);
    CHECK(delugash_make(few, 1, key, sizeof key, salt, sizeof salt, 0, key, 0, DELUGASH_SUITE_CM_HMAC) == DELUGASH_MEMORY);
    CHECK(delugash_make(few, 1, gcm_key, sizeof gcm_key, gcm_salt, sizeof gcm_salt, 0, key, 0, DELUGASH_SUITE_GCM) == DELUGASH_MEMORY);
    CHECK(delugash_make(few, 1, key, sizeof key, salt, sizeof salt, 0, key, 0, 2) == DELUGASH_MEMORY);
    CHECK(few[0] == 0x5555 && memcmp(buf, plain, sizeof plain) == 0);
    free(s);
}

static void making(void)
{
    uint64_t *s = session(0, DELUGASH_SENDING);
    CHECK(delugash_make(s, delugash_size(), key, 15, salt, sizeof salt, 0, key, 0, DELUGASH_SUITE_CM_HMAC) == DELUGASH_KEYS);
    /* a refused making leaves the unmade session, which takes no stream */
    CHECK(delugash_add(s, delugash_size(), 5, DELUGASH_SENDING, 0) == DELUGASH_KEYS);
    CHECK(delugash_make(s, delugash_size(), key, sizeof key, salt, sizeof salt, 4, key, 0, DELUGASH_SUITE_CM_HMAC) == DELUGASH_POLICY);
    CHECK(delugash_make(s, delugash_size(), key, sizeof key, salt, 13, 9, key, 0, DELUGASH_SUITE_CM_HMAC) == DELUGASH_KEYS);
    CHECK(delugash_make(s, delugash_size(), key, sizeof key, salt, sizeof salt, 3, key, 16, DELUGASH_SUITE_CM_HMAC) == DELUGASH_OK);
    for (uint32_t i = 0; i < 32; i++)
        CHECK(delugash_add(s, delugash_size(), i, i % 2, i) == DELUGASH_OK);
    CHECK(delugash_add(s, delugash_size(), 32, DELUGASH_SENDING, 0) == DELUGASH_FULL);
    free(s);
}

/* Every length of key and salt about the right ones, and every policy, with both suites, each in the memory of a made session. KEYS comes before POLICY;
 * each refusal leaves the same memory, that of the unmade session. */
static void making_with_both_suites(void)
{
    static const size_t keys[] = {0, 15, 16, 17}, salts[] = {0, 11, 12, 13, 14, 15};
    static const uint64_t policies[] = {0, 1, 2, 3, 4, UINT64_MAX};
    uint8_t bytes[17] = {0};
    uint64_t *s = memory(), *unmade = session(0, DELUGASH_SENDING);
    CHECK(delugash_make(unmade, delugash_size(), key, 15, salt, 14, 0, NULL, 0, DELUGASH_SUITE_CM_HMAC) == DELUGASH_KEYS);
    for (int i = 0; i < 2; i++)
        for (size_t k = 0; k < sizeof keys / sizeof *keys; k++)
            for (size_t l = 0; l < sizeof salts / sizeof *salts; l++)
                for (size_t p = 0; p < sizeof policies / sizeof *policies; p++) {
                    int right = keys[k] == 16 && salts[l] == suites[i].salt_length;
                    uint32_t expected = !right ? DELUGASH_KEYS : policies[p] > suites[i].last_policy ? DELUGASH_POLICY : DELUGASH_OK;
                    CHECK(delugash_make(s, delugash_size(), key, 16, salt, 14, 0, NULL, 0, DELUGASH_SUITE_CM_HMAC) == DELUGASH_OK);
                    CHECK(delugash_make(s, delugash_size(), bytes, keys[k], bytes, salts[l], policies[p], NULL, 0, suites[i].number) == expected);
                    CHECK((memcmp(s, unmade, delugash_size() * sizeof *s) == 0) == (expected != DELUGASH_OK));
                    CHECK(delugash_add(s, delugash_size(), 5, DELUGASH_SENDING, 0) == (expected == DELUGASH_OK ? DELUGASH_OK : DELUGASH_KEYS));
                }
    free(s);
    free(unmade);
}

/* A suite that is neither is refused before anything else is looked at but the memory's length; the session that was there goes on. */
static void no_such_suite(void)
{
    static const uint32_t numbers[] = {2, 3, 256, 257, 0x10000, 0x80000000, 0x80000001, 0xffffffff};
    uint64_t *s = session_of(&suites[1], 1, DELUGASH_RECEIVING), *before = memory();
    uint8_t buf[52];
    memcpy(before, s, delugash_size() * sizeof *s);
    for (size_t i = 0; i < sizeof numbers / sizeof *numbers; i++) {
        CHECK(delugash_make(s, delugash_size(), key, 16, salt, 14, 0, NULL, 0, numbers[i]) == DELUGASH_SUITE);
        CHECK(delugash_make(s, delugash_size(), gcm_key, 16, gcm_salt, 12, 0, NULL, 0, numbers[i]) == DELUGASH_SUITE);
        CHECK(delugash_make(s, delugash_size(), NULL, 0, NULL, 0, 4, NULL, 0, numbers[i]) == DELUGASH_SUITE);
        CHECK(delugash_make(s, delugash_size() - 1, NULL, 0, NULL, 0, 4, NULL, 0, numbers[i]) == DELUGASH_MEMORY);
        CHECK(memcmp(s, before, delugash_size() * sizeof *s) == 0);
    }
    memcpy(buf, gcm_published[0].wire, sizeof buf);
    CHECK(delugash_unprotect(s, delugash_size(), buf, sizeof buf, sizeof buf).number == DELUGASH_OK);
    free(s);
    free(before);
}

/* RFC 9335, A.2.1 to A.2.6, one after another through the same two sessions, then each once more. */
static void published_gcm_packets_both_ways(void)
{
    for (uint64_t policy = DELUGASH_CRYPTEX; policy <= DELUGASH_CRYPTEX_REQUIRED; policy++) {
        uint64_t *sender = session_of(&suites[1], policy, DELUGASH_SENDING), *receiver = session_of(&suites[1], policy, DELUGASH_RECEIVING);
        for (int i = 0; i < 6; i++) {
            size_t n = gcm_published[i].n, m = n + 16;
            uint8_t buf[80];
            memset(buf, 0x55, sizeof buf);
            memcpy(buf, gcm_published[i].plain, n);
            delugash_answer a = delugash_protect(sender, delugash_size(), buf, sizeof buf, n);
            CHECK(a.number == DELUGASH_OK && a.length == m);
            CHECK(memcmp(buf, gcm_published[i].wire, m) == 0);
            CHECK(buf[m] == 0x55 && buf[79] == 0x55);
            a = delugash_unprotect(receiver, delugash_size(), buf, sizeof buf, m);
            CHECK(a.number == DELUGASH_OK && a.length == n);
            CHECK(memcmp(buf, gcm_published[i].plain, n) == 0 && memcmp(buf + n, gcm_published[i].wire + n, 16) == 0);
            CHECK(buf[m] == 0x55 && buf[79] == 0x55);
        }
        for (int i = 0; i < 6; i++) {
            uint8_t buf[60];
            memcpy(buf, gcm_published[i].wire, sizeof buf);
            CHECK(delugash_unprotect(receiver, delugash_size(), buf, sizeof buf, gcm_published[i].n + 16).number == DELUGASH_REPEAT);
            CHECK(memcmp(buf, gcm_published[i].wire, sizeof buf) == 0);
        }
        free(sender);
        free(receiver);
    }
}

/* A packet that Cryptex has nothing to hide in is the same under all three policies. */
static void bare_gcm_packet_both_ways(void)
{
    for (uint64_t policy = 0; policy <= DELUGASH_CRYPTEX_REQUIRED; policy++) {
        uint64_t *sender = session_of(&suites[1], policy, DELUGASH_SENDING), *receiver = session_of(&suites[1], policy, DELUGASH_RECEIVING);
        uint8_t buf[44];
        memcpy(buf, gcm_bare, sizeof gcm_bare);
        CHECK(delugash_protect(sender, delugash_size(), buf, sizeof buf, sizeof gcm_bare).length == sizeof buf);
        CHECK(memcmp(buf, gcm_bare_wire, sizeof buf) == 0);
        CHECK(delugash_unprotect(receiver, delugash_size(), buf, sizeof buf, sizeof buf).length == sizeof gcm_bare);
        CHECK(memcmp(buf, gcm_bare, sizeof gcm_bare) == 0);
        free(sender);
        free(receiver);
    }
}

/* A published packet with any bit of any byte turned over is refused, for its tag wherever nothing that is looked at before can be wrong with it; buffer and
 * session stay, and the right packet is taken after all of them. So the tag is over all that goes in clear and all that is encrypted, and every byte of the
 * tag counts. */
static void every_bit_counts(const suite *of, const uint8_t *sent, size_t m)
{
    uint64_t *s = session_of(of, DELUGASH_CRYPTEX, DELUGASH_RECEIVING), *before = memory();
    size_t extension = 12 + 4 * (size_t)(sent[0] & 0x0f);
    memcpy(before, s, delugash_size() * sizeof *s);
    for (size_t bit = 0; bit < 8 * m; bit++) {
        uint8_t forged[60], buf[60];
        size_t at = bit / 8;
        memcpy(forged, sent, m);
        forged[at] ^= (uint8_t)(1u << bit % 8);
        memcpy(buf, forged, m);
        delugash_answer a = delugash_unprotect(s, delugash_size(), buf, m, m);
        /* the first byte has the version and how many contributors, the SSRC names the stream, and the extension header ends in a count */
        int looked_at = at == 0 || (at >= 8 && at < 12) || ((sent[0] & 0x10) && (at == extension + 2 || at == extension + 3));
        CHECK(looked_at ? a.number != DELUGASH_OK : a.number == DELUGASH_TAG);
        CHECK(a.length == 0 && memcmp(buf, forged, m) == 0);
        CHECK(memcmp(s, before, delugash_size() * sizeof *s) == 0);
    }
    uint8_t buf[60];
    memcpy(buf, sent, m);
    CHECK(delugash_unprotect(s, delugash_size(), buf, m, m).length == m - of->tag);
    free(s);
    free(before);
}

static void wrong_bits(void)
{
    every_bit_counts(&suites[0], wire, sizeof wire);
    every_bit_counts(&suites[0], with_block_wire, sizeof with_block_wire);
    for (int i = 0; i < 6; i++)
        every_bit_counts(&suites[1], gcm_published[i].wire, gcm_published[i].n + 16);
    every_bit_counts(&suites[1], gcm_bare_wire, sizeof gcm_bare_wire);
}

/* A packet of zeros with this first byte and of the tests' stream, in memory of exactly this length. */
static uint8_t *zeros(uint8_t first, size_t length)
{
    uint8_t *buf = calloc(length, 1);
    if (buf == NULL)
        exit(2);
    buf[0] = first;
    memcpy(buf + 8, "\xca\xfe\xba\xbe", 4);
    return buf;
}

/* What protecting such a packet of n bytes gives, in a session of its own: the new length, or the number below 0. */
static long sent_length(const suite *of, uint64_t policy, uint8_t first, size_t n, size_t length)
{
    uint64_t *s = session_of(of, policy, DELUGASH_SENDING);
    uint8_t *buf = zeros(first, length);
    delugash_answer a = delugash_protect(s, delugash_size(), buf, length, n);
    free(s);
    free(buf);
    return a.number == DELUGASH_OK ? (long)a.length : -(long)a.number;
}

/* LARGE and ROOM on both sides of their limits, with the tag's length and, under Cryptex with a contributor, the added block's. */
static void limits_of_sending(void)
{
    for (int i = 0; i < 2; i++) {
        const suite *of = &suites[i];
        size_t t = of->tag;
        for (uint64_t policy = 0; policy <= of->last_policy; policy++) {
            int cryptex = policy == DELUGASH_CRYPTEX || policy == DELUGASH_CRYPTEX_REQUIRED;
            for (uint8_t first = 0x80; first <= 0x81; first++) {
                size_t growth = t + (cryptex && first == 0x81 ? 4 : 0);
                CHECK(growth <= DELUGASH_MAX_GROWTH);
                CHECK(sent_length(of, policy, first, 2048 - growth, 2048) == 2048);
                CHECK(sent_length(of, policy, first, 2048 - growth, 2047) == -DELUGASH_ROOM);
                CHECK(sent_length(of, policy, first, 2049 - growth, 4096) == -DELUGASH_LARGE);
                CHECK(sent_length(of, policy, first, 2049 - growth, 2048) == -DELUGASH_LARGE);
                CHECK(sent_length(of, policy, first, 100, 100 + growth) == (long)(100 + growth));
                CHECK(sent_length(of, policy, first, 100, 99 + growth) == -DELUGASH_ROOM);
                CHECK(sent_length(of, policy, first, 11, 100) == -DELUGASH_SHORT);
            }
            CHECK(sent_length(of, policy, 0x80, 12, 12 + t) == (long)(12 + t));
            CHECK(sent_length(of, policy, 0x81, 15, 100) == -DELUGASH_HEADER);
        }
    }
    CHECK(DELUGASH_MAX_GROWTH == 20 && sent_length(&suites[1], DELUGASH_CRYPTEX, 0x81, 100, 200) == 100 + DELUGASH_MAX_GROWTH);
}

/* A packet whose header ends it: so many contributors, and so many words of extension block, or no extension below 0. The tag follows at once. Told shorter
 * by a byte or more, it is SHORT where fixed header and tag do not fit, and HEADER where the rest of the header does not. */
static void header_ends_at_the_tag(const suite *of, unsigned contributors, int words)
{
    size_t head = 12 + 4 * contributors + (words < 0 ? 0 : 4 + 4 * (size_t)words), m = head + of->tag;
    uint64_t *sender = session_of(of, DELUGASH_PLAIN, DELUGASH_SENDING), *receiver = session_of(of, DELUGASH_PLAIN, DELUGASH_RECEIVING);
    uint8_t *buf = zeros((uint8_t)(0x80 | (words < 0 ? 0 : 0x10) | contributors), m);
    if (words >= 0) {
        memcpy(buf + 12 + 4 * contributors, "\xbe\xde\x00", 3);
        buf[15 + 4 * contributors] = (uint8_t)words;
    }
    CHECK(delugash_protect(sender, delugash_size(), buf, m, head).length == m);
    for (size_t n = 0; n < m; n++)
        CHECK(delugash_unprotect(receiver, delugash_size(), buf, m, n).number == (n < 12 + of->tag ? DELUGASH_SHORT : DELUGASH_HEADER));
    CHECK(delugash_unprotect(receiver, delugash_size(), buf, m, m).length == head);
    free(sender);
    free(receiver);
    free(buf);
}

static void limits_of_receiving(void)
{
    for (int i = 0; i < 2; i++) {
        const suite *of = &suites[i];
        for (unsigned contributors = 0; contributors <= 15; contributors++)
            for (int words = -1; words <= 8; words++)
                header_ends_at_the_tag(of, contributors, words);
        uint64_t *sender = session_of(of, DELUGASH_PLAIN, DELUGASH_SENDING), *receiver = session_of(of, DELUGASH_PLAIN, DELUGASH_RECEIVING);
        uint8_t *buf = zeros(0x80, 2049);
        CHECK(delugash_protect(sender, delugash_size(), buf, 2049, 2048 - of->tag).length == 2048);
        CHECK(delugash_unprotect(receiver, delugash_size(), buf, 2049, 2049).number == DELUGASH_LARGE);
        CHECK(delugash_unprotect(receiver, delugash_size(), buf, 2048, 2049).number == DELUGASH_LENGTH);
        CHECK(delugash_unprotect(receiver, delugash_size(), buf, 2048, 2047).number == DELUGASH_TAG);
        CHECK(delugash_unprotect(receiver, delugash_size(), buf, 2048, 2048).length == 2048 - of->tag);
        free(sender);
        free(receiver);
        free(buf);
    }
}

/* Required Cryptex refuses contributors or an extension in clear with GCM too; the other policies take them. */
static void required_means_required_with_gcm(void)
{
    /* up to 2 contributors, without an extension and with an empty one */
    static const uint8_t firsts[] = {0x80, 0x81, 0x82, 0x90, 0x91, 0x92};
    for (size_t i = 0; i < sizeof firsts; i++) {
        uint64_t *sender = session_of(&suites[1], DELUGASH_PLAIN, DELUGASH_SENDING);
        uint8_t *sent = zeros(firsts[i], 66), buf[66];
        CHECK(delugash_protect(sender, delugash_size(), sent, 66, 50).length == 66);
        for (uint64_t policy = 0; policy <= DELUGASH_CRYPTEX_REQUIRED; policy++) {
            uint64_t *receiver = session_of(&suites[1], policy, DELUGASH_RECEIVING);
            memcpy(buf, sent, sizeof buf);
            delugash_answer a = delugash_unprotect(receiver, delugash_size(), buf, sizeof buf, sizeof buf);
            CHECK(a.number == (policy == DELUGASH_CRYPTEX_REQUIRED && firsts[i] != 0x80 ? DELUGASH_PROFILE : DELUGASH_OK));
            free(receiver);
        }
        free(sender);
        free(sent);
    }
}

/* A packet of the other suite is refused for its tag, also where both derive the same cipher key: the first suite's salt is GCM's and two zeros. */
static void crossed_suites(void)
{
    static const uint8_t longer[14] = {0xa0, 0xa1, 0xa2, 0xa3, 0xa4, 0xa5, 0xa6, 0xa7, 0xa8, 0xa9, 0xaa, 0xab, 0, 0};
    static const suite alike[2] = {{DELUGASH_SUITE_CM_HMAC, 14, 10, 3, gcm_key, longer}, {DELUGASH_SUITE_GCM, 12, 16, 2, gcm_key, gcm_salt}};
    for (int i = 0; i < 2; i++)
        for (uint64_t policy = 0; policy <= DELUGASH_CRYPTEX_REQUIRED; policy++) {
            uint64_t *sender = session_of(&alike[i], policy, DELUGASH_SENDING), *before = memory();
            uint64_t *other = session_of(&alike[1 - i], policy, DELUGASH_RECEIVING), *own = session_of(&alike[i], policy, DELUGASH_RECEIVING);
            uint8_t sent[60], buf[60];
            memcpy(sent, gcm_published[2].plain, gcm_published[2].n);
            size_t m = delugash_protect(sender, delugash_size(), sent, sizeof sent, gcm_published[2].n).length;
            CHECK(m == gcm_published[2].n + alike[i].tag);
            memcpy(buf, sent, sizeof buf);
            memcpy(before, other, delugash_size() * sizeof *other);
            CHECK(delugash_unprotect(other, delugash_size(), buf, sizeof buf, m).number == DELUGASH_TAG);
            CHECK(memcmp(buf, sent, sizeof buf) == 0 && memcmp(other, before, delugash_size() * sizeof *other) == 0);
            CHECK(delugash_unprotect(own, delugash_size(), buf, sizeof buf, m).length == gcm_published[2].n);
            free(sender);
            free(before);
            free(other);
            free(own);
        }
}

/* The rollover counter is a part of the index with GCM too, though nothing is appended for it: another one gives other bytes, and is refused. */
static void rollover_with_gcm(void)
{
    static const uint32_t rollovers[] = {0, 1, 0x10000, 0xffffffff};
    for (size_t i = 0; i < 4; i++)
        for (size_t k = 0; k < 4; k++) {
            uint64_t *sender = memory(), *receiver = memory();
            uint8_t buf[44];
            for (int r = 0; r < 2; r++) {
                CHECK(delugash_make(r ? receiver : sender, delugash_size(), gcm_key, 16, gcm_salt, 12, 0, NULL, 0, DELUGASH_SUITE_GCM) == DELUGASH_OK);
                CHECK(delugash_add(r ? receiver : sender, delugash_size(), 0xcafebabe, r ? DELUGASH_RECEIVING : DELUGASH_SENDING, rollovers[r ? k : i])
                    == DELUGASH_OK);
            }
            memcpy(buf, gcm_bare, sizeof gcm_bare);
            CHECK(delugash_protect(sender, delugash_size(), buf, sizeof buf, sizeof gcm_bare).length == sizeof buf);
            CHECK((memcmp(buf, gcm_bare_wire, sizeof buf) == 0) == (i == 0));
            CHECK(delugash_unprotect(receiver, delugash_size(), buf, sizeof buf, sizeof buf).number == (i == k ? DELUGASH_OK : DELUGASH_TAG));
            free(sender);
            free(receiver);
        }
}

/* Memory that holds no made session counts as of the first suite: never made, or where a making with GCM was refused. */
static void unmade_is_of_the_first_suite(void)
{
    for (int round = 0; round < 3; round++) {
        uint64_t *s = memory();
        uint8_t *buf = zeros(0x81, 4096);
        if (round == 1)
            CHECK(delugash_make(s, delugash_size(), gcm_key, 16, gcm_salt, 12, DELUGASH_MASK, NULL, 0, DELUGASH_SUITE_GCM) == DELUGASH_POLICY);
        if (round == 2)
            CHECK(delugash_make(s, delugash_size(), gcm_key, 16, salt, 14, 0, NULL, 0, DELUGASH_SUITE_GCM) == DELUGASH_KEYS);
        CHECK(delugash_unprotect(s, delugash_size(), buf, 4096, 21).number == DELUGASH_SHORT);
        CHECK(delugash_unprotect(s, delugash_size(), buf, 4096, 22).number == DELUGASH_HEADER);
        CHECK(delugash_unprotect(s, delugash_size(), buf, 4096, 25).number == DELUGASH_HEADER);
        CHECK(delugash_unprotect(s, delugash_size(), buf, 4096, 26).number == DELUGASH_STREAM);
        CHECK(delugash_protect(s, delugash_size(), buf, 4096, 2038).number == DELUGASH_STREAM);
        CHECK(delugash_protect(s, delugash_size(), buf, 2047, 2038).number == DELUGASH_ROOM);
        CHECK(delugash_protect(s, delugash_size(), buf, 4096, 2039).number == DELUGASH_LARGE);
        CHECK(delugash_add(s, delugash_size(), 5, DELUGASH_SENDING, 0) == DELUGASH_KEYS);
        free(s);
        free(buf);
    }
}

/* A pointer whose length is 0 may be anything: nothing is read or written through it. */
static void no_memory(void)
{
    uint64_t *s = session(0, DELUGASH_SENDING), *before = memory();
    void *const pointers[2] = {NULL, (void *)(uintptr_t)1};
    memcpy(before, s, delugash_size() * sizeof *s);
    for (int i = 0; i < 2; i++) {
        void *p = pointers[i];
        CHECK(delugash_protect(s, delugash_size(), p, 0, 0).number == DELUGASH_SHORT);
        CHECK(delugash_protect(s, delugash_size(), p, 0, 1).number == DELUGASH_LENGTH);
        CHECK(delugash_unprotect(s, delugash_size(), p, 0, 0).number == DELUGASH_SHORT);
        CHECK(delugash_protect(p, 0, p, 0, 0).number == DELUGASH_MEMORY);
        CHECK(delugash_unprotect(p, 0, p, 0, 0).number == DELUGASH_MEMORY);
        CHECK(delugash_make(p, 0, p, 0, p, 0, 0, p, 0, DELUGASH_SUITE_GCM) == DELUGASH_MEMORY);
        CHECK(delugash_make(s, delugash_size(), p, 0, p, 0, 0, p, 0, 2) == DELUGASH_SUITE);
        CHECK(delugash_add(p, 0, 1, DELUGASH_SENDING, 0) == DELUGASH_MEMORY);
        CHECK(delugash_find(p, 0, 1).number == DELUGASH_SHORT);
        CHECK(delugash_stretch(p, 0, p, 0, 1, 0, 0, p, 0) == DELUGASH_SIZES);
        CHECK(delugash_stretch(key, sizeof key, salt, sizeof salt, 1, 0, 7, p, 0) == DELUGASH_OK);
        CHECK(memcmp(s, before, delugash_size() * sizeof *s) == 0);
    }
    for (int i = 0; i < 2; i++) {
        void *p = pointers[i];
        CHECK(delugash_make(s, delugash_size(), key, sizeof key, salt, sizeof salt, DELUGASH_MASK, p, 0, DELUGASH_SUITE_CM_HMAC) == DELUGASH_OK);
        CHECK(delugash_make(s, delugash_size(), gcm_key, sizeof gcm_key, gcm_salt, sizeof gcm_salt, 0, p, 0, DELUGASH_SUITE_GCM) == DELUGASH_OK);
        for (uint32_t suite = 0; suite < 2; suite++) {
            CHECK(delugash_make(s, delugash_size(), p, 0, suites[suite].salt, suites[suite].salt_length, 0, p, 0, suite) == DELUGASH_KEYS);
            CHECK(delugash_make(s, delugash_size(), key, sizeof key, p, 0, 0, p, 0, suite) == DELUGASH_KEYS);
        }
    }
    free(s);
    free(before);
}

static void finding(void)
{
    static const uint8_t packet[40] = "\x90\x0f\x12\x34\xde\xca\xfb\xad\xca\xfe\xba\xbe\xbe\xde\x00\x06\x17\x41\x42\x73"
                                      "\xa4\x75\x26\x27\x48\x22\x00\x00\xc8\x30\x8e\x46\x55\x99\x63\x86\xb3\x95\xfb\x00";
    delugash_part p = delugash_find(packet, sizeof packet, 2);
    CHECK(p.number == DELUGASH_OK && p.begin == 26 && p.length == 3);
    CHECK(delugash_find(packet, sizeof packet, 5).number == DELUGASH_ABSENT);
    CHECK(delugash_find(packet, sizeof packet, 258).number == DELUGASH_ABSENT);
    CHECK(delugash_find(packet, 11, 2).number == DELUGASH_SHORT);
    CHECK(delugash_find(packet, 39, 2).number == DELUGASH_HEADER);
}

/* RFC 3711, B.2: session key and salt, and of the keystream for SSRC 0 and index 0 the blocks 0 to 2 and 65279 to 65281. */
static const uint8_t stream_key[16] = "\x2b\x7e\x15\x16\x28\xae\xd2\xa6\xab\xf7\x15\x88\x09\xcf\x4f\x3c";
static const uint8_t stream_salt[14] = "\xf0\xf1\xf2\xf3\xf4\xf5\xf6\xf7\xf8\xf9\xfa\xfb\xfc\xfd";
static const struct {
    uint64_t start;
    uint8_t bytes[48];
} published[2] = {
    {0, "\xe0\x3e\xad\x09\x35\xc9\x5e\x80\xe1\x66\xb1\x6d\xd9\x2b\x4e\xb4\xd2\x35\x13\x16\x2b\x02\xd0\xf7"
        "\x2a\x43\xa2\xfe\x4a\x5f\x97\xab\x41\xe9\x5b\x3b\xb0\xa2\xe8\xdd\x47\x79\x01\xe4\xfc\xa8\x94\xc0"},
    {1044464, "\xec\x8c\xdf\x73\x98\x60\x7c\xb0\xf2\xd2\x16\x75\xea\x9e\xa1\xe4\x36\x2b\x7c\x3c\x67\x73\x51\x63"
              "\x18\xa0\x77\xd7\xfc\x50\x73\xae\x6a\x2c\xc3\x78\x78\x89\x37\x4f\xbe\xb4\xc8\x1b\x17\xba\x6c\x44"},
};

/* A stretch of that keystream, on memory of exactly its length. */
static uint32_t stretch(uint64_t start, uint8_t *bytes, size_t length)
{
    uint8_t *buf = malloc(length);
    if (buf == NULL && length > 0)
        exit(2);
    if (length > 0)
        memcpy(buf, bytes, length);
    uint32_t number = delugash_stretch(stream_key, sizeof stream_key, stream_salt, sizeof stream_salt, 0, 0, start, buf, length);
    if (length > 0)
        memcpy(bytes, buf, length);
    free(buf);
    return number;
}

/* Cut anywhere, the front and the back are what the whole is. */
static void neighbouring_stretches(void)
{
    for (int i = 0; i < 2; i++)
        for (size_t cut = 1; cut < 48; cut++) {
            uint8_t buf[48] = {0};
            CHECK(stretch(published[i].start + cut, buf + cut, 48 - cut) == DELUGASH_OK);
            CHECK(stretch(published[i].start, buf, cut) == DELUGASH_OK);
            CHECK(memcmp(buf, published[i].bytes, 48) == 0);
        }
}

/* No index is refused. RFC 3711's equation has the upper bits of one above 2^48 meet the SSRC's lower ones: where the two are equal, they cancel each other. */
static void index_above_a_packets(void)
{
    for (uint64_t high = 1; high <= 0xffff; high += 0x1111) {
        uint8_t buf[48] = {0};
        CHECK(delugash_stretch(stream_key, 16, stream_salt, 14, (uint32_t)high, high << 48, published[1].start, buf, 48) == DELUGASH_OK);
        CHECK(memcmp(buf, published[1].bytes, 48) == 0);
    }
}

/* RFC 9335, A.1.3, under the session key and salt of RFC 3711's B.3: contributors, and then block and payload, the extension header left out. */
static void packet_in_two_stretches(void)
{
    static const uint8_t session_key[16] = "\xc6\x1e\x7a\x93\x74\x4f\x39\xee\x10\x73\x4a\xfe\x3f\xf7\xa0\x87";
    static const uint8_t session_salt[14] = "\x30\xcb\xbc\x08\x86\x3d\x8c\x85\xd4\x9d\xb3\x4a\x9a\xe1";
    uint8_t front[8] = "\x00\x01\xe2\x40\x00\x00\xb2\x6e";
    uint8_t back[20] = "\x51\x00\x02\x00\xab\xab\xab\xab\xab\xab\xab\xab\xab\xab\xab\xab\xab\xab\xab\xab";
    CHECK(delugash_stretch(session_key, 16, session_salt, 14, 0xcafebabe, 0x1238, 8, back, 20) == DELUGASH_OK);
    CHECK(delugash_stretch(session_key, 16, session_salt, 14, 0xcafebabe, 0x1238, 0, front, 8) == DELUGASH_OK);
    CHECK(memcmp(front, "\x8b\xb6\xe1\x2b\x5c\xff\x16\xdd", 8) == 0);
    CHECK(memcmp(back, "\x92\x83\x8c\x8c\x09\xe5\x83\x93\xe1\xde\x3a\x9a\x74\x73\x4d\x67\x45\x67\x13\x38", 20) == 0);
}

static void refused_stretches(void)
{
    static const uint64_t too_far[] = {1048576 - 47, 1048576, 1048577, UINT64_MAX - 48, UINT64_MAX - 47, UINT64_MAX};
    uint8_t buf[48], before[48];
    memset(before, 0xab, sizeof before);
    memcpy(buf, before, sizeof buf);
    for (size_t i = 0; i < sizeof too_far / sizeof *too_far; i++)
        CHECK(stretch(too_far[i], buf, 48) == DELUGASH_LARGE);
    CHECK(delugash_stretch(stream_key, 15, stream_salt, 14, 0, 0, 0, buf, 48) == DELUGASH_SIZES);
    CHECK(delugash_stretch(stream_key, 16, stream_salt, 13, 0, 0, 0, buf, 48) == DELUGASH_SIZES);
    CHECK(delugash_stretch(published[0].bytes, 17, stream_salt, 14, 0, 0, UINT64_MAX, buf, 48) == DELUGASH_SIZES);
    CHECK(delugash_stretch(stream_key, 16, stream_key, 15, 0, 0, UINT64_MAX, buf, 48) == DELUGASH_SIZES);
    CHECK(memcmp(buf, before, sizeof buf) == 0);
    /* the last bytes of the keystream, and no bytes behind them; the same once more gives them back */
    CHECK(stretch(1048576 - 48, buf, 48) == DELUGASH_OK && memcmp(buf, before, sizeof buf) != 0);
    CHECK(stretch(1048576 - 48, buf, 48) == DELUGASH_OK && memcmp(buf, before, sizeof buf) == 0);
    CHECK(stretch(1048576, buf, 0) == DELUGASH_OK);
    CHECK(stretch(1048577, buf, 0) == DELUGASH_LARGE);
    CHECK(stretch(UINT64_MAX, buf, 0) == DELUGASH_LARGE);
}

static uint64_t state = 1;

static uint64_t next(void)
{
    uint64_t z = (state += 0x9e3779b97f4a7c15u);
    z = (z ^ (z >> 30)) * 0xbf58476d1ce4e5b9u;
    z = (z ^ (z >> 27)) * 0x94d049bb133111ebu;
    return z ^ (z >> 31);
}

/* Memory with anything in it; in every second round that of a made session, under any policy with any suite, with a fifth of its other words overwritten:
 * there a stream is often found. The first word has both; that of the mask with GCM, which no making leaves, is among them. */
static void any_words(uint64_t *s, const uint64_t *made, int round)
{
    for (size_t i = 0; i < delugash_size(); i++)
        s[i] = round % 2 == 0 || next() % 5 == 0 ? next() : made[i];
    if (round % 2)
        s[0] = made[0] + next() % 8;
}

/* A packet of any bytes, but of version 2, with at most one contributor, and of the session's stream. */
static void any_packet(uint8_t *buf, size_t length)
{
    for (size_t i = 0; i < length; i++)
        buf[i] = (uint8_t)next();
    if (length > 0)
        buf[0] = 0x80 | (buf[0] & 0x11);
    if (length >= 12)
        memcpy(buf + 8, "\xca\xfe\xba\xbe", 4);
}

/* Calls on any memory answer a number of the list, and a refusal changes nothing. */
static void any_memory(void)
{
    size_t words = delugash_size();
    uint64_t *s = memory(), *before = memory(), *made[2] = {session(0, DELUGASH_SENDING), session(0, DELUGASH_RECEIVING)};
    unsigned results = 0, indices = 0, wrong_calls = 0, wrong_adds = 0;
    for (int round = 0; round < 20000; round++) {
        size_t length = 1 + next() % 80, n = next() % (length + 2);
        uint8_t *buf = malloc(length), copy[80];
        if (buf == NULL)
            exit(2);
        int sends = round % 4 < 2;
        any_words(s, made[!sends], round);
        any_packet(buf, length);
        memcpy(copy, buf, length);
        memcpy(before, s, words * sizeof *s);
        delugash_answer a = sends ? delugash_protect(s, words, buf, length, n) : delugash_unprotect(s, words, buf, length, n);
        int changed = a.length != 0 || memcmp(s, before, words * sizeof *s) != 0 || memcmp(buf, copy, length) != 0;
        results += a.number == DELUGASH_OK;
        indices += a.number >= DELUGASH_ORDER;
        wrong_calls += a.number > DELUGASH_TAG || (a.number != DELUGASH_OK && changed);
        uint32_t added = delugash_add(s, words, (uint32_t)next(), (uint32_t)(next() % 2), (uint32_t)next());
        wrong_adds += added != DELUGASH_OK && added != DELUGASH_KEYS && added != DELUGASH_TWICE && added != DELUGASH_FULL;
        free(buf);
    }
    CHECK(wrong_calls == 0 && wrong_adds == 0);
    /* and the rounds were worth it: packets were taken, and others refused by their stream's record */
    CHECK(results > 100 && indices > 100);
    free(s);
    free(before);
    free(made[0]);
    free(made[1]);
}

int main(void)
{
    CHECK(delugash_size() == DELUGASH_WORDS);
    published_packet_both_ways();
    memory_moves();
    refusals_leave_everything();
    required_means_required();
    wrong_memory();
    making();
    making_with_both_suites();
    no_such_suite();
    published_gcm_packets_both_ways();
    bare_gcm_packet_both_ways();
    wrong_bits();
    limits_of_sending();
    limits_of_receiving();
    required_means_required_with_gcm();
    crossed_suites();
    rollover_with_gcm();
    unmade_is_of_the_first_suite();
    no_memory();
    finding();
    neighbouring_stretches();
    index_above_a_packets();
    packet_in_two_stretches();
    refused_stretches();
    any_memory();
    printf("C interface: %u facts hold, %u do not\n", passed, failed);
    return failed != 0;
}
