/* RFC 9335, A.1.1: a packet under Cryptex, protected and unprotected through the library, and what each call changed.
 *
 *     tests/library
 *     gcc -Wall -Wextra -Werror -Iinclude examples/c/a_1_1.c target/staticlib/libdelugash.a -o a_1_1 && ./a_1_1
 */
#include "delugash.h"

#include <stdio.h>
#include <string.h>

static const uint8_t key[16] = {0xe1, 0xf9, 0x7a, 0x0d, 0x3e, 0x01, 0x8b, 0xe0, 0xd6, 0x4f, 0xa3, 0x2c, 0x06, 0xde, 0x41, 0x39};
static const uint8_t salt[14] = {0x0e, 0xc6, 0x75, 0xad, 0x49, 0x8a, 0xfe, 0xeb, 0xb6, 0x96, 0x0b, 0x3a, 0xab, 0xe6};

static const uint8_t packet[36] = {
    0x90, 0x0f, 0x12, 0x35, 0xde, 0xca, 0xfb, 0xad, 0xca, 0xfe, 0xba, 0xbe, 0xbe, 0xde, 0x00, 0x01, 0x51, 0x00,
    0x02, 0x00, 0xab, 0xab, 0xab, 0xab, 0xab, 0xab, 0xab, 0xab, 0xab, 0xab, 0xab, 0xab, 0xab, 0xab, 0xab, 0xab};

static void print(const char *name, const uint8_t *bytes, size_t length)
{
    printf("%s", name);
    for (size_t i = 0; i < length; i++)
        printf("%02x", bytes[i]);
    printf("\n");
}

/* The words of a session that differ from what they were. */
static void changed(const char *name, const uint64_t *before, const uint64_t *after)
{
    printf("%s", name);
    for (size_t i = 0; i < DELUGASH_WORDS; i++)
        if (before[i] != after[i])
            printf(" %zu", i);
    printf("\n");
}

static int open_session(uint64_t *session, uint32_t way)
{
    if (delugash_size() != DELUGASH_WORDS)
        return 0;
    if (delugash_make(session, DELUGASH_WORDS, key, sizeof key, salt, sizeof salt, DELUGASH_CRYPTEX, NULL, 0, DELUGASH_SUITE_CM_HMAC) != DELUGASH_OK)
        return 0;
    return delugash_add(session, DELUGASH_WORDS, 0xcafebabe, way, 0) == DELUGASH_OK;
}

int main(void)
{
    static uint64_t sender[DELUGASH_WORDS], receiver[DELUGASH_WORDS], before[DELUGASH_WORDS];
    uint8_t buf[46] = {0};

    if (!open_session(sender, DELUGASH_SENDING) || !open_session(receiver, DELUGASH_RECEIVING))
        return 1;

    memcpy(buf, packet, sizeof packet);
    print("packet ", buf, sizeof packet);

    memcpy(before, sender, sizeof before);
    delugash_answer sent = delugash_protect(sender, DELUGASH_WORDS, buf, sizeof buf, sizeof packet);
    printf("protect %u, %zu bytes\n", sent.number, sent.length);
    print("wire   ", buf, sent.length);
    changed("sender's words that changed:", before, sender);

    memcpy(before, receiver, sizeof before);
    delugash_answer got = delugash_unprotect(receiver, DELUGASH_WORDS, buf, sizeof buf, sent.length);
    printf("unprotect %u, %zu bytes\n", got.number, got.length);
    print("packet ", buf, got.length);
    changed("receiver's words that changed:", before, receiver);

    delugash_part part = delugash_find(buf, got.length, 5);
    printf("element 5: %u, begins at %zu, %zu bytes\n", part.number, part.begin, part.length);

    /* the same packet again is refused, and changes nothing */
    uint8_t again[46];
    memcpy(again, packet, sizeof packet);
    memcpy(before, sender, sizeof before);
    delugash_answer order = delugash_protect(sender, DELUGASH_WORDS, again, sizeof again, sizeof packet);
    printf("protect again %u, %zu bytes\n", order.number, order.length);
    changed("sender's words that changed:", before, sender);

    return !(sent.number == DELUGASH_OK && got.number == DELUGASH_OK && got.length == sizeof packet && memcmp(buf, packet, sizeof packet) == 0
        && part.number == DELUGASH_OK && order.number == DELUGASH_ORDER);
}
