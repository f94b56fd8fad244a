/* The modes and keys that every library gets, and giving up. */
#include "engine.h"

#include <stdio.h>
#include <stdlib.h>

const mode modes[MODES] = {
    {"0", DELUGASH_SUITE_CM_HMAC, DELUGASH_PLAIN}, {"1", DELUGASH_SUITE_CM_HMAC, DELUGASH_CRYPTEX}, {"3", DELUGASH_SUITE_CM_HMAC, DELUGASH_MASK},
    {"gcm0", DELUGASH_SUITE_GCM, DELUGASH_PLAIN},  {"gcm1", DELUGASH_SUITE_GCM, DELUGASH_CRYPTEX},
};

/* RFC 3711, B.3. */
const uint8_t master_key[KEY_LENGTH] = {0xe1, 0xf9, 0x7a, 0x0d, 0x3e, 0x01, 0x8b, 0xe0,
                                        0xd6, 0x4f, 0xa3, 0x2c, 0x06, 0xde, 0x41, 0x39};
const uint8_t master_salt[LONGEST_SALT] = {0x0e, 0xc6, 0x75, 0xad, 0x49, 0x8a, 0xfe, 0xeb, 0xb6, 0x96, 0x0b, 0x3a, 0xab, 0xe6};

/* Two of the three elements of the packets in batch.c. */
const uint8_t listed_ids[LISTED] = {1, 2};

void give_up(const char *what, const char *which)
{
    fprintf(stderr, "%s: %s\n", what, which);
    exit(1);
}
