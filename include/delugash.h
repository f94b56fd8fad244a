/* Delugash: SRTP that is proved right. Link with libdelugash.a (`tests/library`).
 *
 * Plain SRTP (RFC 3711), Cryptex (RFC 9335) and encrypted header extension elements under a mask (RFC 6904). Suites AES_CM_128_HMAC_SHA1_80 and, but
 * for the mask, AEAD_AES_128_GCM (RFC 7714); key derivation rate 0, no MKI; no RTCP.
 *
 * For a programmer who has used libsrtp: there is no init, no allocation and no context of the library's own. A session is memory of yours,
 * delugash_size() words of 64 bits. It may be static, on the stack or on the heap; it may be moved and copied with memcpy; nothing has to be freed
 * (clear it when the keys should be gone). Streams are added one by one, up to 32, each for one SSRC and one way; there is no wildcard stream and no
 * stream template. A packet is protected or unprotected in its buffer, as with srtp_protect and srtp_unprotect, and the buffer's size is passed too.
 * The suite is a number that delugash_make takes, for all streams of the session; master key and salt are passed apart, not as one string.
 *
 * What a call can rely on, and what it need not: any length, number, packet or session memory may be passed, also memory that was never made or was
 * overwritten: it then counts as a session without streams, or as whatever session it happens to hold, and no call reads or writes outside what it
 * was lent. A refusal changes nothing (but delugash_make refused with _KEYS or _POLICY leaves a session that takes no stream). The caller's duty as to
 * memory is only this (delugash_make and delugash_stretch lay another on you: see their warnings):
 *   - as much memory as its length says belongs to a pointer; where the length is 0, the pointer may be anything, NULL too;
 *   - memory that a call may write (session, buf) overlaps no other memory of the same call;
 *   - no two threads are in calls on the same session at the same time. Calls on different sessions share nothing.
 *
 *     uint64_t session[DELUGASH_WORDS];
 *     if (delugash_make(session, DELUGASH_WORDS, key, 16, salt, 14, DELUGASH_CRYPTEX, NULL, 0, DELUGASH_SUITE_CM_HMAC) != DELUGASH_OK) ...
 *     if (delugash_add(session, DELUGASH_WORDS, 0xcafebabe, DELUGASH_SENDING, 0) != DELUGASH_OK) ...
 *     delugash_answer a = delugash_protect(session, DELUGASH_WORDS, buf, sizeof buf, n);
 *     if (a.number == DELUGASH_OK)
 *         send(socket, buf, a.length, 0);
 *
 * examples/c/a_1_1.c is a whole program.
 */
#ifndef DELUGASH_H
#define DELUGASH_H

#include <stddef.h>
#include <stdint.h>

#ifdef __cplusplus
extern "C" {
#endif

/* The words of a session, for arrays; delugash_size() gives the same number. */
#define DELUGASH_WORDS 285

/* The largest protected packet, and the most that protecting adds to a packet: the tag, which is longest with GCM, and under Cryptex at most a block of
 * four bytes. */
#define DELUGASH_MAX_PACKET 2048
#define DELUGASH_MAX_GROWTH 20

/* Policies. */
enum {
    DELUGASH_PLAIN = 0,            /* plain SRTP */
    DELUGASH_CRYPTEX = 1,          /* sends Cryptex, takes Cryptex and plain */
    DELUGASH_CRYPTEX_REQUIRED = 2, /* sends Cryptex; contributors or an extension that arrive in the clear are refused */
    DELUGASH_MASK = 3              /* encrypts the header extension elements whose ids are listed; not with GCM */
};

/* Suites. */
enum {
    DELUGASH_SUITE_CM_HMAC = 0, /* AES_CM_128_HMAC_SHA1_80: master salt of 14 bytes, tag of 10 */
    DELUGASH_SUITE_GCM = 1      /* AEAD_AES_128_GCM: master salt of 12 bytes, tag of 16 */
};

/* Ways of a stream. */
enum {
    DELUGASH_SENDING = 0,
    DELUGASH_RECEIVING = 1
};

/* What calls give back. Where several apply: DELUGASH_MEMORY, then DELUGASH_WAY or DELUGASH_SUITE; of a stretch DELUGASH_SIZES; then the smallest number.
 * The tag's length is the suite's; memory that holds no made session counts as of the first suite. */
enum {
    DELUGASH_OK = 0,
    DELUGASH_LENGTH = 1,    /* n is more than the buffer's length */
    DELUGASH_SHORT = 2,     /* fewer than 12 bytes; unprotect: fewer than 12 and the tag: 22, with GCM 28 */
    DELUGASH_VERSION = 3,   /* not RTP version 2 */
    DELUGASH_HEADER = 4,    /* contributors, extension header or block pass the packet's end (unprotect: the tag's start) */
    DELUGASH_PROFILE = 5,   /* protect: Cryptex cannot carry this extension; unprotect, required Cryptex: contributors or an extension in the clear */
    DELUGASH_ELEMENT = 6,   /* an extension element runs past its block */
    DELUGASH_LARGE = 7,     /* the protected packet is over 2,048 bytes; stretch: start + length is over 2^20 */
    DELUGASH_ROOM = 8,      /* the buffer is shorter than the protected packet */
    DELUGASH_STREAM = 9,    /* no stream for this SSRC and this way */
    DELUGASH_ORDER = 10,    /* protect: the sequence number does not go forward by 1 to 32,767 */
    DELUGASH_WORN = 11,     /* the 48-bit packet index is used up: make a session with new keys */
    DELUGASH_OLD = 12,      /* unprotect: 64 or more behind the highest packet accepted, or an index below 0 */
    DELUGASH_REPEAT = 13,   /* unprotect: accepted before */
    DELUGASH_TAG = 14,      /* unprotect: the authentication tag is wrong */
    DELUGASH_KEYS = 15,     /* make: key not 16 bytes or salt not 14, with GCM 12; add: the session is not made */
    DELUGASH_POLICY = 16,   /* make: policy above 3, with GCM above 2 */
    DELUGASH_TWICE = 17,    /* add: this SSRC is in the session already, either way */
    DELUGASH_FULL = 18,     /* add: 32 streams already */
    DELUGASH_ABSENT = 19,   /* find: no such element */
    DELUGASH_MEMORY = 100,  /* the session's memory is not DELUGASH_WORDS words */
    DELUGASH_WAY = 101,     /* add: the way is neither sending nor receiving */
    DELUGASH_SIZES = 102,   /* stretch: the key is not 16 bytes or the salt not 14 */
    DELUGASH_SUITE = 103    /* make: the suite is neither of the two */
};

typedef struct {
    uint32_t number; /* DELUGASH_OK or the number of a refusal */
    size_t length;   /* the packet's new length; 0 with a refusal */
} delugash_answer;

typedef struct {
    uint32_t number; /* DELUGASH_OK or the number of a refusal */
    size_t begin;    /* where in the packet the element's data begins; 0 with a refusal */
    size_t length;   /* how long it is, which may be 0 for an element that is there; 0 with a refusal */
} delugash_part;

/* The number of 64-bit words of a session. */
size_t delugash_size(void);

/* Makes a session in words[0 .. word_count) from a master key of 16 bytes, a master salt of the suite's length (14, with GCM 12), a policy, the ids (1 to
 * 255; a 0 is ignored) of the elements that DELUGASH_MASK encrypts, and a suite: `ids` may be NULL where id_count is 0. Gives DELUGASH_OK, _MEMORY, _SUITE,
 * _KEYS or _POLICY.
 *
 * WARNING: under one master key, no SSRC may send two different packets with the same index. A session sees to this for what it sends itself, and knows
 * nothing of others. So two sessions of one master key must not both send an SSRC from the same rollover counter: not one at each end, not one after
 * a restart, not a copy of the session's memory beside the session. Whoever catches two such packets has the XOR of what they encrypt without any key. With
 * GCM he gets more: the two tags mostly give him the key that authenticates, and packets that he changes, of any stream under that master key, are taken. */
uint32_t delugash_make(uint64_t *words, size_t word_count, const uint8_t *key, size_t key_length, const uint8_t *salt, size_t salt_length,
    uint64_t policy, const uint8_t *ids, size_t id_count, uint32_t suite);

/* Adds a stream, sending or receiving. Its first packet has the rollover counter `rollover`: 0 for a stream that starts with the session.
 * Gives DELUGASH_OK, _MEMORY, _WAY, _KEYS, _TWICE or _FULL. */
uint32_t delugash_add(uint64_t *words, size_t word_count, uint32_t ssrc, uint32_t way, uint32_t rollover);

/* Protects the packet in buf[0 .. n) in its place. The buffer needs room for up to DELUGASH_MAX_GROWTH bytes more. On DELUGASH_OK the packet to send is
 * buf[0 .. length), and the bytes after it are untouched. */
delugash_answer delugash_protect(uint64_t *words, size_t word_count, uint8_t *buf, size_t buf_length, size_t n);

/* Unprotects the packet in buf[0 .. n) in its place. On DELUGASH_OK the packet is buf[0 .. length), length being n - 10, with GCM n - 16, and the bytes
 * after it, the tag included, are untouched. */
delugash_answer delugash_unprotect(uint64_t *words, size_t word_count, uint8_t *buf, size_t buf_length, size_t n);

/* Finds the first header extension element with an id in a plain packet: not one that is still protected. Ids are 1 to 255; any other is absent. */
delugash_part delugash_find(const uint8_t *packet, size_t length, uint32_t id);

/* The keystream alone, for who encrypts a packet's front and back in separate moments: XORs onto buf[0 .. length) the AES-CM keystream of RFC 3711, 4.1.1, from its
 * byte `start` on. It uses no session. The same call decrypts. Two stretches that meet give what the joined one gives, wherever the joined one is not refused.
 * It is the keystream of DELUGASH_SUITE_CM_HMAC alone: a packet under GCM cannot be put together from stretches.
 *   - key and salt are those that RFC 3711, 4.3, derives for the session, 16 and 14 bytes. No call hands them out. Never pass the master ones: their keystream
 *     is the session keys.
 *   - index is the packet's: rollover counter * 65,536 + sequence number, below 2^48. A larger one is not refused, and is no packet's: its upper bits go onto the
 *     SSRC, so that it gives another SSRC's keystream. Never pass one.
 *   - start is 0 for the first byte that is encrypted, which is not the packet's first: the payload's or, under Cryptex, that of contributors, block and payload. The
 *     extension header uses none, so that block and payload follow at 4 * CC. An element under the mask takes RFC 6904's header key and salt, and start is the place of
 *     its data in the block.
 * Gives DELUGASH_OK; or _SIZES; or _LARGE where start + length is over 2^20, also for length 0. Look at the number: with a refusal the buffer is as it was, in clear,
 * and of two stretches the front can be encrypted while the back is refused.
 *
 * WARNING: keystream that is used twice gives the audio away. Whoever catches two buffers that were encrypted with the same bytes of keystream has the XOR of their plain
 * bytes without any key, which is mostly enough for both; who knows one has the other at once. So under one key and salt, byte k of the keystream of one SSRC and index
 * may never encrypt two different plain bytes: not in another stretch, not in a packet that delugash_protect sends under the same keys, not after a restart, not in
 * another box. Decrypting is no second use. And stretches of one packet may meet but must not overlap: a byte that gets its keystream twice is in clear again.
 * A session counts this for the packets that it sends itself; of stretches nothing is remembered. Nor does a stretch authenticate: bytes that were changed on their way
 * decrypt without a refusal. Where delugash_protect will do, use that. */
uint32_t delugash_stretch(const uint8_t *key, size_t key_length, const uint8_t *salt, size_t salt_length, uint32_t ssrc, uint64_t index,
    uint64_t start, uint8_t *buf, size_t length);

#ifdef __cplusplus
}
#endif

#endif
