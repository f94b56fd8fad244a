/* Random packets through libsrtp and through the library, both ways; and the same as a call script, with the answers that the script has to get.
 *
 *     peer SEED COUNT SCRIPT ANSWERS
 *
 * The first suite under policy 0, and under policy 3 where the extension's block is whole elements with all padding at the end: elsewhere libsrtp departs from
 * RFC 6904. GCM under policy 0, where libsrtp was built with it: else that is said, and no packet is counted as compared with GCM.
 * Each list of calls has a sender and a receiver on each side. What libsrtp sends must be what the library sends; the library has to give back what was handed
 * to libsrtp, and libsrtp what was handed to the library. */
#include "delugash.h"

#include <srtp2/srtp.h>
#include <stdint.h>
#include <stdio.h>
#include <stdlib.h>
#include <string.h>

static uint64_t state;

/* splitmix64 */
static uint64_t next(void)
{
    uint64_t z = (state += 0x9e3779b97f4a7c15u);
    z = (z ^ (z >> 30)) * 0xbf58476d1ce4e5b9u;
    z = (z ^ (z >> 27)) * 0x94d049bb133111ebu;
    return z ^ (z >> 31);
}

static unsigned below(unsigned n)
{
    return (unsigned)(next() % n);
}

static void fill(uint8_t *to, unsigned n)
{
    for (unsigned i = 0; i < n; i++)
        to[i] = (uint8_t)next();
}

static void hex(FILE *f, const uint8_t *b, unsigned n)
{
    if (n == 0)
        fputc('-', f);
    for (unsigned i = 0; i < n; i++)
        fprintf(f, "%02x", b[i]);
}

static void must(srtp_err_status_t got, const char *what)
{
    if (got != srtp_err_status_ok) {
        fprintf(stderr, "libsrtp refused %s with status %d\n", what, got);
        exit(1);
    }
}

/* One or two bytes of element header; ids 1 to 14 and 1 to 255. A two-byte element may be empty. */
static unsigned put_elements(uint8_t *block, int two_byte)
{
    unsigned at = 0;
    for (unsigned k = below(5); k > 0; k--) {
        unsigned length = two_byte ? below(12) : 1 + below(12);
        if (two_byte) {
            block[at++] = (uint8_t)(1 + below(255));
            block[at++] = (uint8_t)length;
        } else {
            block[at++] = (uint8_t)((1 + below(14)) << 4 | (length - 1));
        }
        fill(block + at, length);
        at += length;
    }
    while (at % 4 != 0)
        block[at++] = 0;
    return at;
}

static unsigned put_packet(uint8_t *p, uint32_t ssrc, uint16_t seq)
{
    unsigned cc = below(3) ? 0 : below(16), x = below(3) != 0, at = 12;
    p[0] = (uint8_t)(0x80 | x << 4 | cc);
    p[1] = (uint8_t)next();
    p[2] = (uint8_t)(seq >> 8);
    p[3] = (uint8_t)seq;
    fill(p + 4, 4);
    for (int i = 0; i < 4; i++)
        p[8 + i] = (uint8_t)(ssrc >> (24 - 8 * i));
    fill(p + at, 4 * cc);
    at += 4 * cc;
    if (x) {
        int two_byte = (int)below(2);
        unsigned n = put_elements(p + at + 4, two_byte);
        p[at] = two_byte ? 0x10 : 0xbe;
        p[at + 1] = two_byte ? 0x00 : 0xde;
        p[at + 2] = (uint8_t)(n / 4 >> 8);
        p[at + 3] = (uint8_t)(n / 4);
        at += 4 + n;
    }
    unsigned payload = below(8) ? below(160) : below(1200);
    fill(p + at, payload);
    return at + payload;
}

/* What a list of calls is made of: its keys, policy, ids and suite. */
struct setting {
    uint32_t suite;
    unsigned policy, salt, tag, count;
    uint8_t key[30], ids[8];
    int ints[8];
};

struct list {
    struct setting with;
    srtp_t sender, receiver;
    uint64_t own_sender[DELUGASH_WORDS], own_receiver[DELUGASH_WORDS];
    uint32_t ssrc;
    uint16_t seq;
};

/* The library's answer has to be a result, and the bytes have to be these. */
static void same(const struct list *l, const char *call, delugash_answer a, const uint8_t *got, const uint8_t *expected, unsigned n)
{
    if (a.number == DELUGASH_OK && a.length == n && memcmp(got, expected, n) == 0)
        return;
    fprintf(stderr, "%s, suite %u, policy %u, SSRC %08x, sequence number %u: number %u, length %zu, and libsrtp has %u bytes", call, (unsigned)l->with.suite,
            l->with.policy, (unsigned)l->ssrc, l->seq, (unsigned)a.number, a.length, n);
    fputs("\nthe library: ", stderr);
    hex(stderr, got, n);
    fputs("\nlibsrtp:     ", stderr);
    hex(stderr, expected, n);
    fputc('\n', stderr);
    exit(1);
}

static srtp_err_status_t open_peer(srtp_t *session, struct setting *with, uint32_t ssrc)
{
    srtp_policy_t p;
    memset(&p, 0, sizeof p);
    if (with->suite == DELUGASH_SUITE_GCM) {
        srtp_crypto_policy_set_aes_gcm_128_16_auth(&p.rtp);
        srtp_crypto_policy_set_aes_gcm_128_16_auth(&p.rtcp);
    } else {
        srtp_crypto_policy_set_rtp_default(&p.rtp);
        srtp_crypto_policy_set_rtcp_default(&p.rtcp);
    }
    p.ssrc.type = ssrc_specific;
    p.ssrc.value = ssrc;
    p.key = with->key;
    p.window_size = 128;
    p.enc_xtn_hdr = with->count ? with->ints : NULL;
    p.enc_xtn_hdr_count = (int)with->count;
    return srtp_create(session, &p);
}

static void open_own(uint64_t *session, const struct setting *with, uint32_t ssrc, uint32_t way)
{
    if (delugash_make(session, DELUGASH_WORDS, with->key, 16, with->key + 16, with->salt, with->policy, with->ids, with->count, with->suite) != DELUGASH_OK
        || delugash_add(session, DELUGASH_WORDS, ssrc, way, 0) != DELUGASH_OK) {
        fprintf(stderr, "the library refused a session or a stream, suite %u, policy %u\n", (unsigned)with->suite, with->policy);
        exit(1);
    }
}

static struct setting choose(int gcm)
{
    struct setting with = {gcm ? DELUGASH_SUITE_GCM : DELUGASH_SUITE_CM_HMAC, !gcm && below(2) ? 3 : 0, gcm ? 12 : 14, gcm ? 16 : 10, 0, {0}, {0}, {0}};
    with.count = with.policy == 3 ? 1 + below(8) : 0;
    fill(with.key, 16 + with.salt);
    for (unsigned i = 0; i < with.count; i++)
        with.ints[i] = with.ids[i] = (uint8_t)(1 + below(below(2) ? 14 : 255));
    return with;
}

/* A list of calls begins: a key, a policy and a set of ids of its own. */
static void begin(struct list *l, int gcm, FILE *script, FILE *answers, unsigned number)
{
    l->with = choose(gcm);
    l->ssrc = (uint32_t)next();
    l->seq = (uint16_t)next();
    must(open_peer(&l->sender, &l->with, l->ssrc), "a session");
    must(open_peer(&l->receiver, &l->with, l->ssrc), "a session");
    open_own(l->own_sender, &l->with, l->ssrc, DELUGASH_SENDING);
    open_own(l->own_receiver, &l->with, l->ssrc, DELUGASH_RECEIVING);
    fprintf(script, "case list %u\n", number);
    fprintf(answers, "case list %u\n", number);
    for (int s = 0; s < 2; s++) {
        fprintf(script, "make %d ", s);
        hex(script, l->with.key, 16);
        fputc(' ', script);
        hex(script, l->with.key + 16, l->with.salt);
        fprintf(script, " %u ", l->with.policy);
        hex(script, l->with.ids, l->with.count);
        fprintf(script, "%s\nadd %d %08x %c 0\n", gcm ? " gcm" : "", s, (unsigned)l->ssrc, s ? 'r' : 's');
        fputs("0\n0\n", answers);
    }
}

/* A packet from each side to both. */
static void packet(struct list *l, FILE *script, FILE *answers)
{
    uint8_t plain[4096] = {0}, wire[4096], own[4096], back[4096];
    l->seq = (uint16_t)(l->seq + 1 + (below(6) ? 0 : below(20000)));
    unsigned n = put_packet(plain, l->ssrc, l->seq), tag = l->with.tag;
    memcpy(wire, plain, sizeof plain);
    int m = (int)n, k;
    must(srtp_protect(l->sender, wire, &m), "a packet");
    memcpy(own, plain, sizeof own);
    same(l, "protect", delugash_protect(l->own_sender, DELUGASH_WORDS, own, n + tag, n), own, wire, (unsigned)m);
    memcpy(back, wire, sizeof back);
    same(l, "unprotect", delugash_unprotect(l->own_receiver, DELUGASH_WORDS, back, (unsigned)m, (unsigned)m), back, plain, n);
    k = m;
    must(srtp_unprotect(l->receiver, own, &k), "what the library sent");
    same(l, "libsrtp's unprotect", (delugash_answer){DELUGASH_OK, (size_t)k}, own, plain, n);
    fprintf(script, "protect 0 %u ", n);
    hex(script, plain, n + tag);
    fprintf(script, "\nunprotect 1 %d ", m);
    hex(script, wire, (unsigned)m);
    fputc('\n', script);
    fprintf(answers, "0 %d ", m);
    hex(answers, wire, (unsigned)m);
    fprintf(answers, "\n0 %u ", n);
    hex(answers, plain, n);
    hex(answers, wire + n, tag);
    fputc('\n', answers);
}

/* libsrtp can be built without GCM: a session of it is refused then. */
static int peer_has_gcm(void)
{
    struct setting with = {DELUGASH_SUITE_GCM, 0, 12, 16, 0, {0}, {0}, {0}};
    srtp_t session;
    if (open_peer(&session, &with, 1) != srtp_err_status_ok)
        return 0;
    srtp_dealloc(session);
    return 1;
}

int main(int argc, char **argv)
{
    if (argc != 5) {
        fprintf(stderr, "usage: peer SEED COUNT SCRIPT ANSWERS\n");
        return 2;
    }
    state = strtoull(argv[1], NULL, 10);
    unsigned long count = strtoul(argv[2], NULL, 10);
    FILE *script = fopen(argv[3], "w"), *answers = fopen(argv[4], "w");
    if (script == NULL || answers == NULL) {
        fprintf(stderr, "cannot write %s or %s\n", argv[3], argv[4]);
        return 1;
    }
    must(srtp_init(), "to start");
    int has_gcm = peer_has_gcm();
    unsigned long packets[2] = {0, 0};
    for (unsigned number = 0; count > 0; number++) {
        static struct list l;
        /* the suite that has had fewer packets, so that each gets half */
        int gcm = has_gcm && packets[1] <= packets[0];
        begin(&l, gcm, script, answers, number);
        for (unsigned k = 1 + below(40); k > 0 && count > 0; k--, count--, packets[gcm]++)
            packet(&l, script, answers);
        srtp_dealloc(l.sender);
        srtp_dealloc(l.receiver);
    }
    printf("%lu packets with AES_CM_128_HMAC_SHA1_80, ", packets[0]);
    if (has_gcm)
        printf("%lu with AEAD_AES_128_GCM", packets[1]);
    else
        printf("NONE with AEAD_AES_128_GCM: this libsrtp was built without it");
    printf("\n");
    return fclose(script) != 0 || fclose(answers) != 0;
}
