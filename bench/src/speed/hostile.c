/* What a packet costs that is refused, beside one that is accepted: a stranger can send the first kind as often as he likes. */
#include "pass.h"
#include "tables.h"

#include <stdio.h>
#include <string.h>

/* HIGHEST: the sequence number of the packet that the session has accepted before the hostile one comes. DATAGRAM: the most that UDP over IPv4 brings. */
enum { HIGHEST = 1000, DATAGRAM = 65507 };

/* A hostile packet: n as the call is told it, and the buffer that the call is told of. */
typedef struct {
    uint8_t *bytes;
    size_t n;
    size_t room;
    size_t tag;
} lure;

typedef struct {
    const char *name;
    uint32_t number;
    mode m;
    /* The only length of the accepted packet beside it that makes sense, or 0. */
    size_t length;
    /* Makes the hostile packet out of an accepted one. */
    void (*spoil)(lure *l);
} kind;

static void told_too_long(lure *l) { l->room = l->n - 1; }
static void too_short(lure *l) { l->n = 21; }
static void version_1(lure *l) { l->bytes[0] = (l->bytes[0] & 0x3f) | 0x40; }
static void unknown_stream(lure *l) { l->bytes[11] ^= 0x80; }
static void last_byte_of_tag(lure *l) { l->bytes[l->n - 1] ^= 1; }
static void too_large(lure *l) { l->n = 2049; }
static void as_it_is(lure *l) { (void)l; }

static void far_behind(lure *l)
{
    l->bytes[2] = 0;
    l->bytes[3] = 1;
}

/* An extension block in the clear that fills the packet. Under the mask it is the dearest of all: every stage before the tag has work to do. */
static void all_elements(lure *l)
{
    size_t words = (l->n - l->tag - 16) / 4;
    l->bytes[0] |= 0x10;
    l->bytes[12] = 0xbe;
    l->bytes[13] = 0xde;
    l->bytes[14] = (uint8_t)(words >> 8);
    l->bytes[15] = (uint8_t)words;
    /* Elements of one byte, which take the longest to read. */
    for (size_t i = 0; i < 4 * words; i += 2) {
        l->bytes[16 + i] = 0x10;
        l->bytes[17 + i] = 0;
    }
}

static void block_into_the_tag(lure *l)
{
    all_elements(l);
    l->bytes[14] = 0xff;
}

static void last_element_too_long(lure *l)
{
    all_elements(l);
    size_t words = (size_t)l->bytes[14] << 8 | l->bytes[15];
    l->bytes[16 + 4 * words - 2] = 0x1f;
}

/* Under the mask the elements of a packet that is too large are read too, since ELEMENT comes before LARGE. */
static void too_large_and_all_elements(lure *l)
{
    l->n = DATAGRAM;
    all_elements(l);
}

#define PLAIN {"0", DELUGASH_SUITE_CM_HMAC, DELUGASH_PLAIN}
#define REQUIRED {"2", DELUGASH_SUITE_CM_HMAC, DELUGASH_CRYPTEX_REQUIRED}
#define MASK {"3", DELUGASH_SUITE_CM_HMAC, DELUGASH_MASK}
#define GCM {"gcm0", DELUGASH_SUITE_GCM, DELUGASH_PLAIN}

/* With GCM the ones that a key is used for, and the last before: all others end in the same code for both suites. */
static const kind kinds[] = {
    {"LENGTH", DELUGASH_LENGTH, PLAIN, 0, told_too_long},
    {"SHORT", DELUGASH_SHORT, PLAIN, 22, too_short},
    {"VERSION", DELUGASH_VERSION, PLAIN, 0, version_1},
    {"HEADER", DELUGASH_HEADER, PLAIN, 0, block_into_the_tag},
    {"PROFILE", DELUGASH_PROFILE, REQUIRED, 0, all_elements},
    {"ELEMENT", DELUGASH_ELEMENT, MASK, 0, last_element_too_long},
    {"LARGE", DELUGASH_LARGE, PLAIN, DELUGASH_MAX_PACKET, too_large},
    {"LARGE", DELUGASH_LARGE, MASK, DELUGASH_MAX_PACKET, too_large_and_all_elements},
    {"STREAM", DELUGASH_STREAM, PLAIN, 0, unknown_stream},
    {"OLD", DELUGASH_OLD, PLAIN, 0, far_behind},
    {"REPEAT", DELUGASH_REPEAT, PLAIN, 0, as_it_is},
    {"REPEAT", DELUGASH_REPEAT, GCM, 0, as_it_is},
    {"TAG", DELUGASH_TAG, PLAIN, 0, last_byte_of_tag},
    {"TAG", DELUGASH_TAG, MASK, 0, all_elements},
    {"TAG", DELUGASH_TAG, GCM, 0, last_byte_of_tag},
};

static void protected_packets(const engine *ours, mode m, batch b, size_t n, size_t first)
{
    fill(b, m.policy, FIRST_SSRC + MOST_STREAMS - 1, n - tag_of(m), first);
    pass_fresh(ours, m, SENDING, MOST_STREAMS, b, n - tag_of(m));
}

static double time_refusals(const kind *k, uint64_t *session, const lure *l, size_t calls)
{
    size_t wrong = 0;
    double start = thread_time();
    for (size_t i = 0; i < calls; i++)
        wrong += delugash_unprotect(session, delugash_size(), l->bytes, l->room, l->n).number != k->number;
    double end = thread_time();
    if (wrong != 0)
        give_up("a hostile packet got another number", k->name);
    return (end - start) / (double)calls;
}

/* A hostile packet again and again, in a session of 32 streams that has accepted a packet of the last one. */
static double hostile_round(const engine *ours, const kind *k, size_t n, size_t calls, size_t *told)
{
    uint8_t bytes[DATAGRAM] = {0};
    lure l = {bytes, n, sizeof bytes, tag_of(k->m)};
    batch one = make_batch(1, n);
    void *session = ours->open(ours, k->m, RECEIVING, MOST_STREAMS);
    protected_packets(ours, k->m, one, n, HIGHEST);
    memcpy(bytes, packet_at(one, 0), n);
    pass(ours, k->m, RECEIVING, session, one, n);
    /* The tag is only looked at where the packet is new. */
    if (k->number == DELUGASH_TAG)
        bytes[3]++;
    k->spoil(&l);
    *told = l.n;
    double time = time_refusals(k, session, &l, calls);
    ours->close(ours, session);
    free_batch(one);
    return time;
}

static double accepted_round(const engine *ours, mode m, size_t n, batch b, size_t round)
{
    protected_packets(ours, m, b, n, round * b.count);
    return pass_fresh(ours, m, RECEIVING, MOST_STREAMS, b, n);
}

static void run_kind(const kind *k, size_t n, effort e)
{
    double refused[MOST_ROUNDS], accepted[MOST_ROUNDS], ratios[MOST_ROUNDS];
    size_t told = n;
    engine ours = our_engine();
    batch b = make_batch(e.packets, n);
    for (size_t r = 0; r < e.rounds; r++) {
        accepted[r] = accepted_round(&ours, k->m, n, b, r);
        refused[r] = hostile_round(&ours, k, n, e.packets, &told);
        ratios[r] = refused[r] / accepted[r];
    }
    spread ratio = spread_of(ratios, e.rounds);
    printf("hostile %s %s %zu %zu  %.1f  %.1f  %.4f %.4f %.4f\n", k->name, k->m.name, told, n, spread_of(refused, e.rounds).median,
           spread_of(accepted, e.rounds).median, ratio.median, ratio.low, ratio.high);
    fflush(stdout);
    free_batch(b);
}

void refuse(effort e)
{
    static const size_t lengths[] = {50, 210, 1210};
    for (size_t i = 0; i < sizeof kinds / sizeof *kinds; i++)
        if (kinds[i].length != 0)
            run_kind(&kinds[i], kinds[i].length, e);
        else
            for (size_t k = 0; k < sizeof lengths / sizeof *lengths; k++)
                run_kind(&kinds[i], lengths[k], e);
}
