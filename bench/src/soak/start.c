/* The sessions and streams of a run. */
#include "pair.h"

#include <stdio.h>
#include <stdlib.h>

static void need(uint32_t number, const char *call)
{
    if (number != DELUGASH_OK) {
        fprintf(stderr, "%s was refused with %u\n", call, (unsigned)number);
        exit(1);
    }
}

static void make_sessions(pair *p)
{
    uint8_t key[16], salt[14], ids[8];
    size_t salt_length = p->suite == DELUGASH_SUITE_GCM ? 12 : 14;
    roll_bytes(&p->d, key, sizeof key);
    roll_bytes(&p->d, salt, sizeof salt);
    /* Half of them one-byte ids, the others any. */
    roll_bytes(&p->d, ids, sizeof ids);
    for (size_t i = 0; i < sizeof ids; i += 2)
        ids[i] &= 0x0f;
    need(delugash_make(p->sender, DELUGASH_WORDS, key, sizeof key, salt, salt_length, p->policy, ids, sizeof ids, p->suite), "delugash_make");
    need(delugash_make(p->receiver, DELUGASH_WORDS, key, sizeof key, salt, salt_length, p->policy, ids, sizeof ids, p->suite), "delugash_make");
}

/* Some streams begin at index 0, some shortly before the last of all indices, the others anywhere. */
static uint32_t starting_rollover(dice *d, unsigned number)
{
    if (number < 2)
        return UINT32_MAX;
    if (number < 3)
        return UINT32_MAX - 2;
    if (number < 10)
        return 0;
    return (uint32_t)roll(d);
}

void start_run(pair *p, uint64_t run)
{
    p->run = run;
    /* Four policies of the first suite, and three with GCM. */
    p->suite = run % 7 < 4 ? DELUGASH_SUITE_CM_HMAC : DELUGASH_SUITE_GCM;
    p->policy = run % 7 % 4;
    p->tag = p->suite == DELUGASH_SUITE_GCM ? 16 : 10;
    p->d.state = p->seed + (run << 32);
    make_sessions(p);
    /* Every page is written, so that the process does not grow later. */
    memset(p->streams, 0, sizeof p->streams);
    uint32_t ssrc = (uint32_t)roll(&p->d);
    for (unsigned i = 0; i < STREAMS; i++) {
        stream *s = &p->streams[i];
        s->ssrc = ssrc + i;
        s->rollover = s->given_back.rollover = starting_rollover(&p->d, i);
        need(delugash_add(p->sender, DELUGASH_WORDS, s->ssrc, DELUGASH_SENDING, s->rollover), "delugash_add");
        need(delugash_add(p->receiver, DELUGASH_WORDS, s->ssrc, DELUGASH_RECEIVING, s->rollover), "delugash_add");
    }
}
