/* The network: what is sent, what arrives, what is forged. */
#include "pair.h"

#include "check.h"
#include "craft.h"

enum { LONGEST_STEP = 32767, LONG_STEP = 4096 };

/* Mostly the next sequence number; gaps, long gaps, the longest that is allowed, and now and then one that is not. */
static uint64_t choose_step(dice *d, const stream *s)
{
    uint64_t chance = below(d, 10000);
    /* Near the end of what the ledger can hold, only small steps. */
    if (chance < 9000 || s->last - s->first > LEDGER_SPAN - LEDGER_SPAN / 4)
        return 1;
    if (chance < 9800)
        return 2 + below(d, 9);
    if (chance < 9978)
        return 11 + below(d, LONG_STEP - 10);
    /* The receiver can follow the longest step only if it has the packet before. */
    if (chance < 9980)
        return s->given_back.highest == s->last ? LONGEST_STEP : 1;
    return one_in(d, 2) ? 0 : 32768 + below(d, 32768);
}

static uint32_t sender_answer(const stream *s, uint64_t step)
{
    if (s->count == 0)
        return DELUGASH_OK;
    if (step == 0 || step > LONGEST_STEP)
        return DELUGASH_ORDER;
    return s->last + step >= (uint64_t)1 << 48 ? DELUGASH_WORN : DELUGASH_OK;
}

static void count_sent(pair *p, stream *s, uint64_t index, uint64_t step)
{
    if (s->count == 0)
        s->first = index;
    else
        p->counts.wraps += (index >> 16) - (s->last >> 16);
    s->last = index;
    s->step = step;
    s->count++;
}

/* Protects a random packet; gives what was sent, or NULL where it was rightly refused. */
static sent *send_packet(pair *p, stream *s)
{
    uint64_t step = choose_step(&p->d, s);
    uint64_t index = s->count == 0 ? ((uint64_t)s->rollover << 16) + below(&p->d, 65536) : s->last + step;
    sent *new = &s->history[s->count % HISTORY];
    buffer b;
    roll_bytes(&p->d, b.before + ROOM - 16, 16);
    memset(b.before, 0x5a, ROOM - 16);
    /* The longest that fits with a block that Cryptex adds and the tag. */
    size_t n = craft(&p->d, p->policy, DELUGASH_MAX_PACKET - 4 - p->tag, s->ssrc, (uint16_t)index, b.before);
    delugash_answer a = checked_call(p, s, index, delugash_protect, p->sender, &b, ROOM, n);
    uint32_t expected = sender_answer(s, step);
    if (a.number != expected)
        disagree(p, s, index, "protect", a.number, expected);
    p->counts.sent[a.number]++;
    if (a.number != DELUGASH_OK)
        return NULL;
    new->index = index;
    new->plain_length = restored(p->policy, b.before, n, new->plain);
    new->wire_length = new->plain_length + p->tag;
    /* The fixed header goes as it is; the rest is checked where it is given back. */
    check_result(p, s, index, &b, a.length, new->plain, 12, new->wire_length);
    memcpy(new->wire, b.after, ROOM);
    count_sent(p, s, index, step);
    return new;
}

/* A packet arrives as it was sent, for the first time or again. */
static void arrive(pair *p, stream *s, const sent *packet)
{
    buffer b;
    memcpy(b.before, packet->wire, ROOM);
    uint32_t expected = ledger_answer(&s->given_back, (uint16_t)packet->index, packet->index);
    delugash_answer a = checked_call(p, s, packet->index, delugash_unprotect, p->receiver, &b, ROOM, packet->wire_length);
    if (a.number != expected)
        disagree(p, s, packet->index, "unprotect", a.number, expected);
    p->counts.arrived[a.number]++;
    if (a.number != DELUGASH_OK)
        return;
    check_result(p, s, packet->index, &b, a.length, packet->plain, packet->plain_length, packet->plain_length);
    p->counts.late += packet->index < s->given_back.highest;
    ledger_take(&s->given_back, packet->index);
}

/* Changes a packet of n bytes in one way or another; gives the new n, and the buffer's length to tell. */
static size_t spoil(dice *d, uint8_t *bytes, size_t n, size_t *length)
{
    switch (below(d, 8)) {
    case 0:
        return below(d, n);
    case 1:
        roll_bytes(d, bytes + n, 20);
        return n + 1 + below(d, 20);
    case 2:
        *length = n - 1;
        return n;
    case 3:
        /* Headers are where most of the stages are. */
        bytes[below(d, 16)] ^= (uint8_t)(1 + below(d, 255));
        return n;
    default:
        bytes[below(d, n)] ^= (uint8_t)(1 + below(d, 255));
        return n;
    }
}

static void forge(pair *p, stream *s, const sent *packet)
{
    buffer b;
    size_t length = ROOM;
    memcpy(b.before, packet->wire, ROOM);
    size_t n = spoil(&p->d, b.before, packet->wire_length, &length);
    delugash_answer a = checked_call(p, s, packet->index, delugash_unprotect, p->receiver, &b, length, n);
    if (a.number == DELUGASH_OK)
        disagree(p, s, packet->index, "a forged packet was accepted (0 here stands for accepted, 14 for any refusal)", 0, DELUGASH_TAG);
    p->counts.forged[a.number]++;
}

/* One of the last packets, more often one of the very last. */
static const sent *any_sent(dice *d, const stream *s)
{
    uint64_t kept = s->count < HISTORY ? s->count : HISTORY;
    uint64_t back = below(d, one_in(d, 2) && kept > 16 ? 16 : kept);
    return &s->history[(s->count - 1 - back) % HISTORY];
}

/* The first packet always arrives, since it tells the receiver where the stream begins, and so do those after a long step: a receiver that is left more
 * than 32,768 behind cannot follow any more. */
static int gets_lost(dice *d, const stream *s)
{
    return s->count > 1 && s->step <= LONG_STEP && one_in(d, 6);
}

void step_pair(pair *p)
{
    stream *s = &p->streams[below(&p->d, STREAMS)];
    const sent *new = send_packet(p, s);
    if (one_in(&p->d, 5))
        forge(p, s, new != NULL && one_in(&p->d, 2) ? new : any_sent(&p->d, s));
    if (new != NULL && gets_lost(&p->d, s))
        p->counts.lost++;
    else if (new != NULL)
        arrive(p, s, new);
    if (one_in(&p->d, 2))
        arrive(p, s, any_sent(&p->d, s));
}
