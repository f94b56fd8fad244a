#include "ledger.h"

#include "delugash.h"

static int is_held(const ledger *l, uint64_t index)
{
    uint64_t i = index - l->first;
    return l->started && index >= l->first && i < LEDGER_SPAN && (l->held[i / 8] >> i % 8 & 1);
}

/* RFC 3711, 3.3.1, whose names s_l, ROC and v these are. Below 0 where ROC is 0 and v is one less. */
static int64_t guess(uint64_t highest, uint16_t sequence)
{
    int32_t s_l = highest & 0xffff, seq = sequence;
    int64_t roc = (int64_t)(highest >> 16), v = roc;
    if (s_l < 32768 && seq - s_l > 32768)
        v = roc - 1;
    if (s_l >= 32768 && s_l - 32768 > seq)
        v = roc + 1;
    return v * 65536 + seq;
}

uint32_t ledger_answer(const ledger *l, uint16_t sequence, uint64_t index)
{
    int64_t i = l->started ? guess(l->highest, sequence) : ((int64_t)l->rollover << 16) + sequence;
    if (i >= (int64_t)1 << 48)
        return DELUGASH_WORN;
    if (i < 0)
        return DELUGASH_OLD;
    if (l->started && (int64_t)l->highest - i >= 64)
        return DELUGASH_OLD;
    if (is_held(l, (uint64_t)i))
        return DELUGASH_REPEAT;
    /* A packet that is more than 32,768 away is taken for another one, whose tag it does not have. */
    return (uint64_t)i == index ? DELUGASH_OK : DELUGASH_TAG;
}

void ledger_take(ledger *l, uint64_t index)
{
    if (!l->started)
        l->first = l->highest = index;
    l->started = 1;
    if (index > l->highest)
        l->highest = index;
    uint64_t i = index - l->first;
    l->held[i / 8] |= (uint8_t)(1 << i % 8);
}
