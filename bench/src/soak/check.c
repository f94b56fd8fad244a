#include "check.h"

#include <stdio.h>
#include <stdlib.h>

void disagree(const pair *p, const stream *s, uint64_t index, const char *what, uint64_t library, uint64_t model)
{
    fprintf(stderr,
            "DISAGREEMENT at packet %llu (seed %llu, run %llu, suite %u, policy %llu), stream %d, SSRC %08x, index %llu, highest given back %llu\n"
            "%s: the library says %llu, the model %llu\n",
            (unsigned long long)p->packet, (unsigned long long)p->seed, (unsigned long long)p->run, (unsigned)p->suite, (unsigned long long)p->policy,
            (int)(s - p->streams), (unsigned)s->ssrc, (unsigned long long)index, (unsigned long long)s->given_back.highest, what, (unsigned long long)library,
            (unsigned long long)model);
    exit(1);
}

delugash_answer checked_call(const pair *p, const stream *s, uint64_t index, packet_call *call, uint64_t *session, buffer *b, size_t length, size_t n)
{
    uint64_t session_before[DELUGASH_WORDS];
    memcpy(session_before, session, sizeof session_before);
    memcpy(b->after, b->before, sizeof b->after);
    delugash_answer a = call(session, DELUGASH_WORDS, b->after, length, n);
    if (a.number == DELUGASH_OK)
        return a;
    if (a.number >= NUMBERS)
        disagree(p, s, index, "a number that no packet call gives", a.number, 0);
    if (a.length != 0)
        disagree(p, s, index, "length of a refusal", a.length, 0);
    if (memcmp(b->after, b->before, sizeof b->after) != 0)
        disagree(p, s, index, "a refusal changed the buffer (number, number)", a.number, a.number);
    if (memcmp(session, session_before, sizeof session_before) != 0)
        disagree(p, s, index, "a refusal changed the session (number, number)", a.number, a.number);
    return a;
}

void check_result(const pair *p, const stream *s, uint64_t index, const buffer *b, size_t library, const uint8_t *bytes, size_t count, size_t kept)
{
    for (size_t i = 0; i < count; i++)
        if (b->after[i] != bytes[i])
            disagree(p, s, index, "a byte of the packet", b->after[i], bytes[i]);
    if (library != kept)
        disagree(p, s, index, "length", library, kept);
    if (memcmp(b->after + kept, b->before + kept, ROOM - kept) != 0)
        disagree(p, s, index, "bytes changed after the packet (length, length)", library, kept);
}
