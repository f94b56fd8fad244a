#include "pass.h"

#include "measure.h"

double pass(const engine *e, mode m, way w, void *session, batch b, size_t n)
{
    size_t (*call)(const engine *, void *, uint8_t *, size_t, size_t) = w == SENDING ? e->protect : e->unprotect;
    size_t expected = w == SENDING ? n + tag_of(m) : n - tag_of(m);
    size_t wrong = 0;
    double start = thread_time();
    for (size_t i = 0; i < b.count; i++)
        wrong += call(e, session, packet_at(b, i), b.stride, n) != expected;
    double end = thread_time();
    if (wrong != 0)
        give_up(w == SENDING ? "protect refused a packet" : "unprotect refused a packet", e->name);
    return (end - start) / (double)b.count;
}

double pass_fresh(const engine *e, mode m, way w, unsigned streams, batch b, size_t n)
{
    void *session = e->open(e, m, w, streams);
    double time = pass(e, m, w, session, b, n);
    e->close(e, session);
    return time;
}
