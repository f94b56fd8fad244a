/* Calls for callgrind to count: it is told to collect only inside counted_protect. */
#include "pass.h"
#include "tables.h"

/* Not inlined, so that it is there for callgrind by this name. */
__attribute__((noinline)) size_t counted_protect(const engine *e, void *session, uint8_t *packet, size_t room, size_t n);

size_t counted_protect(const engine *e, void *session, uint8_t *packet, size_t room, size_t n)
{
    /* The barrier keeps this from becoming a jump, which would end the collecting too early. */
    size_t length = e->protect(e, session, packet, room, n);
    __asm__ volatile("" ::: "memory");
    return length;
}

void count_instructions(const engine *e, mode m, size_t n, size_t calls)
{
    batch b = make_batch(calls, n + tag_of(m));
    fill(b, m.policy, FIRST_SSRC, n, 0);
    void *session = e->open(e, m, SENDING, 1);
    for (size_t i = 0; i < calls; i++)
        if (counted_protect(e, session, packet_at(b, i), b.stride, n) != n + tag_of(m))
            give_up("protect refused a packet", e->name);
    e->close(e, session);
    free_batch(b);
}
