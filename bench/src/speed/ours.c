/* This library as an engine. */
#include "engine.h"

#include <stdlib.h>

static void *open_session(const engine *self, mode m, way w, unsigned streams)
{
    size_t words = delugash_size();
    uint64_t *session = calloc(words, sizeof *session);
    if (session == NULL)
        give_up("no memory", self->name);
    if (delugash_make(session, words, master_key, KEY_LENGTH, master_salt, salt_of(m), m.policy, listed_ids, LISTED, m.suite) != 0)
        give_up("no session", self->name);
    for (unsigned i = 0; i < streams; i++)
        if (delugash_add(session, words, FIRST_SSRC + i, w, 0) != 0)
            give_up("no stream", self->name);
    return session;
}

static size_t protect(const engine *self, void *session, uint8_t *packet, size_t room, size_t n)
{
    (void)self;
    return delugash_protect(session, delugash_size(), packet, room, n).length;
}

static size_t unprotect(const engine *self, void *session, uint8_t *packet, size_t room, size_t n)
{
    (void)self;
    return delugash_unprotect(session, delugash_size(), packet, room, n).length;
}

static void close_session(const engine *self, void *session)
{
    (void)self;
    free(session);
}

engine our_engine(void)
{
    return (engine){"ours", "this library", 1, NULL, open_session, protect, unprotect, close_session};
}
