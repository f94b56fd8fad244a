/* A build of libsrtp as an engine. Each is loaded with names of its own, so that several builds run in one process. */
#define _GNU_SOURCE
#include "engine.h"

#include <dlfcn.h>
#include <stdlib.h>
#include <string.h>

#include "srtp.h"

typedef struct {
    srtp_err_status_t (*init)(void);
    srtp_err_status_t (*create)(srtp_t *, const srtp_policy_t *);
    srtp_err_status_t (*protect)(srtp_t, void *, int *);
    srtp_err_status_t (*unprotect)(srtp_t, void *, int *);
    srtp_err_status_t (*dealloc)(srtp_t);
    void (*first_suite)(srtp_crypto_policy_t *);
    void (*gcm)(srtp_crypto_policy_t *);
    const char *(*version)(void);
} calls;

/* Cryptex is not in libsrtp 2.5.0: beside policy 1 it does plain SRTP. */
static void set_policy(const calls *c, srtp_policy_t *p, mode m, unsigned char *key, int *ids)
{
    void (*suite)(srtp_crypto_policy_t *) = m.suite == DELUGASH_SUITE_GCM ? c->gcm : c->first_suite;
    memset(p, 0, sizeof *p);
    suite(&p->rtp);
    suite(&p->rtcp);
    p->key = key;
    p->window_size = 64;
    if (m.policy == DELUGASH_MASK) {
        p->enc_xtn_hdr = ids;
        p->enc_xtn_hdr_count = LISTED;
    }
}

/* A session, or NULL where libsrtp refuses it. */
static srtp_t create(const calls *c, mode m, unsigned streams)
{
    unsigned char key[KEY_LENGTH + LONGEST_SALT];
    int ids[LISTED];
    srtp_policy_t policies[MOST_STREAMS];
    memcpy(key, master_key, KEY_LENGTH);
    memcpy(key + KEY_LENGTH, master_salt, LONGEST_SALT);
    for (unsigned i = 0; i < LISTED; i++)
        ids[i] = listed_ids[i];
    for (unsigned i = 0; i < streams; i++) {
        set_policy(c, &policies[i], m, key, ids);
        policies[i].ssrc.type = ssrc_specific;
        policies[i].ssrc.value = FIRST_SSRC + i;
        policies[i].next = i + 1 < streams ? &policies[i + 1] : NULL;
    }
    srtp_t session;
    return c->create(&session, policies) == srtp_err_status_ok ? session : NULL;
}

static void *open_session(const engine *self, mode m, way w, unsigned streams)
{
    (void)w;
    srtp_t session = create(self->calls, m, streams);
    if (session == NULL)
        give_up("no session", self->name);
    return session;
}

static int has_gcm(const calls *c)
{
    srtp_t session = create(c, modes[FIRST_GCM], 1);
    return session != NULL && c->dealloc(session) == srtp_err_status_ok;
}

static size_t protect(const engine *self, void *session, uint8_t *packet, size_t room, size_t n)
{
    (void)room;
    const calls *c = self->calls;
    int length = (int)n;
    return c->protect(session, packet, &length) == srtp_err_status_ok ? (size_t)length : 0;
}

static size_t unprotect(const engine *self, void *session, uint8_t *packet, size_t room, size_t n)
{
    (void)room;
    const calls *c = self->calls;
    int length = (int)n;
    return c->unprotect(session, packet, &length) == srtp_err_status_ok ? (size_t)length : 0;
}

static void close_session(const engine *self, void *session)
{
    const calls *c = self->calls;
    c->dealloc(session);
}

/* ISO C has no cast from an object's address to a function's, so the address is copied. */
static void look_up(void *library, const char *symbol, void *function)
{
    void *address = dlsym(library, symbol);
    if (address == NULL)
        give_up("not in the library", symbol);
    memcpy(function, &address, sizeof address);
}

engine peer_engine(const char *name, const char *file)
{
    void *library = dlopen(file, RTLD_NOW | RTLD_LOCAL | RTLD_DEEPBIND);
    calls *c = malloc(sizeof *c);
    if (library == NULL || c == NULL)
        give_up("cannot load", library == NULL ? dlerror() : "no memory");
    look_up(library, "srtp_init", &c->init);
    look_up(library, "srtp_create", &c->create);
    look_up(library, "srtp_protect", &c->protect);
    look_up(library, "srtp_unprotect", &c->unprotect);
    look_up(library, "srtp_dealloc", &c->dealloc);
    look_up(library, "srtp_crypto_policy_set_rtp_default", &c->first_suite);
    look_up(library, "srtp_crypto_policy_set_aes_gcm_128_16_auth", &c->gcm);
    look_up(library, "srtp_get_version_string", &c->version);
    if (c->init() != srtp_err_status_ok)
        give_up("cannot start", name);
    return (engine){name, c->version(), has_gcm(c), c, open_session, protect, unprotect, close_session};
}
