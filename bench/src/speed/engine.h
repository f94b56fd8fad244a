/* A library under test. All of them are called through the same pointers, so that none has a shorter way. */
#ifndef ENGINE_H
#define ENGINE_H

#include "delugash.h"

#include <stddef.h>
#include <stdint.h>

typedef enum { SENDING = DELUGASH_SENDING, RECEIVING = DELUGASH_RECEIVING } way;

enum { MOST_STREAMS = 32, MOST_ENGINES = 4 };

/* What a session speaks, and how the measured lines name it. */
typedef struct {
    const char *name;
    uint32_t suite;
    uint64_t policy;
} mode;

static inline size_t tag_of(mode m)
{
    return m.suite == DELUGASH_SUITE_GCM ? 16 : 10;
}

static inline size_t salt_of(mode m)
{
    return m.suite == DELUGASH_SUITE_GCM ? 12 : 14;
}

/* The modes that libraries are compared in; those from FIRST_GCM on have GCM. */
enum { MODES = 5, FIRST_GCM = 3 };
extern const mode modes[MODES];

typedef struct engine engine;
struct engine {
    const char *name;
    const char *about;
    /* libsrtp can be built without it. */
    int has_gcm;
    /* The library's own functions, where they had to be looked up. */
    const void *calls;
    /* A session with streams FIRST_SSRC and up; ends the program where it cannot be had. */
    void *(*open)(const engine *self, mode m, way w, unsigned streams);
    /* The packet's new length, or 0 where it was refused. */
    size_t (*protect)(const engine *self, void *session, uint8_t *packet, size_t room, size_t n);
    size_t (*unprotect)(const engine *self, void *session, uint8_t *packet, size_t room, size_t n);
    void (*close)(const engine *self, void *session);
};

/* What every session gets. */
enum { FIRST_SSRC = 0x5eed0001, KEY_LENGTH = 16, LONGEST_SALT = 14, LISTED = 2 };
extern const uint8_t master_key[KEY_LENGTH];
/* With GCM its first 12 bytes. */
extern const uint8_t master_salt[LONGEST_SALT];
extern const uint8_t listed_ids[LISTED];

engine our_engine(void);

/* The build of libsrtp in a file; ends the program where it cannot be loaded. */
engine peer_engine(const char *name, const char *file);

/* Ends the program with a message. */
_Noreturn void give_up(const char *what, const char *which);

#endif
