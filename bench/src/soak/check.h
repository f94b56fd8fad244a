/* A packet call and what it may change. */
#ifndef CHECK_H
#define CHECK_H

#include "pair.h"

/* A buffer before a call and after it. */
typedef struct {
    uint8_t before[ROOM];
    uint8_t after[ROOM];
} buffer;

typedef delugash_answer packet_call(uint64_t *, size_t, uint8_t *, size_t, size_t);

/* Ends the program with everything that is needed to see this packet again. */
_Noreturn void disagree(const pair *p, const stream *s, uint64_t index, const char *what, uint64_t library, uint64_t model);

/* Calls on a buffer of that length whose bytes stand in `before`; checks that a refusal has length 0 and changes neither buffer nor session. */
delugash_answer checked_call(const pair *p, const stream *s, uint64_t index, packet_call *call, uint64_t *session, buffer *b, size_t length, size_t n);

/* The library's length has to be the model's, the buffer has to start with these bytes, and bytes from `kept` on have to be as they were. */
void check_result(const pair *p, const stream *s, uint64_t index, const buffer *b, size_t library, const uint8_t *bytes, size_t count, size_t kept);

#endif
