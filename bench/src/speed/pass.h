/* A batch through a session, timed. */
#ifndef PASS_H
#define PASS_H

#include "batch.h"
#include "engine.h"

/* Protects (sending) or unprotects packets of n bytes; gives nanoseconds a packet. Ends the program where a packet is refused: the time of a refusal
 * says nothing. */
double pass(const engine *e, mode m, way w, void *session, batch b, size_t n);

/* The same in a session of its own, made before the clock starts. */
double pass_fresh(const engine *e, mode m, way w, unsigned streams, batch b, size_t n);

#endif
