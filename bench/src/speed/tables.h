/* The tables of bench/RESULTS.md as measured lines on standard output: words and numbers, a space between. */
#ifndef TABLES_H
#define TABLES_H

#include "engine.h"
#include "measure.h"

/* cell MODE CALL BYTES ENGINE  NS LOW HIGH  RATIO LOW HIGH, for the modes from the first one on: the first engine is ours, and a ratio is an engine's time over
 * ours in the same round. An engine without GCM has no lines with it. */
void compare(const engine *engines, size_t count, size_t first, effort e);

/* streams COUNT CALL  NS LOW HIGH */
void grow(const engine *ours, effort e);

/* hostile NAME MODE BYTES  NS  ACCEPTED_NS  RATIO LOW HIGH: a ratio is a refusal's time over an accepted packet's in the same round. */
void refuse(effort e);

/* Protects packets of n bytes, so that instructions can be counted in counted_protect. */
void count_instructions(const engine *e, mode m, size_t n, size_t calls);

#endif
