/* The libraries side by side: in every round each line's packets go through all of them in turn. A round goes through every line of the table before the
 * next begins, so that what disturbs the machine for some seconds disturbs no line more than another. */
#include "pass.h"
#include "tables.h"

#include <stdio.h>

static const size_t sizes[] = {40, 100, 200, 400, 800, 1200, 1400};

enum { SIZES = sizeof sizes / sizeof *sizes, WAYS = 2, MOST_CELLS = SIZES * MODES * WAYS };

/* One line of the table. */
typedef struct {
    mode m;
    way w;
    size_t n;
    double times[MOST_ENGINES][MOST_ROUNDS];
} cell;

/* A line's packets as they are, as we send them, and where a library works on them. */
typedef struct {
    batch plain, wire, work;
} desk;

static cell cells[MOST_CELLS];

/* The lines of the modes from the first one on; gives how many. */
static size_t list_cells(size_t first)
{
    size_t i = 0;
    for (size_t k = first; k < MODES; k++)
        for (size_t s = 0; s < SIZES; s++)
            for (int w = 0; w < WAYS; w++, i++) {
                cells[i].m = modes[k];
                cells[i].w = w == 0 ? SENDING : RECEIVING;
                cells[i].n = sizes[s];
            }
    return i;
}

static int takes_part(const cell *c, const engine *e)
{
    return e->has_gcm || c->m.suite != DELUGASH_SUITE_GCM;
}

/* Protects the packets in the work batch, and compares with what we send wherever the library speaks the policy. */
static double send(const cell *c, const desk *d, const engine *e, int speaks)
{
    copy_batch(d->work, d->plain);
    double time = pass_fresh(e, c->m, SENDING, 1, d->work, c->n);
    if (speaks && !same(d->work, d->wire, c->n + tag_of(c->m)))
        give_up("sends other bytes than this library", e->name);
    return time;
}

/* What a library sent goes back through it: under policy 1 a peer can only read its own. */
static double receive(const cell *c, const desk *d, const engine *e, int speaks)
{
    send(c, d, e, speaks);
    double time = pass_fresh(e, c->m, RECEIVING, 1, d->work, c->n + tag_of(c->m));
    if (!same(d->work, d->plain, c->n))
        give_up("gives back other bytes than were sent", e->name);
    return time;
}

static void run_cell(cell *c, const engine *engines, size_t count, size_t round, size_t packets)
{
    size_t room = c->n + tag_of(c->m);
    desk d = {make_batch(packets, room), make_batch(packets, room), make_batch(packets, room)};
    fill(d.plain, c->m.policy, FIRST_SSRC, c->n, round * packets);
    copy_batch(d.wire, d.plain);
    pass_fresh(&engines[0], c->m, SENDING, 1, d.wire, c->n);
    for (size_t k = 0; k < count; k++) {
        /* Another one begins each round, so that none is always first. */
        size_t i = (round + k) % count;
        int speaks = i == 0 || c->m.policy != DELUGASH_CRYPTEX;
        if (takes_part(c, &engines[i]))
            c->times[i][round] = c->w == SENDING ? send(c, &d, &engines[i], speaks) : receive(c, &d, &engines[i], speaks);
    }
    free_batch(d.plain);
    free_batch(d.wire);
    free_batch(d.work);
}

static void print_cell(cell *c, const engine *engines, size_t count, size_t rounds)
{
    double ratios[MOST_ENGINES][MOST_ROUNDS];
    for (size_t i = 0; i < count; i++)
        for (size_t r = 0; r < rounds; r++)
            ratios[i][r] = c->times[i][r] / c->times[0][r];
    for (size_t i = 0; i < count; i++) {
        if (!takes_part(c, &engines[i]))
            continue;
        spread time = spread_of(c->times[i], rounds), ratio = spread_of(ratios[i], rounds);
        printf("cell %s %s %zu %s  %.1f %.1f %.1f  %.3f %.3f %.3f\n", c->m.name, c->w == SENDING ? "protect" : "unprotect", c->n, engines[i].name,
               time.median, time.low, time.high, ratio.median, ratio.low, ratio.high);
    }
    fflush(stdout);
}

void compare(const engine *engines, size_t count, size_t first, effort e)
{
    size_t lines = list_cells(first);
    /* The first pass over the table only warms up; its times are written over. */
    for (size_t i = 0; i < lines; i++)
        run_cell(&cells[i], engines, count, 0, e.packets);
    for (size_t r = 0; r < e.rounds; r++)
        for (size_t i = 0; i < lines; i++)
            run_cell(&cells[i], engines, count, r, e.packets);
    for (size_t i = 0; i < lines; i++)
        print_cell(&cells[i], engines, count, e.rounds);
}
