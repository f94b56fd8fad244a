/* soak PACKETS SEED: packets through pairs of sessions, a new pair every RUN packets, each policy of both suites in its turn. */
#define _POSIX_C_SOURCE 200809L
#include "pair.h"

#include <stdio.h>
#include <stdlib.h>
#include <time.h>

/* Short enough for every ledger, long enough for sequence numbers to wrap several times in each stream. */
enum { RUN = 500000, SLACK_KB = 1024 };

static pair the_pair;

static const char *const names[NUMBERS] = {"given", "LENGTH", "SHORT", "VERSION", "HEADER", "PROFILE", "ELEMENT", "LARGE", "ROOM", "STREAM",
                                           "ORDER", "WORN", "OLD", "REPEAT", "TAG", "KEYS", "POLICY", "TWICE", "FULL", "ABSENT"};

static double seconds(void)
{
    struct timespec t;
    clock_gettime(CLOCK_MONOTONIC, &t);
    return (double)t.tv_sec + 1e-9 * (double)t.tv_nsec;
}

/* The memory that the process has in use, in KB; 0 where the system does not tell. */
static long resident(void)
{
    char line[128];
    long size = 0;
    FILE *status = fopen("/proc/self/status", "r");
    if (status == NULL)
        return 0;
    while (fgets(line, sizeof line, status) != NULL)
        if (strncmp(line, "VmRSS:", 6) == 0)
            size = strtol(line + 6, NULL, 10);
    fclose(status);
    return size;
}

static uint64_t number(const char *word)
{
    char *end;
    unsigned long long value = strtoull(word, &end, 10);
    if (*word < '0' || *word > '9' || *end != '\0') {
        fprintf(stderr, "not a number: %s\n", word);
        exit(2);
    }
    return value;
}

static uint64_t total(const uint64_t *counts)
{
    uint64_t sum = 0;
    for (int i = 0; i < NUMBERS; i++)
        sum += counts[i];
    return sum;
}

static void print_counts(const char *what, const char *taken, const uint64_t *counts)
{
    printf("%s: %llu in all\n", what, (unsigned long long)total(counts));
    for (int i = 0; i < NUMBERS; i++)
        if (counts[i] != 0)
            printf("  %2d %-12s %12llu\n", i, i == 0 ? taken : names[i], (unsigned long long)counts[i]);
}

static void print_progress(const pair *p, uint64_t packets, double start)
{
    printf("%llu of %llu packets, %.0f a second, run %llu, suite %u, policy %llu, %llu given back, %llu forged, VmRSS %ld KB\n",
           (unsigned long long)p->packet, (unsigned long long)packets, (double)p->packet / (seconds() - start), (unsigned long long)p->run,
           (unsigned)p->suite, (unsigned long long)p->policy, (unsigned long long)p->counts.arrived[0], (unsigned long long)total(p->counts.forged), resident());
    fflush(stdout);
}

/* All packets; gives the memory in use after the first sessions were made. */
static long soak(pair *p, uint64_t packets, double start)
{
    long first = 0;
    double shown = start;
    for (p->packet = 0; p->packet < packets; p->packet++) {
        if (p->packet % RUN == 0)
            start_run(p, p->packet / RUN);
        step_pair(p);
        if (p->packet == 0)
            first = resident();
        if (p->packet % 1024 == 0 && seconds() - shown >= 1) {
            shown = seconds();
            print_progress(p, packets, start);
        }
    }
    return first;
}

static int print_summary(const pair *p, uint64_t packets, double start, long first)
{
    const tally *t = &p->counts;
    long last = resident();
    printf("\nSoak of %llu packets, seed %llu, %llu pairs of sessions with %d streams each, %.0f s: no disagreement\n", (unsigned long long)packets,
           (unsigned long long)p->seed, (unsigned long long)p->run + 1, STREAMS, seconds() - start);
    print_counts("Protect", "sent", t->sent);
    print_counts("Arrivals as sent", "given back", t->arrived);
    print_counts("Forged", "ACCEPTED", t->forged);
    printf("Given back late, after a higher index: %llu. Lost on the way at first: %llu. Sequence numbers wrapped: %llu times.\n",
           (unsigned long long)t->late, (unsigned long long)t->lost, (unsigned long long)t->wraps);
    printf("Every answer was the model's: nothing was given back twice or refused wrongly, and no forged packet was accepted.\n");
    printf("VmRSS: %ld KB at first, %ld KB at last\n", first, last);
    if (last - first <= SLACK_KB)
        return 0;
    fprintf(stderr, "memory grew by %ld KB\n", last - first);
    return 1;
}

int main(int argc, char **argv)
{
    if (argc != 3) {
        fprintf(stderr, "usage: soak PACKETS SEED\n");
        return 2;
    }
    uint64_t packets = number(argv[1]);
    the_pair.seed = number(argv[2]);
    if (packets == 0) {
        fprintf(stderr, "no packets, nothing to check\n");
        return 2;
    }
    double start = seconds();
    long first = soak(&the_pair, packets, start);
    return print_summary(&the_pair, packets, start, first);
}
