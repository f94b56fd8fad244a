/* speed measure ROUNDS PACKETS [NAME=FILE]...     every table; the words name builds of libsrtp to load
 * speed gcm ROUNDS PACKETS [NAME=FILE]...         the lines with GCM alone, for builds that are slowed down from outside
 * speed count MODE BYTES CALLS [NAME=FILE]        calls of protect, by this library or the one that is named, to be counted from outside */
#include "engine.h"
#include "tables.h"

#include <stdio.h>
#include <stdlib.h>
#include <string.h>

static size_t number(const char *word, size_t least, size_t most)
{
    char *end;
    unsigned long value = strtoul(word, &end, 10);
    if (*word == '\0' || *end != '\0' || value < least || value > most)
        give_up("not a number that can be used", word);
    return value;
}

static engine load(char *word)
{
#ifdef WITH_PEERS
    char *sign = strchr(word, '=');
    if (sign == NULL)
        give_up("not NAME=FILE", word);
    *sign = '\0';
    return peer_engine(word, sign + 1);
#else
    give_up("compiled without peers", word);
#endif
}

static mode mode_of(const char *word)
{
    for (size_t i = 0; i < MODES; i++)
        if (strcmp(word, modes[i].name) == 0)
            return modes[i];
    give_up("not a mode", word);
}

static void print_engines(const engine *engines, size_t count)
{
    for (size_t i = 0; i < count; i++)
        printf("engine %s %s\n", engines[i].name, engines[i].about);
}

static void measure(const engine *engines, size_t count, effort e)
{
    print_engines(engines, count);
    printf("effort %zu %zu\n", e.rounds, e.packets);
    compare(engines, count, 0, e);
    grow(&engines[0], e);
    refuse(e);
}

/* This library is measured again, so that a ratio is of one round here too. */
static void measure_gcm(const engine *engines, size_t count, effort e)
{
    for (size_t i = 1; i < count; i++)
        if (!engines[i].has_gcm)
            give_up("has no GCM", engines[i].name);
    print_engines(engines + 1, count - 1);
    compare(engines, count, FIRST_GCM, e);
}

int main(int argc, char **argv)
{
    engine engines[MOST_ENGINES] = {our_engine()};
    size_t count = 1;
    int counts = argc > 1 && strcmp(argv[1], "count") == 0, gcm = argc > 1 && strcmp(argv[1], "gcm") == 0;
    int numbers = counts ? 3 : 2;
    if (argc < 2 + numbers || argc - 2 - numbers > MOST_ENGINES - 1 || (!counts && !gcm && strcmp(argv[1], "measure") != 0))
        give_up("usage", "speed measure ROUNDS PACKETS [NAME=FILE]..., speed gcm .. or speed count MODE BYTES CALLS [NAME=FILE]");
    for (int i = 2 + numbers; i < argc; i++)
        engines[count++] = load(argv[i]);
    if (counts)
        count_instructions(&engines[count - 1], mode_of(argv[2]), number(argv[3], 40, 2028), number(argv[4], 1, 30000));
    else
        (gcm ? measure_gcm : measure)(engines, count, (effort){number(argv[2], 1, MOST_ROUNDS), number(argv[3], 1, 30000)});
    return 0;
}
