/*
 * load FILE MEASURE: prints what a router loads from a stored file, a line for each node but the root. A swap link has its
 * two ends in the order of crossing, from the one that is cut off to the other. MEASURE is sum, incr or max. A file that is
 * refused prints `FILE: refused N P` on standard error and ends with 1; a call that is none, a file that cannot be read, or
 * lines that cannot be printed, end with 2.
 */
#include "filed.h"

#include <string.h>

/* The measures: their names, and where the swap link and the mark of its lower end stand in an entry. */
static const struct measure {
    const char *name;
    size_t link, lower;
} measures[] = {
    {"sum", DOERAGYEOL_ENTRY_SUM, DOERAGYEOL_ENTRY_SUM_LOWER},
    {"incr", DOERAGYEOL_ENTRY_INCR, DOERAGYEOL_ENTRY_INCR_LOWER},
    {"max", DOERAGYEOL_ENTRY_MAX, DOERAGYEOL_ENTRY_MAX_LOWER},
};

/* The measure of a name; null for a word that is none. */
static const struct measure *measure_of(const char *name)
{
    for (size_t i = 0; i < sizeof measures / sizeof *measures; i++)
        if (strcmp(measures[i].name, name) == 0)
            return measures + i;
    return NULL;
}

/* Prints the swap link of an entry, and its ends from the lower one to the other. */
static void print_crossing(const uint64_t *entry, const struct measure *by)
{
    const uint16_t *link = links + entry[by->link] * DOERAGYEOL_LINK_NUMBERS;
    unsigned from = link[DOERAGYEOL_LINK_FIRST], to = link[DOERAGYEOL_LINK_SECOND];
    if (entry[by->lower] == DOERAGYEOL_SECOND_END) {
        from = link[DOERAGYEOL_LINK_SECOND];
        to = link[DOERAGYEOL_LINK_FIRST];
    }
    printf("cross link %llu from %u to %u\n", (unsigned long long)entry[by->link], from, to);
}

static void print_node(size_t node, const struct measure *by)
{
    const uint64_t *entry = entries + node * DOERAGYEOL_ENTRY_NUMBERS;
    printf("node %zu when link %u is down: ", node, (unsigned)parents[node]);
    switch (entry[DOERAGYEOL_ENTRY_STATE]) {
    case DOERAGYEOL_STATE_SWAP:
        print_crossing(entry, by);
        break;
    case DOERAGYEOL_STATE_NONE:
        printf("no link within the depth\n");
        break;
    default:
        printf("bridge\n");
    }
}

int main(int count, char **words)
{
    outlive_pipes();
    const struct measure *by = count == 3 ? measure_of(words[2]) : NULL;
    if (by == NULL) {
        fprintf(stderr, "usage: load FILE sum|incr|max\n");
        return 2;
    }
    int ended = load_file(words[1]);
    if (ended != 0)
        return ended;
    for (size_t node = 0; node < header[0]; node++)
        if (node != header[2])
            print_node(node, by);
    return printed();
}
