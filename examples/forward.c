/*
 * forward FILE START FAILED MEASURE: prints the way from a start to the root while the tree link of the failed node is down,
 * in the network of a stored file: `ordinary` or `detour`, the nodes in the order of passing, then `length` and how long the
 * way is. MEASURE is sum, incr or max; the tie rule is the one that a stored file means. A file or a way that is refused
 * prints `FILE: refused N P` on standard error and ends with 1; words that are not of this form, a file that cannot be read,
 * or a line that cannot be printed, end with 2.
 */
#include "filed.h"
#include "words.h"

#include <string.h>

/* Room for any way. */
static uint16_t ordinary[DOERAGYEOL_ROUTE_ROW];
static uint16_t detour[DOERAGYEOL_ROUTE_ROW];
static uint64_t way[DOERAGYEOL_WAY];

typedef uint32_t forwarder(const uint16_t *, size_t, const uint16_t *, size_t, uint16_t, uint16_t, uint16_t, uint16_t,
                           uint16_t, uint16_t *, size_t, uint16_t *, size_t, uint64_t *, size_t);

/* The measures: their names, and the call under each. */
static const struct measure {
    const char *name;
    forwarder *forward;
} measures[] = {
    {"sum", doeragyeol_forward_sum},
    {"incr", doeragyeol_forward_incr},
    {"max", doeragyeol_forward_max},
};

/* The call under the measure of a name; null for a word that is none. */
static forwarder *forwarder_of(const char *name)
{
    for (size_t i = 0; i < sizeof measures / sizeof *measures; i++)
        if (strcmp(measures[i].name, name) == 0)
            return measures[i].forward;
    return NULL;
}

static void print_way(void)
{
    int is_detour = way[0] == DOERAGYEOL_DETOUR;
    const uint16_t *nodes = is_detour ? detour : ordinary;
    printf("%s", is_detour ? "detour" : "ordinary");
    for (size_t i = 0; i < way[1]; i++)
        printf(" %u", (unsigned)nodes[i]);
    printf(" length %llu\n", (unsigned long long)way[2]);
}

int main(int count, char **words)
{
    outlive_pipes();
    forwarder *forward = count == 5 ? forwarder_of(words[4]) : NULL;
    long start = count == 5 ? number_of(words[2]) : -1;
    long failed = count == 5 ? number_of(words[3]) : -1;
    if (forward == NULL || start < 0 || failed < 0) {
        fprintf(stderr, "usage: forward FILE START FAILED sum|incr|max\n");
        return 2;
    }
    int ended = load_file(words[1]);
    if (ended != 0)
        return ended;
    uint32_t word = forward(links, header[1] * DOERAGYEOL_LINK_NUMBERS, parents, header[0], (uint16_t)header[2],
                            (uint16_t)header[3], DOERAGYEOL_LOWEST_NUMBER, (uint16_t)start, (uint16_t)failed, ordinary,
                            DOERAGYEOL_ROUTE_ROW, detour, DOERAGYEOL_ROUTE_ROW, way, DOERAGYEOL_WAY);
    ended = said(words[1], word);
    if (ended != 0)
        return ended;
    print_way();
    return printed();
}
