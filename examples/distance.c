/*
 * distance FILE FROM TO: prints `distance` and the length of the tree path between two nodes, in the network of a stored file.
 * A file or a node that is refused prints `FILE: refused N P` on standard error and ends with 1; words that are not of this
 * form, a file that cannot be read, or a line that cannot be printed, end with 2.
 */
#include "filed.h"
#include "words.h"

static uint64_t distance[DOERAGYEOL_DISTANCE];

int main(int count, char **words)
{
    outlive_pipes();
    long from = count == 4 ? number_of(words[2]) : -1;
    long to = count == 4 ? number_of(words[3]) : -1;
    if (from < 0 || to < 0) {
        fprintf(stderr, "usage: distance FILE FROM TO\n");
        return 2;
    }
    int ended = load_file(words[1]);
    if (ended != 0)
        return ended;
    uint32_t word = doeragyeol_distance(links, header[1] * DOERAGYEOL_LINK_NUMBERS, parents, header[0], (uint16_t)header[2],
                                        (uint16_t)from, (uint16_t)to, distance, DOERAGYEOL_DISTANCE);
    ended = said(words[1], word);
    if (ended != 0)
        return ended;
    printf("distance %llu\n", (unsigned long long)distance[0]);
    return printed();
}
