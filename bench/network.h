// A network with its tree in memory, and the form in which the programs here read one.
//
// Input: 16-bit words, high byte first: n, m, root, depth, times, tie rule; n parents; m links of four words, two ends, length,
// mark; the job: 0 the table, 1 the change of a link, 2 the write of a file, 3 the read of one.
#include <stdint.h>
#include <stdio.h>

enum { NODES = 512, LINKS = 2048, DEPTH = 510, ENTRY = 10, MARK = 65535, HEAD = 6, WORDS = HEAD + NODES + 4 * LINKS + 1 };
enum { TABLE_JOB, CHANGE_JOB, WRITE_JOB, READ_JOB };
enum { LOWEST_NUMBER = 0, NEARER_FIRST = 1 };

struct link {
    uint16_t first, second, length, mark;
};

// A network with its tree, and the search asked for.
struct network {
    size_t n, m, root, depth, rule;
    uint16_t parents[NODES];
    struct link links[LINKS];
};

static uint16_t word(const uint8_t *bytes, size_t i)
{
    return (uint16_t)(bytes[2 * i] << 8 | bytes[2 * i + 1]);
}

// Reads a file to its end. Answers 0 where it is not one whole network within the limits.
static int read_network(FILE *file, struct network *net, size_t *times, size_t *job)
{
    static uint8_t bytes[2 * WORDS + 1];
    size_t got = fread(bytes, 1, sizeof bytes, file);
    if (got < 2 * HEAD)
        return 0;
    net->n = word(bytes, 0);
    net->m = word(bytes, 1);
    net->root = word(bytes, 2);
    net->depth = word(bytes, 3);
    *times = word(bytes, 4);
    net->rule = word(bytes, 5);
    if (net->n > NODES || net->m > LINKS || got != 2 * (HEAD + net->n + 4 * net->m + 1))
        return 0;
    size_t at = HEAD;
    for (size_t u = 0; u < net->n; u++)
        net->parents[u] = word(bytes, at++);
    for (size_t e = 0; e < net->m; e++, at += 4)
        net->links[e] = (struct link){word(bytes, at), word(bytes, at + 1), word(bytes, at + 2), word(bytes, at + 3)};
    *job = word(bytes, at);
    return *job <= READ_JOB;
}
