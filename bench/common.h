// What same.c and definition.c share: the fold of a row into one number, and the run. A program gives `table`, and `change`,
// `write_file` and `read_file` where it has them.
#include "network.h"

#include <string.h>

enum { ROOT, SWAP, NONE, BRIDGE };
enum { FIRST_END, SECOND_END };
enum { BLOCK = 512, FILE_BYTES = 63 * BLOCK };

// Works out all entries and answers 1, or answers 0 where the network is refused.
static int table(const struct network *net, uint64_t *entries);

#ifndef TABLE_ONLY
// Makes the change of one link and answers 1, or answers 0 where it is refused.
static int change(struct network *net, uint64_t *entries, size_t e, unsigned mark, unsigned length);

// Writes the file and answers its length, or 0 where the network is refused.
static size_t write_file(const struct network *net, uint8_t *file);

// Reads a file into a network and its entries and answers 1, or answers 0 where it is refused.
static int read_file(const uint8_t *file, size_t size, struct network *net, uint64_t *entries);
#endif

static uint64_t mix(uint64_t sum, uint64_t more)
{
    return (sum << 1 | sum >> 63) + more;
}

// A row of numbers mixed into one: turn by one bit and add, number by number.
static uint64_t fold(const uint64_t *row, size_t n, uint64_t sum)
{
    for (size_t i = 0; i < n; i++)
        sum = mix(sum, row[i]);
    return sum;
}

#ifndef TABLE_ONLY
// The next link from e on that is no parent link of its ends; the links are gone through in a ring.
static size_t next_spare(const struct network *net, size_t e)
{
    for (size_t i = 0; i < net->m; i++, e = (e + 1) % net->m)
        if (net->parents[net->links[e].first] != e && net->parents[net->links[e].second] != e)
            break;
    return e;
}
#endif

// Does a job so many times, and prints one number that what it leaves goes into.
int main(void)
{
    static struct network net;
    static uint64_t entries[NODES * ENTRY];
    static uint8_t file[FILE_BYTES];
    uint64_t sum = 0;
    size_t times, job, size = 0;
    int taken = read_network(stdin, &net, &times, &job) && table(&net, entries);
#ifdef TABLE_ONLY
    taken = taken && job == TABLE_JOB;
#else
    size_t e = 0;
    if (taken && job >= WRITE_JOB)
        taken = (size = write_file(&net, file)) > 0;
#endif
    for (size_t i = 0; taken && i < times; i++) {
        switch (job) {
        case TABLE_JOB:
            taken = table(&net, entries);
            break;
#ifndef TABLE_ONLY
        case CHANGE_JOB:
            e = i % 2 ? e : next_spare(&net, (e + 1) % net.m);
            taken = change(&net, entries, e, i % 2, net.links[e].length);
            break;
        case WRITE_JOB:
            taken = write_file(&net, file) == size;
            break;
        default:
            taken = read_file(file, size, &net, entries);
#endif
        }
        sum = mix(sum, i < net.n * ENTRY ? entries[i] : 0);
    }
    sum = fold(entries, net.n * ENTRY, sum);
    for (size_t i = 0; i < size; i++)
        sum = mix(sum, file[i]);
    if (taken)
        printf("%llu\n", (unsigned long long)sum);
    else
        puts("refused");
    return 0;
}
