// shapes SHAPE N M TIMES JOB RULE: writes a network of this shape (tree, grid, path, star, even) in the form that network.h
// describes. The same words give the same network. `shapes SHAPE N M height 0 0` prints the height of its tree instead.
//
// Nodes and links are numbered at random. Tree links are 1 to 100 long. Every other link is as long as its ends' distances
// differ or up to 99 more, so that the tree is a shortest-path tree. In `even`, a grid on which candidates often tie, tree links
// are 1 long, and every other link is as long as its ends' distances differ, but at least 1. All are in service, and the search
// is whole.
#include <stdint.h>
#include <stdio.h>
#include <stdlib.h>
#include <string.h>

enum { NODES = 512, LINKS = 2048, MARK = 65535 };

static uint64_t state = 1;

// A number below n (splitmix64).
static unsigned below(unsigned n)
{
    uint64_t z = state += 0x9e3779b97f4a7c15u;
    z = (z ^ z >> 30) * 0xbf58476d1ce4e5b9u;
    z = (z ^ z >> 27) * 0x94d049bb133111ebu;
    return (unsigned)((z ^ z >> 31) % n);
}

// The numbers below n in a random order.
static void shuffle(unsigned *row, unsigned n)
{
    for (unsigned i = 0; i < n; i++) {
        unsigned j = below(i + 1);
        row[i] = row[j];
        row[j] = i;
    }
}

// The width of a grid of n nodes: about half its height.
static unsigned width(unsigned n)
{
    unsigned w = 1;
    while (4 * w * w <= n)
        w *= 2;
    return w;
}

// The parent of u. Place 0 is the root, and each parent comes before its children.
static unsigned parent(char shape, unsigned n, unsigned u)
{
    switch (shape) {
    case 't':
        return below(u);
    case 'g':
    case 'e':
        return u < width(n) ? u - 1 : u - width(n);
    case 'p':
        return u - 1;
    default:
        return 0;
    }
}

// Whether a link outside the tree may join two places: any two, but in a grid only neighbours, across corners too.
static int joins(char shape, unsigned n, unsigned p, unsigned q)
{
    if (shape != 'g' && shape != 'e')
        return p != q;
    unsigned w = width(n);
    int rows = abs((int)(p / w) - (int)(q / w)), columns = abs((int)(p % w) - (int)(q % w));
    return p != q && rows <= 1 && columns <= 1;
}

// How long a link outside the tree is: its ends' distances differ by so much, and a tree link in its place would be w long.
static unsigned length(char shape, unsigned differ, unsigned w)
{
    if (shape == 'e')
        return differ < w ? w : differ;
    return differ + w - 1;
}

static void put(unsigned word)
{
    putchar((int)(word >> 8 & 255));
    putchar((int)(word & 255));
}

int main(int count, char **words)
{
    static unsigned node[NODES], number[LINKS], parents[NODES], hops[NODES], d[NODES], links[LINKS][3];
    if (count != 7)
        return 2;
    char shape = words[1][0];
    unsigned n = (unsigned)atoi(words[2]), m = (unsigned)atoi(words[3]), height = 0;
    if (n < 2 || n > NODES || m + 1 < n || m > LINKS)
        return 2;
    shuffle(node, n);
    shuffle(number, m);
    parents[node[0]] = MARK;
    for (unsigned e = 0; e < m; e++) {
        unsigned p = e + 1, q, w = shape == 'e' ? 1 : 1 + below(100);
        if (p < n) {
            q = parent(shape, n, p);
            d[p] = d[q] + w;
            hops[p] = hops[q] + 1;
            height = hops[p] > height ? hops[p] : height;
            parents[node[p]] = number[e];
        } else {
            do {
                p = below(n);
                q = below(n);
            } while (!joins(shape, n, p, q));
            w = length(shape, d[p] < d[q] ? d[q] - d[p] : d[p] - d[q], w);
        }
        memcpy(links[number[e]], (unsigned[3]){node[p], node[q], w}, sizeof links[0]);
    }
    if (!strcmp(words[4], "height")) {
        printf("%u\n", height);
        return 0;
    }
    put(n);
    put(m);
    put(node[0]);
    put(MARK);
    put((unsigned)atoi(words[4]));
    put((unsigned)atoi(words[6]));
    for (unsigned u = 0; u < n; u++)
        put(parents[u]);
    for (unsigned e = 0; e < m; e++) {
        put(links[e][0]);
        put(links[e][1]);
        put(links[e][2]);
        put(1);
    }
    put((unsigned)atoi(words[5]));
    return 0;
}
