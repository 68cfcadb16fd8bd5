// The table by its definition: for each node every link that crosses it, and each cost added up or compared over all nodes
// below. All tree distances are tabled first.
#define TABLE_ONLY
#include "common.h"

// The tree in tables: nodes with parents first, and for each node its parent, its hops and d(u); then t(u,z).
struct tree {
    size_t order[NODES], up[NODES], hops[NODES];
    uint64_t d[NODES];
    uint32_t t[NODES][NODES];
};

// Refusals 1 to 4, 14, and 5 to 7.
static int good_records(const struct network *net)
{
    if (net->n == 0 || net->root >= net->n || (net->depth > DEPTH && net->depth != MARK) || net->rule > NEARER_FIRST)
        return 0;
    for (size_t e = 0; e < net->m; e++) {
        struct link l = net->links[e];
        if (l.first >= net->n || l.second >= net->n || l.first == l.second || l.mark > 1)
            return 0;
    }
    for (size_t u = 0; u < net->n; u++) {
        size_t e = net->parents[u];
        if (u == net->root ? e != MARK : e >= net->m)
            return 0;
        if (u == net->root)
            continue;
        struct link l = net->links[e];
        if (l.mark != 1 || (l.first != u && l.second != u))
            return 0;
    }
    return 1;
}

// Fills the order, the parents, the hops and d, from the root down. Answers 0 where a node has no route (refusal 8).
static int grow(const struct network *net, struct tree *tree)
{
    size_t child[NODES], next[NODES], done = 1;
    for (size_t u = 0; u < net->n; u++)
        child[u] = NODES;
    for (size_t u = net->n; u-- > 0;) {
        if (u == net->root)
            continue;
        struct link l = net->links[net->parents[u]];
        size_t p = l.first == u ? l.second : l.first;
        tree->up[u] = p;
        next[u] = child[p];
        child[p] = u;
    }
    tree->order[0] = tree->up[net->root] = net->root;
    tree->hops[net->root] = tree->d[net->root] = 0;
    for (size_t i = 0; i < done; i++)
        for (size_t u = child[tree->order[i]]; u != NODES; u = next[u]) {
            tree->hops[u] = tree->hops[tree->order[i]] + 1;
            tree->d[u] = tree->d[tree->order[i]] + net->links[net->parents[u]].length;
            tree->order[done++] = u;
        }
    return done == net->n;
}

// Refusal 9.
static int good_short(const struct network *net, const struct tree *tree)
{
    for (size_t e = 0; e < net->m; e++) {
        struct link l = net->links[e];
        uint64_t a = tree->d[l.first], b = tree->d[l.second];
        if (l.mark == 1 && (a > b + l.length || b > a + l.length))
            return 0;
    }
    return 1;
}

// Tables t(u,z): a node is as far from each node before it as its parent is, and its own link more.
static void measure(const struct network *net, struct tree *tree)
{
    for (size_t i = 0; i < net->n; i++) {
        size_t z = tree->order[i];
        tree->t[z][z] = 0;
        for (size_t j = 0; j < i; j++) {
            size_t u = tree->order[j];
            tree->t[z][u] = tree->t[u][z] = tree->t[tree->up[z]][u] + net->links[net->parents[z]].length;
        }
    }
}

// The three costs of crossing link e of length w from z to the other end.
static void costs(const struct tree *tree, const size_t *below, size_t size, size_t z, size_t other, uint64_t w,
    uint64_t cost[3])
{
    cost[0] = cost[1] = cost[2] = 0;
    for (size_t i = 0; i < size; i++) {
        size_t u = below[i];
        uint64_t far = tree->t[z][u] + w + tree->d[other];
        cost[0] += far;
        if (far - tree->d[u] > cost[1])
            cost[1] = far - tree->d[u];
        if (far > cost[2])
            cost[2] = far;
    }
}

// Whether a candidate is better under measure k than the one taken before it, which has the lower number: it costs less, or as
// much and under rule 1 less by incr.
static int better(size_t rule, size_t k, const uint64_t cost[3], const uint64_t taken[3])
{
    return cost[k] < taken[k] || (rule == NEARER_FIRST && cost[k] == taken[k] && cost[1] < taken[1]);
}

// The entry of x, which is not the root. Beside it stand all costs of the candidate taken under each measure.
static void search(const struct network *net, const struct tree *tree, size_t x, uint64_t *entry)
{
    size_t below[NODES], size = 0;
    uint64_t taken[3][3] = {{0}};
    char inside[NODES];
    for (size_t i = 0; i < net->n; i++) {
        size_t u = tree->order[i];
        inside[u] = u == x || (u != net->root && inside[tree->up[u]]);
        if (inside[u])
            below[size++] = u;
    }
    for (size_t e = 0; e < net->m; e++) {
        struct link l = net->links[e];
        if (l.mark != 1 || e == net->parents[x] || inside[l.first] == inside[l.second])
            continue;
        size_t z = inside[l.first] ? l.first : l.second, other = inside[l.first] ? l.second : l.first;
        if (net->depth != MARK && tree->hops[z] - tree->hops[x] > net->depth) {
            if (entry[0] == BRIDGE)
                entry[0] = NONE;
            continue;
        }
        uint64_t cost[3];
        costs(tree, below, size, z, other, l.length, cost);
        for (size_t k = 0; k < 3; k++)
            if (entry[0] != SWAP || better(net->rule, k, cost, taken[k])) {
                memcpy(taken[k], cost, sizeof cost);
                entry[1 + k] = e;
                entry[4 + k] = cost[k];
                entry[7 + k] = inside[l.first] ? FIRST_END : SECOND_END;
            }
        entry[0] = SWAP;
    }
}

static int table(const struct network *net, uint64_t *entries)
{
    static struct tree tree;
    if (!good_records(net) || !grow(net, &tree) || !good_short(net, &tree))
        return 0;
    measure(net, &tree);
    for (size_t x = 0; x < net->n; x++) {
        uint64_t *entry = entries + x * ENTRY;
        memcpy(entry, (uint64_t[ENTRY]){x == net->root ? ROOT : BRIDGE, MARK, MARK, MARK}, ENTRY * sizeof *entry);
        if (x != net->root)
            search(net, &tree, x, entry);
    }
    return 1;
}
