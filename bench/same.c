// The table, a change, the write and the read of a file by the algorithms of the crates: the same checks, the same survey, the
// same climbs. What C leaves out it leaves out: no read is tested, rows are filled only as far as there are nodes, and an entry
// is changed in place.
#include "common.h"

// What stands in the inner loop is put there by the compiler, and not called.
#define HOT static inline __attribute__((always_inline))

// What is known of a node (crates/survey).
struct known {
    uint64_t up, near, count, base, turn, deep, beside;
};

static uint64_t larger(uint64_t a, uint64_t b)
{
    return a < b ? b : a;
}

static size_t other_end(struct link l, size_t u)
{
    return l.first == u ? l.second : l.first;
}

// Refusals 1 to 7, but for 14.
static int good_records(const struct network *net)
{
    if (net->n == 0 || net->n > NODES || net->m > LINKS || net->root >= net->n || (net->depth > DEPTH && net->depth != MARK))
        return 0;
    int bad = 0;
    for (size_t e = 0; e < net->m; e++) {
        struct link l = net->links[e];
        bad |= (net->n <= l.first) | (net->n <= l.second) | (l.first == l.second) | (l.mark > 1);
    }
    if (bad)
        return 0;
    for (size_t u = 0; u < net->n; u++) {
        size_t e = net->parents[u];
        if (u == net->root) {
            if (e != MARK)
                return 0;
            continue;
        }
        if (net->m <= e)
            return 0;
        struct link l = net->links[e];
        if (l.mark != 1 || (l.first != u && l.second != u))
            return 0;
    }
    return 1;
}

// Refusal 8, and the nodes in an order with every parent before its children: each climbs to the first that has a seat, and
// those passed get their places from the last back.
static int in_order(const struct network *net, struct known *survey, uint16_t *order)
{
    uint16_t seats[NODES], path[NODES];
    size_t n = net->n, m = 1;
    memset(seats, 0, n * sizeof *seats);
    for (size_t u = 0; u < n; u++)
        survey[u].up = u == net->root ? u : other_end(net->links[net->parents[u]], u);
    order[0] = (uint16_t)net->root;
    seats[net->root] = 1;
    for (size_t u = 0; u < n; u++) {
        size_t k = 0, v = u;
        for (; k < n && seats[v] == 0; v = survey[v].up)
            path[k++] = (uint16_t)v;
        if (k == n)
            return 0;
        while (k > 0) {
            order[m] = path[--k];
            seats[path[k]] = (uint16_t)++m;
        }
    }
    return 1;
}

// What is known of every node, in that order and back.
static void fill(const struct network *net, struct known *survey, const uint16_t *order)
{
    size_t n = net->n;
    for (size_t i = 0; i < n; i++) {
        struct known *v = survey + order[i];
        v->near = i == 0 ? 0 : survey[v->up].near + net->links[net->parents[order[i]]].length;
        v->count = 1;
        v->base = v->deep = v->near;
        v->turn = v->beside = 0;
    }
    for (size_t i = n - 1; i > 0; i--) {
        const struct known *v = survey + order[i];
        struct known *p = survey + v->up;
        p->count += v->count;
        p->base += v->base;
        if (p->deep < v->deep) {
            p->beside = p->deep;
            p->deep = v->deep;
        } else {
            p->beside = larger(p->beside, v->deep);
        }
    }
    for (size_t i = n - 1; i > 0; i--) {
        struct known *v = survey + order[i];
        const struct known *p = survey + v->up;
        v->beside = v->deep == p->deep ? p->beside : p->deep;
    }
    survey[order[0]].beside = 0;
    for (size_t i = 1; i < n; i++) {
        struct known *v = survey + order[i];
        const struct known *p = survey + v->up;
        v->turn = p->turn + 2 * v->count * (v->near - p->near);
        v->base = v->base + v->turn - 2 * v->count * v->near;
    }
}

static int keeps_short(uint64_t p, uint64_t q, uint64_t w)
{
    return (p < q ? q - p : p - q) <= w;
}

// Refusals 1 to 9, but for 14, and the survey.
static int survey_network(const struct network *net, struct known *survey)
{
    uint16_t order[NODES];
    if (!good_records(net) || !in_order(net, survey, order))
        return 0;
    fill(net, survey, order);
    for (size_t e = 0; e < net->m; e++) {
        struct link l = net->links[e];
        if (l.mark == 1 && !keeps_short(survey[l.first].near, survey[l.second].near, l.length))
            return 0;
    }
    return 1;
}

// A climb from the lower end of a link: which end that is, what is known of it, and the largest tree distance from it to a node
// below where the climb is.
struct side {
    size_t node, hops;
    uint64_t lower, near, turn, reach;
};

HOT struct side begin_side(const struct known *survey, size_t z, uint64_t lower)
{
    return (struct side){z, 0, lower, survey[z].near, survey[z].turn, survey[z].deep - survey[z].near};
}

HOT struct side step_side(const struct known *survey, struct side s)
{
    const struct known *x = survey + s.node, *p = survey + x->up;
    uint64_t way = (s.near - p->near) + (x->beside - p->near);
    return (struct side){x->up, s.hops + 1, s.lower, s.near, s.turn, larger(s.reach, way)};
}

// What a swap link costs node x by incr: the way through it less twice the distance of x.
HOT uint64_t incr_of(const struct network *net, const struct known *survey, size_t x, uint64_t e)
{
    struct link l = net->links[e];
    return survey[l.first].near + l.length + survey[l.second].near - 2 * survey[x].near;
}

// Whether the swap link under measure k stays, where a candidate of a higher number costs no less by incr than the swap link under
// incr does: the candidate costs more; or as much, by rule 0 or where the two swap links are one.
HOT int stays(const uint64_t *entry, size_t k, uint64_t price, size_t rule)
{
    return price > entry[4 + k] || (price == entry[4 + k] && (rule != NEARER_FIRST || entry[1 + k] == entry[2]));
}

// The better of node x's swap link under measure k, where there is one yet, and a candidate of a higher number, kept in the entry.
// The candidate costs less; or as much and, by rule 1, less by incr: what the swap link costs by incr is looked up only then.
HOT void keep(const struct network *net, size_t rule, const struct known *survey, size_t x, uint64_t *entry, size_t k, int had,
    uint64_t e, uint64_t price, uint64_t incr, uint64_t lower)
{
    if (!had || price < entry[4 + k]
        || (price == entry[4 + k] && rule == NEARER_FIRST && incr < incr_of(net, survey, x, entry[1 + k]))) {
        entry[1 + k] = e;
        entry[4 + k] = price;
        entry[7 + k] = lower;
    }
}

// The rank of node x, were it asked for: how many nodes are below it, and its number.
enum { STEP = 65536 };

HOT uint32_t own_rank(const struct known *survey, size_t x)
{
    return (uint32_t)(survey[x].count * STEP + x + 1);
}

// Offers link e to the node where the climb is, where that node is asked for. Under incr both rules keep the same.
HOT void offer_at(const struct network *net, size_t rule, const struct known *survey, const uint32_t *ranks, uint64_t *entries,
    struct side s, size_t e, uint64_t k)
{
    if (ranks[s.node] % STEP != s.node + 1)
        return;
    const struct known *x = survey + s.node;
    uint64_t sum = x->base + x->count * k - s.turn, incr = k - 2 * x->near, max = s.reach + (k - s.near);
    uint64_t *entry = entries + s.node * ENTRY;
    int had = entry[0] == SWAP;
    if (had && incr >= entry[5] && stays(entry, 0, sum, rule) && stays(entry, 2, max, rule))
        return;
    if (net->depth != MARK && s.hops > net->depth) {
        if (!had)
            entry[0] = NONE;
        return;
    }
    entry[0] = SWAP;
    keep(net, rule, survey, s.node, entry, 0, had, e, sum, incr, s.lower);
    keep(net, LOWEST_NUMBER, survey, s.node, entry, 1, had, e, incr, incr, s.lower);
    keep(net, rule, survey, s.node, entry, 2, had, e, max, incr, s.lower);
}

// Offers link e to every node asked for that it crosses, by a climb from each end up to where both have the same rank. The one
// whose anchor has fewer nodes below it goes on.
static void offer_link(const struct network *net, size_t rule, const struct known *survey, const uint32_t *ranks,
    uint64_t *entries, size_t e)
{
    struct link l = net->links[e];
    if (l.mark != 1 || net->parents[l.first] == e || net->parents[l.second] == e || ranks[l.first] == ranks[l.second])
        return;
    uint64_t k = survey[l.first].near + l.length + survey[l.second].near;
    struct side a = begin_side(survey, l.first, FIRST_END), b = begin_side(survey, l.second, SECOND_END);
    while (ranks[a.node] != ranks[b.node]) {
        if (ranks[b.node] / STEP < ranks[a.node] / STEP) {
            offer_at(net, rule, survey, ranks, entries, b, e, k);
            b = step_side(survey, b);
        } else {
            offer_at(net, rule, survey, ranks, entries, a, e, k);
            a = step_side(survey, a);
        }
    }
}

// The entries of the nodes that are asked for, afresh.
static void refresh(const struct network *net, size_t rule, const struct known *survey, const uint32_t *ranks, uint64_t *entries)
{
    for (size_t x = 0; x < net->n; x++)
        if (ranks[x] % STEP == x + 1) {
            uint64_t *entry = entries + x * ENTRY;
            entry[0] = x == net->root ? ROOT : BRIDGE;
            entry[1] = entry[2] = entry[3] = MARK;
            entry[4] = entry[5] = entry[6] = entry[7] = entry[8] = entry[9] = 0;
        }
    for (size_t e = 0; e < net->m; e++)
        offer_link(net, rule, survey, ranks, entries, e);
}

// The table by a tie rule.
static int table_by(const struct network *net, size_t rule, uint64_t *entries)
{
    struct known survey[NODES];
    uint32_t ranks[NODES];
    if (!survey_network(net, survey))
        return 0;
    for (size_t x = 0; x < net->n; x++)
        ranks[x] = own_rank(survey, x);
    refresh(net, rule, survey, ranks, entries);
    return 1;
}

// Refusal 14.
static int good_rule(const struct network *net)
{
    return net->rule <= NEARER_FIRST;
}

static int table(const struct network *net, uint64_t *entries)
{
    return good_rule(net) && table_by(net, net->rule, entries);
}

// The nodes on the route of u are asked for where they were not, and no longer where they were.
static void flip_up(const struct known *survey, size_t root, uint8_t *asked, size_t u)
{
    for (; u != root; u = survey[u].up)
        asked[u] ^= 1;
    asked[u] ^= 1;
}

// The rank of every node: that of the first node of its route that is asked for, or the highest.
static void fill_ranks(const struct known *survey, size_t n, size_t root, const uint8_t *asked, uint32_t *ranks)
{
    for (size_t x = 0; x < n; x++)
        ranks[x] = asked[x] ? own_rank(survey, x) : x == root ? (uint32_t)MARK * STEP : 0;
    for (size_t u = 0; u < n; u++) {
        size_t c = u;
        while (ranks[c] == 0)
            c = survey[c].up;
        for (size_t v = u; ranks[v] == 0; v = survey[v].up)
            ranks[v] = ranks[c];
    }
}

static int change(struct network *net, uint64_t *entries, size_t e, unsigned mark, unsigned length)
{
    struct known survey[NODES];
    uint32_t ranks[NODES];
    uint8_t asked[NODES];
    if (!good_rule(net) || !survey_network(net, survey) || net->m <= e || mark > 1)
        return 0;
    for (size_t u = 0; u < net->n; u++)
        if (net->parents[u] == e)
            return 0;
    struct link *l = net->links + e;
    if (mark == 1 && !keeps_short(survey[l->first].near, survey[l->second].near, length))
        return 0;
    memset(asked, 0, net->n);
    flip_up(survey, net->root, asked, l->first);
    flip_up(survey, net->root, asked, l->second);
    fill_ranks(survey, net->n, net->root, asked, ranks);
    l->length = (uint16_t)length;
    l->mark = (uint16_t)mark;
    refresh(net, net->rule, survey, ranks, entries);
    return 1;
}

enum { HEADER_KIND = 0x48, LINKS_KIND = 0x4c, TABLE_KIND = 0x54, EDITION = 1, FRONT = 8 };
enum { LINK_BYTES = 8, ENTRY_BYTES = 28, LINKS_A_BLOCK = 63, ENTRIES_A_BLOCK = 18 };

static uint8_t *put(uint8_t *at, uint64_t number, size_t bytes)
{
    for (size_t i = bytes; i-- > 0; number >>= 8)
        at[i] = (uint8_t)number;
    return at + bytes;
}

static uint16_t two(const uint8_t *at)
{
    return (uint16_t)(at[0] << 8 | at[1]);
}

// RFC 1071 over a block, its bytes 6 and 7 taken as zero.
static uint16_t check_of(const uint8_t *block)
{
    uint32_t sum = 0;
    for (size_t i = 0; i < BLOCK; i += 2)
        sum += i == 6 ? 0 : two(block + i);
    sum = (sum & 0xffff) + (sum >> 16);
    sum = (sum & 0xffff) + (sum >> 16);
    return (uint16_t)~sum;
}

static void put_entry(uint8_t *at, uint16_t parent, const uint64_t *entry)
{
    at = put(at, parent, 2);
    at = put(at, entry[0], 1);
    at = put(at, 0, 1);
    for (size_t i = 1; i <= 3; i++)
        at = put(at, entry[i], 2);
    at = put(at, 0, 2);
    at = put(at, entry[4], 8);
    at = put(at, entry[5], 4);
    put(at, entry[6], 4);
}

// What block i of a file holds.
struct part {
    unsigned kind;
    size_t from, used;
};

static size_t blocks_for(size_t each, size_t c)
{
    return (c + each - 1) / each;
}

static size_t block_count(size_t n, size_t m)
{
    return 1 + blocks_for(LINKS_A_BLOCK, m) + blocks_for(ENTRIES_A_BLOCK, n);
}

static struct part part_of(unsigned kind, size_t each, size_t c, size_t j)
{
    size_t from = j * each, left = c - from;
    return (struct part){kind, from, left < each ? left : each};
}

static struct part part_at(size_t n, size_t m, size_t i)
{
    size_t before = blocks_for(LINKS_A_BLOCK, m);
    if (i == 0)
        return (struct part){HEADER_KIND, 0, 1};
    return i <= before ? part_of(LINKS_KIND, LINKS_A_BLOCK, m, i - 1) : part_of(TABLE_KIND, ENTRIES_A_BLOCK, n, i - 1 - before);
}

static void write_block(const struct network *net, const uint64_t *entries, size_t i, uint8_t *block)
{
    struct part part = part_at(net->n, net->m, i);
    uint8_t *at = block + FRONT;
    memset(block, 0, BLOCK);
    if (part.kind == HEADER_KIND) {
        at = put(at, net->n, 2);
        at = put(at, net->m, 2);
        at = put(at, net->root, 2);
        put(at, net->depth, 2);
    }
    for (size_t r = part.from; r < part.from + part.used; r++) {
        if (part.kind == LINKS_KIND) {
            struct link l = net->links[r];
            at = put(put(put(put(at, l.first, 2), l.second, 2), l.length, 2), l.mark, 2);
        } else if (part.kind == TABLE_KIND) {
            put_entry(at, net->parents[r], entries + r * ENTRY);
            at += ENTRY_BYTES;
        }
    }
    put(put(put(put(block, part.kind, 1), EDITION, 1), i, 2), part.used, 2);
    put(block + 6, check_of(block), 2);
}

// A file has the table of rule 0.
static size_t write_file(const struct network *net, uint8_t *file)
{
    static uint64_t entries[NODES * ENTRY];
    if (!table_by(net, LOWEST_NUMBER, entries))
        return 0;
    size_t count = block_count(net->n, net->m);
    for (size_t i = 0; i < count; i++)
        write_block(net, entries, i, file + i * BLOCK);
    return count * BLOCK;
}

// 21 and 22 of a block.
static int good_block(const uint8_t *block, size_t i, struct part part)
{
    if (two(block + 6) != check_of(block))
        return 0;
    if (block[0] != part.kind || block[1] != EDITION || two(block + 2) != i || two(block + 4) != part.used)
        return 0;
    size_t size = part.kind == HEADER_KIND ? 8 : part.kind == LINKS_KIND ? LINK_BYTES : ENTRY_BYTES;
    for (size_t at = FRONT + part.used * size; at < BLOCK; at++)
        if (block[at] != 0)
            return 0;
    for (size_t r = 0; part.kind == TABLE_KIND && r < part.used; r++) {
        const uint8_t *at = block + FRONT + r * ENTRY_BYTES;
        if (at[3] != 0 || at[10] != 0 || at[11] != 0)
            return 0;
    }
    return 1;
}

static int read_file(const uint8_t *file, size_t size, struct network *net, uint64_t *entries)
{
    static struct network own;
    static uint64_t row[NODES * ENTRY];
    if (size == 0 || size % BLOCK != 0 || !good_block(file, 0, (struct part){HEADER_KIND, 0, 1}))
        return 0;
    own.n = two(file + FRONT);
    own.m = two(file + FRONT + 2);
    own.root = two(file + FRONT + 4);
    own.depth = two(file + FRONT + 6);
    own.rule = LOWEST_NUMBER;
    if (own.n == 0 || own.n > NODES || own.m > LINKS || size != block_count(own.n, own.m) * BLOCK)
        return 0;
    for (size_t i = 0; i < size / BLOCK; i++) {
        struct part part = part_at(own.n, own.m, i);
        const uint8_t *at = file + i * BLOCK;
        if (!good_block(at, i, part))
            return 0;
        at += FRONT;
        for (size_t r = part.from; r < part.from + part.used; r++) {
            if (part.kind == LINKS_KIND) {
                own.links[r] = (struct link){two(at), two(at + 2), two(at + 4), two(at + 6)};
                at += LINK_BYTES;
            } else if (part.kind == TABLE_KIND) {
                own.parents[r] = two(at);
                at += ENTRY_BYTES;
            }
        }
    }
    if (!table_by(&own, own.rule, row))
        return 0;
    size_t before = 1 + blocks_for(LINKS_A_BLOCK, own.m);
    for (size_t x = 0; x < own.n; x++) {
        uint8_t stored[ENTRY_BYTES];
        put_entry(stored, own.parents[x], row + x * ENTRY);
        const uint8_t *at = file + (before + x / ENTRIES_A_BLOCK) * BLOCK + FRONT + x % ENTRIES_A_BLOCK * ENTRY_BYTES;
        if (memcmp(at, stored, ENTRY_BYTES) != 0)
            return 0;
    }
    *net = own;
    memcpy(entries, row, own.n * ENTRY * sizeof *row);
    return 1;
}
