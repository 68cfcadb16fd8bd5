// stack NETWORK..: prints how many bytes of stack each public call takes, in whole words of 8, as a table; paint.h says how they
// are measured. The number is the most over the networks, each lent as it is and in other ways, most of which are refused. A
// network is a file in the form that network.h describes, and sound.
#include "doeragyeol.h"
#include "network.h"
#include "paint.h"
#include "painted.h"

enum { BLOCK = 512, SURVEY = 7 * NODES };

// What a call is lent and given: a network, rows, a file and a block of it, nodes, and a change. Where room is 0, the rows
// besides the network's have none.
struct lent {
    uint16_t links[DOERAGYEOL_LINKS_ROW], parents[NODES + 1], root, depth, rule;
    size_t n, m, room, u, z;
    uint64_t entries[DOERAGYEOL_ENTRIES_ROW], marks[NODES], row[NODES], survey[SURVEY], words[DOERAGYEOL_MAP_WORDS], told[DOERAGYEOL_HEADER];
    size_t route[NODES];
    uint16_t start, failed, ordinary[DOERAGYEOL_ROUTE_ROW], detour[DOERAGYEOL_ROUTE_ROW];
    uint8_t file[DOERAGYEOL_FILE_BYTES], kind;
    size_t file_length, block;
    uint16_t number, used, link, mark, length;
};

#define LINKS_LENT l->links, l->m * DOERAGYEOL_LINK_NUMBERS
#define TREE LINKS_LENT, l->parents, l->n, l->root
#define NET TREE, l->depth
#define RULED NET, l->rule
#define ROW(row) l->row, l->room * (sizeof l->row / sizeof *l->row)
#define FRONT l->kind, l->number, l->used
#define BYTES l->file + l->block, l->room * BLOCK
#define STORED l->file, l->file_length, ROW(links), ROW(parents), ROW(entries)
#define CHANGE l->link, l->mark, l->length
#define DISTANCE l->told, l->room * DOERAGYEOL_DISTANCE
#define LIST l->start, l->failed, ROW(ordinary), ROW(detour)

// The calls by layers: what each is called, the function, and what it is given.
#define CALLS(CALL)                                                                                              \
    CALL("rows::wide_at", painted_wide_at, ROW(entries), l->u)                                                   \
    CALL("network::link_at", painted_link_at, LINKS_LENT, l->link)                                               \
    CALL("network::check_sizes", painted_check_sizes, l->n, l->m, l->root, l->depth)                             \
    CALL("network::check_ends", painted_check_ends, LINKS_LENT, l->n)                                            \
    CALL("network::check_marks", painted_check_marks, LINKS_LENT)                                                \
    CALL("network::check_parents", painted_check_parents, NET)                                                   \
    CALL("block::check_block", painted_check_block, FRONT, BYTES)                                                \
    CALL("block::payload", painted_payload, FRONT, BYTES)                                                        \
    CALL("block::seal", painted_seal, FRONT, BYTES)                                                              \
    CALL("tree::up", painted_up, NET, l->u)                                                                      \
    CALL("tree::rise", painted_rise, NET, l->u)                                                                  \
    CALL("tree::Climb::step", painted_step, NET, l->u)                                                           \
    CALL("tree::has_route", painted_has_route, NET, l->u)                                                        \
    CALL("tree::distances", painted_distances, NET, ROW(row))                                                    \
    CALL("tree::check_way", painted_check_way, NET, l->u)                                                        \
    CALL("tree::route", painted_route, NET, l->u, ROW(route))                                                    \
    CALL("tree::meet_of", painted_meet_of, NET, l->u, l->z)                                                      \
    CALL("tree::tree_distance", painted_tree_distance, NET, l->u, l->z)                                          \
    CALL("record::put_header", painted_put_header, BYTES, 0, l->number, l->used, l->root, l->depth)              \
    CALL("record::put_link", painted_put_link, BYTES, 0, l->number, l->used, l->length, l->mark)                 \
    CALL("record::put_entry", painted_put_entry, BYTES, 0, l->number, l->mark, l->link, l->length)               \
    CALL("survey::distances", painted_survey, NET, ROW(row))                                                     \
    CALL("survey::fill", painted_fill, NET, ROW(survey))                                                         \
    CALL("sound::survey_network", painted_survey_network, NET, ROW(survey))                                      \
    CALL("sound::check_network", painted_check_network, NET)                                                     \
    CALL("table::check_table", painted_check_table, NET, ROW(entries))                                           \
    CALL("table::refresh", painted_refresh, NET, ROW(marks), ROW(entries))                                       \
    CALL("table::table", painted_table, NET, ROW(entries))                                                       \
    CALL("table::check_entry", painted_check_entry, NET, l->u)                                                   \
    CALL("table::entry_of", painted_entry_of, NET, l->u)                                                         \
    CALL("archive::check_write", painted_check_write, NET, ROW(file))                                            \
    CALL("archive::write", painted_write, NET, ROW(file))                                                        \
    CALL("archive::check_read", painted_check_read, STORED)                                                      \
    CALL("archive::read", painted_read, STORED)                                                                  \
    CALL("change::check_change", painted_check_change, NET, ROW(entries), CHANGE)                                \
    CALL("change::change", painted_change, NET, ROW(entries), CHANGE)                                            \
    CALL("map::unprotected_map", painted_unprotected_map, NET, ROW(words))                                       \
    CALL("forward::fill", painted_forward_fill, NET, LIST)                                                       \
    CALL("forward::forward", painted_forward, NET, LIST)                                                         \
    CALL("doeragyeol_check", doeragyeol_check, RULED, ROW(told))                                                 \
    CALL("doeragyeol_table", doeragyeol_table, RULED, ROW(entries))                                              \
    CALL("doeragyeol_map", doeragyeol_map, RULED, ROW(words), ROW(told))                                         \
    CALL("doeragyeol_change", doeragyeol_change, RULED, ROW(entries), CHANGE)                                    \
    CALL("doeragyeol_write", doeragyeol_write, NET, ROW(file), ROW(told))                                        \
    CALL("doeragyeol_read", doeragyeol_read, STORED, ROW(told))                                                  \
    CALL("doeragyeol_forward_sum", doeragyeol_forward_sum, RULED, LIST, ROW(told))                               \
    CALL("doeragyeol_forward_incr", doeragyeol_forward_incr, RULED, LIST, ROW(told))                             \
    CALL("doeragyeol_forward_max", doeragyeol_forward_max, RULED, LIST, ROW(told))                               \
    CALL("doeragyeol_distance", doeragyeol_distance, TREE, l->start, (uint16_t)l->z, DISTANCE)

#define RUN(name, function, ...)                   \
    static uint64_t run_##function(struct lent *l) \
    {                                              \
        return function(__VA_ARGS__);              \
    }
CALLS(RUN)

#define NAMED(name, function, ...) {name, run_##function},
static const struct {
    const char *name;
    call *run;
} calls[] = {CALLS(NAMED)};

enum { COUNT = sizeof calls / sizeof *calls };

// How far down a call writes, lent the same on each paint.
static size_t reach(call *run, const struct lent *given)
{
    static struct lent lent;
    size_t deep = 0;
    for (size_t i = 0; i < PAINTS; i++) {
        lent = *given;
        deep = larger(deep, reading(run, &lent, paints[i]));
    }
    return deep;
}

// Block i of the file is the one asked for.
static void set_block(struct lent *l, size_t i)
{
    l->block = i * BLOCK;
    l->kind = l->file[l->block];
    l->number = word(l->file + l->block, 1);
    l->used = word(l->file + l->block, 2);
}

// The node that is the most steps below the root.
static size_t lowest(struct lent *l)
{
    size_t most = 0, found = l->root;
    for (size_t u = 0; u < l->n; u++) {
        size_t steps = 0;
        for (size_t c = u; c != l->root; c = painted_up(NET, c))
            steps++;
        if (most < steps) {
            most = steps;
            found = u;
        }
    }
    return found;
}

// The node on the route of u whose parent is the root; u where that is the root.
static size_t topmost(struct lent *l, size_t u)
{
    size_t c = u;
    while (c != l->root && painted_up(NET, c) != l->root)
        c = painted_up(NET, c);
    return c;
}

// The first link outside the tree, or the last of all.
static size_t spare(const struct network *net)
{
    size_t e = 0;
    while (e + 1 < net->m && (net->parents[net->links[e].first] == e || net->parents[net->links[e].second] == e))
        e++;
    return e;
}

// Lends a network: its rows, its tie rule, its table, its file with the last block, its lowest node twice, which is cut off by the
// failure of the topmost one above it, and a change of a link outside the tree to what it is. Answers 0 where the network is
// refused.
static int lend(struct lent *l, const struct network *net)
{
    *l = (struct lent){.n = net->n, .m = net->m, .root = (uint16_t)net->root, .depth = (uint16_t)net->depth, .room = 1};
    l->rule = (uint16_t)net->rule;
    memcpy(l->links, net->links, net->m * sizeof *net->links);
    memcpy(l->parents, net->parents, net->n * sizeof *net->parents);
    for (size_t u = 0; u < NODES; u++)
        l->marks[u] = 1;
    if (doeragyeol_table(RULED, ROW(entries)) != DOERAGYEOL_DONE)
        return 0;
    if (doeragyeol_write(NET, ROW(file), ROW(told)) != DOERAGYEOL_DONE)
        return 0;
    l->file_length = l->told[0];
    set_block(l, l->file_length / BLOCK - 1);
    l->u = l->z = lowest(l);
    l->start = (uint16_t)l->u;
    l->failed = (uint16_t)topmost(l, l->u);
    l->link = (uint16_t)spare(net);
    l->mark = net->links[l->link].mark;
    l->length = net->links[l->link].length;
    return 1;
}

static void as_it_is(struct lent *l)
{
    (void)l;
}

static void one_deep(struct lent *l)
{
    l->depth = 1;
}

static void nearer_first(struct lent *l)
{
    l->rule = DOERAGYEOL_NEARER_FIRST;
}

static void no_rule(struct lent *l)
{
    l->rule = DOERAGYEOL_NEARER_FIRST + 1;
}

static void at_the_root(struct lent *l)
{
    l->u = l->root;
    l->start = l->root;
}

static void no_node(struct lent *l)
{
    l->u = l->n;
    l->start = (uint16_t)l->n;
}

static void too_many_nodes(struct lent *l)
{
    l->n = NODES + 1;
}

// The first link that does not touch the root becomes the parent link of both its ends.
static void cycle(struct lent *l)
{
    for (size_t e = 0; e < l->m; e++) {
        const uint16_t *link = l->links + e * DOERAGYEOL_LINK_NUMBERS;
        uint16_t p = link[DOERAGYEOL_LINK_FIRST], q = link[DOERAGYEOL_LINK_SECOND];
        if (p != l->root && q != l->root) {
            l->parents[p] = l->parents[q] = (uint16_t)e;
            return;
        }
    }
}

static void no_room(struct lent *l)
{
    l->room = 0;
}

static void first_block(struct lent *l)
{
    set_block(l, 0);
}

static void second_block(struct lent *l)
{
    set_block(l, 1);
}

static void damaged(struct lent *l)
{
    l->file[l->file_length - 1] ^= 1;
}

static void tree_link(struct lent *l)
{
    l->link = l->parents[l->u];
}

static void out_of_service(struct lent *l)
{
    l->mark = DOERAGYEOL_WITHDRAWN;
}

static void no_length(struct lent *l)
{
    l->length = 0;
}

// The ways in which a network is lent.
static void (*const ways[])(struct lent *) = {as_it_is, one_deep, nearer_first, no_rule, at_the_root, no_node, too_many_nodes,
    cycle, no_room, first_block, second_block, damaged, tree_link, out_of_service, no_length};

// How far each call reaches on a network, where that is more than on those before.
static void measure(const struct lent *given, size_t *most)
{
    static struct lent changed;
    for (size_t i = 0; i < sizeof ways / sizeof *ways; i++) {
        changed = *given;
        ways[i](&changed);
        for (size_t j = 0; j < COUNT; j++)
            most[j] = larger(most[j], reach(calls[j].run, &changed));
    }
}

static void load(const char *name, struct lent *given)
{
    static struct network net;
    size_t times, job;
    FILE *file = fopen(name, "rb");
    if (file == NULL || !read_network(file, &net, &times, &job))
        fail(name, "it is no network");
    fclose(file);
    if (!lend(given, &net))
        fail(name, "it is refused");
}

int main(int count, char **words)
{
    static struct lent given;
    size_t most[COUNT] = {0}, none = own_reach();
    if (count < 2)
        return 2;
    for (int i = 1; i < count; i++) {
        load(words[i], &given);
        measure(&given, most);
    }
    puts("| call | bytes |\n|---|---|");
    for (size_t i = 0; i < COUNT; i++)
        printf("| `%s` | %zu |\n", calls[i].name, most[i] - none);
    return fflush(stdout) == 0 ? 0 : 1;
}
