/*
 * Doeragyeol: an archive of backup routes whose every answer is proved.
 *
 * Ten functions over numbers and lent rows, and the version. A row is a pointer and then how many numbers it has. Link with
 * libdoeragyeol.a (x86-64 Linux), which `rt lib` in crates/doeragyeol proves and writes to its folder out/. The library
 * calls nothing but memset, keeps nothing between calls, has no heap, and takes less than 100 KiB of stack, at most 2 KiB
 * for doeragyeol_distance (measured, not proved). Calls on rows of their own may run at the same time, and calls that only
 * read a row may share it.
 *
 * What each function promises is proved in crates/doeragyeol: for every content of the lent rows it ends, touches
 * nothing but them, and answers and leaves in them what is said here. What C must see to, since nothing can check it:
 *
 * - a pointer is aligned for its type and not null, also where the length is 0, and stands for as many numbers as its
 *   length says, all of them readable, and writable where the pointer is not const;
 * - a row that is written overlaps no other row of the call, and nobody else writes to a row during the call.
 *
 * Each function answers one word: 0, or the first refusal in the order that it names, whose number and place the two
 * functions below take out. Where a call takes a rule, 14 comes directly behind 4: its "1 to 9" is 1 to 4, 14, 5 to 9,
 * and its "1 to 10" goes on with 10. A row that is lent for values (sizes, told, size, header, way, distance) and is too
 * short for them is refused by 10, in 10's place in the order: behind 1 to 9, and before 15 to 17 and 24. On a refusal
 * nothing lent is changed. Otherwise a row gets what is said at its beginning, and the rest of it stays.
 *
 * The rows:
 *
 * - links: 4 numbers a link (two ends, length, service mark), at most 2,048 links. A rest that is no whole link does not
 *   count. A caller gives the row's length as 4 times the number of links.
 * - parents: one number a node, its parent link, and DOERAGYEOL_NO_LINK for the root; 1 to 512 nodes. The row's length
 *   is the number of nodes.
 * - entries: 10 numbers a node: its state, its swap link under sum, incr and max, the costs of these three, and for each of
 *   them which end is the lower, the one that is cut off with the node: DOERAGYEOL_FIRST_END or DOERAGYEOL_SECOND_END.
 *
 * The root is a node. The depth is 0 to 510, or DOERAGYEOL_WHOLE.
 *
 * The rule is the tie rule. Of the candidates that cost least under a measure it says which one is the swap link: by
 * DOERAGYEOL_LOWEST_NUMBER the one with the lowest number; by DOERAGYEOL_NEARER_FIRST the one with the lowest incr cost,
 * which raises the failed node's own distance least, and of those the one with the lowest number. Under incr both rules
 * take the same link. States, costs and the unprotected map are the same by both. A file of edition 1 means
 * DOERAGYEOL_LOWEST_NUMBER.
 */
#ifndef DOERAGYEOL_H
#define DOERAGYEOL_H

#include <stddef.h>
#include <stdint.h>

#ifdef __cplusplus
extern "C" {
#endif

/*
 * The version of this interface, which a change of it raises. The library has a function of its own for it, whose name ends
 * with the number; with GCC or Clang every file that includes this header refers to that name, so what was compiled for
 * another version does not link. Where the linker drops unused sections (--gc-sections) this takes a compiler that knows
 * `retain` (GCC 11, Clang 13). The header of version 2 had no `retain`: compile its callers anew.
 */
#define DOERAGYEOL_VERSION 6

uint32_t doeragyeol_version_6(void);

#if defined(__GNUC__)
#if defined(__has_attribute)
#if __has_attribute(retain)
__attribute__((retain))
#endif
#endif
__attribute__((used)) static uint32_t (*const doeragyeol_made_for)(void) = doeragyeol_version_6;
#endif

/* The limits, and how long the rows are that hold all that there can be. */
#define DOERAGYEOL_NODES 512
#define DOERAGYEOL_LINKS 2048
#define DOERAGYEOL_DEPTH 510
#define DOERAGYEOL_LINK_NUMBERS 4
#define DOERAGYEOL_ENTRY_NUMBERS 10
#define DOERAGYEOL_LINKS_ROW (DOERAGYEOL_LINKS * DOERAGYEOL_LINK_NUMBERS)
#define DOERAGYEOL_PARENTS_ROW DOERAGYEOL_NODES
#define DOERAGYEOL_ENTRIES_ROW (DOERAGYEOL_NODES * DOERAGYEOL_ENTRY_NUMBERS)
#define DOERAGYEOL_MAP_WORDS 8
#define DOERAGYEOL_FILE_BYTES 32256

/* How many numbers each of the forwarder's two rows must have: as many as a way to the root can have nodes. */
#define DOERAGYEOL_ROUTE_ROW (2 * DOERAGYEOL_NODES - 2)

/* How many values a call answers in a lent row. */
#define DOERAGYEOL_SIZES 2
#define DOERAGYEOL_TOLD 2
#define DOERAGYEOL_SIZE 1
#define DOERAGYEOL_HEADER 4
#define DOERAGYEOL_WAY 3
#define DOERAGYEOL_DISTANCE 1

/* Which row of the forwarder applies, the first value of way. */
#define DOERAGYEOL_ORDINARY 0
#define DOERAGYEOL_DETOUR 1

/* The depth that is the whole search, and no link and no node where one is named. */
#define DOERAGYEOL_WHOLE 65535
#define DOERAGYEOL_NO_LINK 65535
#define DOERAGYEOL_NO_NODE 65535

/* The tie rules. */
#define DOERAGYEOL_LOWEST_NUMBER 0
#define DOERAGYEOL_NEARER_FIRST 1

/* The service marks of a link. */
#define DOERAGYEOL_WITHDRAWN 0
#define DOERAGYEOL_SERVED 1

/* Where the numbers of a link stand in its record. */
#define DOERAGYEOL_LINK_FIRST 0
#define DOERAGYEOL_LINK_SECOND 1
#define DOERAGYEOL_LINK_LENGTH 2
#define DOERAGYEOL_LINK_MARK 3

/* Where the numbers of an entry stand in its record: the state, the swap links, their costs, and their lower ends. */
#define DOERAGYEOL_ENTRY_STATE 0
#define DOERAGYEOL_ENTRY_SUM 1
#define DOERAGYEOL_ENTRY_INCR 2
#define DOERAGYEOL_ENTRY_MAX 3
#define DOERAGYEOL_ENTRY_SUM_COST 4
#define DOERAGYEOL_ENTRY_INCR_COST 5
#define DOERAGYEOL_ENTRY_MAX_COST 6
#define DOERAGYEOL_ENTRY_SUM_LOWER 7
#define DOERAGYEOL_ENTRY_INCR_LOWER 8
#define DOERAGYEOL_ENTRY_MAX_LOWER 9

/*
 * The marks of a link's ends; each is also where that end stands in the link's record. A swap link is crossed from its
 * lower end, which is cut off with the node, to the other.
 */
#define DOERAGYEOL_FIRST_END 0
#define DOERAGYEOL_SECOND_END 1

/* The states of an entry. Only a swap has links, costs and marks; elsewhere they are DOERAGYEOL_NO_LINK, 0 and 0. */
#define DOERAGYEOL_STATE_ROOT 0
#define DOERAGYEOL_STATE_SWAP 1   /* the links to cross are named */
#define DOERAGYEOL_STATE_NONE 2   /* links cross, but none within the depth */
#define DOERAGYEOL_STATE_BRIDGE 3 /* nothing crosses */

/* The numbers of the refusals, 14 in its place in the order, and what the place names. */
#define DOERAGYEOL_DONE 0
#define DOERAGYEOL_NODE_COUNT 1    /* no node, or more than 512: place 0 */
#define DOERAGYEOL_LINK_COUNT 2    /* more than 2,048 links: place 0 */
#define DOERAGYEOL_BAD_ROOT 3      /* the root is no node: place 0 */
#define DOERAGYEOL_BAD_DEPTH 4     /* the depth is over 510 and not the whole search: place 0 */
#define DOERAGYEOL_BAD_RULE 14     /* the tie rule is not 0 or 1: place 0 */
#define DOERAGYEOL_BAD_ENDS 5      /* an end is no node, or both are equal: the link */
#define DOERAGYEOL_BAD_MARK 6      /* the service mark is not 0 or 1: the link */
#define DOERAGYEOL_BAD_PARENT 7    /* the parent link is none that the node can have: the node */
#define DOERAGYEOL_NO_ROUTE 8      /* no route to the root: the node */
#define DOERAGYEOL_NOT_SHORT 9     /* a link in service breaks shortness: the link */
#define DOERAGYEOL_NO_ROOM 10      /* a lent row is too short: place 0 */
#define DOERAGYEOL_LINK_MISSING 11 /* the changed link does not exist: place 0 */
#define DOERAGYEOL_TREE_LINK 12    /* the changed link is a parent link: the link */
#define DOERAGYEOL_BREAKS_SHORT 13 /* the change would break shortness: the link */
#define DOERAGYEOL_BAD_START 15    /* the start is no node: place 0 */
#define DOERAGYEOL_BAD_FAILED 16   /* the failed node is no node, or the root: place 0 */
#define DOERAGYEOL_NO_SWAP 17      /* the start is cut off, and the failed node has no swap link: the failed node */
#define DOERAGYEOL_BAD_LENGTH 20   /* the file's length is wrong: place 0 */
#define DOERAGYEOL_BAD_CHECK 21    /* the block's check is wrong: the block */
#define DOERAGYEOL_BAD_BLOCK 22    /* the block's kind, edition, number, used count or filler is wrong: the block */
#define DOERAGYEOL_BAD_ENTRY 24    /* the stored entry is not the one worked out: the node */

/* The number of the refusal that a word is, 0 where it is none. */
static inline uint32_t doeragyeol_number(uint32_t word)
{
    return word >> 16;
}

/* The place of the refusal that a word is. */
static inline uint32_t doeragyeol_place(uint32_t word)
{
    return word & 65535;
}

/*
 * Checks a network and its tree. sizes (room for 2) gets how many nodes and how many links there are. Refused by 1 to 9,
 * and then by 10 for the room: taken is exactly what is sound, with room.
 */
uint32_t doeragyeol_check(const uint16_t *links, size_t links_length, const uint16_t *parents, size_t parents_length,
                          uint16_t root, uint16_t depth, uint16_t rule, uint64_t *sizes, size_t sizes_length);

/*
 * The table of a network: the entry of each node, in node order, into entries (room for 10 a node). Refused by 1 to 10.
 */
uint32_t doeragyeol_table(const uint16_t *links, size_t links_length, const uint16_t *parents, size_t parents_length,
                          uint16_t root, uint16_t depth, uint16_t rule, uint64_t *entries, size_t entries_length);

/*
 * The unprotected map of a network: node x is in state none or bridge exactly where bit x mod 64 of word x div 64 is
 * set, into words (room for 8). told (room for 2) gets how many nodes are unprotected, and the lowest of them or
 * DOERAGYEOL_NO_NODE. It is the same by both rules; a rule that is neither is refused all the same. Refused by 1 to 10.
 */
uint32_t doeragyeol_map(const uint16_t *links, size_t links_length, const uint16_t *parents, size_t parents_length,
                        uint16_t root, uint16_t depth, uint16_t rule, uint64_t *words, size_t words_length, uint64_t *told,
                        size_t told_length);

/*
 * The change of one link outside the tree: the link gets this service mark and length in links, and the entries of the
 * nodes whose tree link lies on the tree path between the link's ends are worked out afresh in entries (room for 10 a
 * node); every other number of both rows stays. Where entries held the table of the network before, by this depth and
 * rule, it holds that of the network after. Refused by 1 to 10, 11, 6 at the changed link, 12 and 13.
 */
uint32_t doeragyeol_change(uint16_t *links, size_t links_length, const uint16_t *parents, size_t parents_length,
                           uint16_t root, uint16_t depth, uint16_t rule, uint64_t *entries, size_t entries_length,
                           uint16_t link, uint16_t mark, uint16_t length);

/*
 * The one file of a network and depth, into file; a file has at most DOERAGYEOL_FILE_BYTES bytes. size (room for 1) gets
 * how many it has. A file of edition 1 has the table by DOERAGYEOL_LOWEST_NUMBER, so no rule is taken. Refused by 1 to
 * 10, and never by 14.
 */
uint32_t doeragyeol_write(const uint16_t *links, size_t links_length, const uint16_t *parents, size_t parents_length,
                          uint16_t root, uint16_t depth, uint8_t *file, size_t file_length, uint64_t *size,
                          size_t size_length);

/*
 * The network, the depth and the table that a file holds: links (room for 4 a link), parents (room for 1 a node),
 * entries (room for 10 a node), and in header (room for 4) how many nodes and links there are, the root and the depth.
 * Taken is the one file of its network and depth and no other. A file of edition 1 names no rule and means
 * DOERAGYEOL_LOWEST_NUMBER: the entries are those that doeragyeol_table gives by it. It stores no marks of lower ends,
 * and the entries have them all the same. Rows of DOERAGYEOL_LINKS_ROW, DOERAGYEOL_PARENTS_ROW and
 * DOERAGYEOL_ENTRIES_ROW numbers hold what any file has. Refused by 20, by 21 and 22 of the header's block, by 1 to 4,
 * by 20 for the number of blocks, by 21 and 22 block by block, by 5 to 9, 10 and 24, and never by 14.
 */
uint32_t doeragyeol_read(const uint8_t *file, size_t file_length, uint16_t *links, size_t links_length,
                         uint16_t *parents, size_t parents_length, uint64_t *entries, size_t entries_length,
                         uint64_t *header, size_t header_length);

/*
 * The way from a start to the root while the tree link of a node has failed: its nodes in the order of passing, the
 * start first and the root last. Where the start is not cut off, that is its route, into ordinary; else the route up to
 * the failed node, down the tree to the lower end of the failed node's swap link, across that link, and by the route of
 * its other end, into detour. The swap link is the one that doeragyeol_table names by this depth and rule under the
 * measure in the function's name. way (room for 3) gets DOERAGYEOL_ORDINARY or DOERAGYEOL_DETOUR for the row that
 * applies, how many nodes are put there, and how long the way is, its steps added. The other row stays as it is. Either
 * row, ordinary or detour, is too short where it has fewer than DOERAGYEOL_ROUTE_ROW numbers, also where the way would
 * fit. Refused by 1 to 10, 15, 16 and 17.
 */
uint32_t doeragyeol_forward_sum(const uint16_t *links, size_t links_length, const uint16_t *parents,
                                size_t parents_length, uint16_t root, uint16_t depth, uint16_t rule, uint16_t start,
                                uint16_t failed, uint16_t *ordinary, size_t ordinary_length, uint16_t *detour,
                                size_t detour_length, uint64_t *way, size_t way_length);
uint32_t doeragyeol_forward_incr(const uint16_t *links, size_t links_length, const uint16_t *parents,
                                 size_t parents_length, uint16_t root, uint16_t depth, uint16_t rule, uint16_t start,
                                 uint16_t failed, uint16_t *ordinary, size_t ordinary_length, uint16_t *detour,
                                 size_t detour_length, uint64_t *way, size_t way_length);
uint32_t doeragyeol_forward_max(const uint16_t *links, size_t links_length, const uint16_t *parents,
                                size_t parents_length, uint16_t root, uint16_t depth, uint16_t rule, uint16_t start,
                                uint16_t failed, uint16_t *ordinary, size_t ordinary_length, uint16_t *detour,
                                size_t detour_length, uint64_t *way, size_t way_length);

/*
 * The length of the tree path between two nodes: from one of them up to where their two routes meet, and down to the
 * other. distance (room for 1) gets it. For a task with little stack: it takes at most DOERAGYEOL_DISTANCE_STACK bytes
 * with everything that it calls, the arguments that are passed on the stack and the return address among them, on the
 * longest path too (measured, not proved). It asks the tree alone, so there is no depth and no rule, and it does not
 * check the network: a node has a route where its parent links lead to the root. On a network that doeragyeol_check
 * takes every node has one, and no distance is over 33,488,385. Every number of the row of parents counts as a node, so
 * give its length as the number of nodes. Refused by 1, by 8 at from, by 8 at to (a node that does not exist has no
 * route), and by 10.
 */
#define DOERAGYEOL_DISTANCE_STACK 2048
uint32_t doeragyeol_distance(const uint16_t *links, size_t links_length, const uint16_t *parents, size_t parents_length,
                             uint16_t root, uint16_t from, uint16_t to, uint64_t *distance, size_t distance_length);

#ifdef __cplusplus
}
#endif

#endif
