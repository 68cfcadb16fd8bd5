// distances BYTES <CASES: asks doeragyeol_distance what cases of the probe's op 102 ask, and prints for each the line that the
// probe prints; docs/OPS.md has the form of both. Into the file BYTES goes how many bytes of stack a case takes at most, in whole
// words of 8; paint.h says how they are measured. Ends with 1 and says why where the input is not whole cases of this op, where
// an answer depends on the paint, where a case without room for the distance is not refused as it should be, where something lent
// is changed but for the number that gets the distance, or where what it prints cannot be written.
#include "doeragyeol.h"
#include "paint.h"

enum { OP = 102, HEAD = 12, PARENTS = 600, LINKS = 8400, ROOM = 3, BEHIND = 1 };

// What the call is lent and given: rows and how many numbers of each, the root, two nodes.
struct lent {
    uint16_t links[LINKS], parents[PARENTS], root, from, to;
    size_t links_length, parents_length, room;
    uint64_t distance[ROOM + BEHIND];
};

// What the call tells: its word, and the distance where that is no refusal.
struct told {
    uint32_t word;
    uint64_t distance;
};

static uint64_t ask(struct lent *l)
{
    return doeragyeol_distance(l->links, l->links_length, l->parents, l->parents_length, l->root, l->from, l->to, l->distance,
        l->room);
}

// Reads words, high byte first.
static void read_words(uint16_t *row, size_t count)
{
    for (size_t i = 0; i < count; i++) {
        int high = getchar(), low = getchar();
        if (low == EOF)
            fail("the input", "it ends inside a case");
        row[i] = (uint16_t)(high << 8 | low);
    }
}

// Reads a case. Answers 0 at the end of the input.
static int read_case(struct lent *l)
{
    uint16_t head[HEAD];
    int first = getchar();
    if (ferror(stdin))
        fail("the input", "it cannot be read");
    if (first == EOF)
        return 0;
    ungetc(first, stdin);
    read_words(head, HEAD);
    l->parents_length = head[1];
    l->links_length = (size_t)head[2] << 16 | head[3];
    if (head[0] != OP || l->parents_length > PARENTS || l->links_length > LINKS)
        fail("the input", "it has what is no case of op 102");
    l->root = head[6];
    l->from = head[8];
    l->to = head[9];
    read_words(l->parents, l->parents_length);
    read_words(l->links, l->links_length);
    return 1;
}

// Runs a case on one paint: what the call tells, and how far down it writes. The row for the distance has this room and is full of
// the paint's number, so that a distance that is not told shows.
static size_t run_case(const struct lent *given, size_t room, uint8_t paint, struct told *told)
{
    static struct lent before, lent;
    memcpy(&before, given, sizeof before);
    before.room = room;
    for (size_t i = 0; i < ROOM + BEHIND; i++)
        before.distance[i] = paint;
    memcpy(&lent, &before, sizeof lent);
    size_t deep = reading(ask, &lent, paint);
    told->word = (uint32_t)answer;
    told->distance = 0;
    if (told->word == DOERAGYEOL_DONE) {
        told->distance = lent.distance[0];
        lent.distance[0] = paint;
    }
    if (memcmp(&lent, &before, sizeof lent) != 0)
        fail("a case", "something lent is changed");
    return deep;
}

static void print_told(const struct told *told)
{
    if (told->word == DOERAGYEOL_DONE)
        printf("distance ok %llu\n", (unsigned long long)told->distance);
    else
        printf("distance refused %u %u\n", (unsigned)doeragyeol_number(told->word), (unsigned)doeragyeol_place(told->word));
}

// Runs a case without room for the distance: it is refused as it was with room, and else by 10. Answers how far down it writes.
static size_t run_short(const struct lent *given, uint8_t paint, const struct told *told)
{
    struct told none;
    size_t deep = run_case(given, 0, paint, &none);
    uint32_t no_room = (uint32_t)DOERAGYEOL_NO_ROOM << 16;
    if (none.word != (told->word == DOERAGYEOL_DONE ? no_room : told->word))
        fail("a case", "without room it is refused otherwise");
    return deep;
}

// Runs a case on both paints, once with just the room for the distance and once with more, and on both without; and prints what it
// tells. Answers how far down it writes.
static size_t reach(const struct lent *given)
{
    struct told told, again;
    size_t deep = run_case(given, DOERAGYEOL_DISTANCE, paints[0], &told);
    deep = larger(deep, run_case(given, ROOM, paints[1], &again));
    if (told.word != again.word || told.distance != again.distance)
        fail("a case", "its answer depends on the paint");
    for (size_t i = 0; i < PAINTS; i++)
        deep = larger(deep, run_short(given, paints[i], &told));
    print_told(&told);
    return deep;
}

int main(int count, char **words)
{
    static struct lent given;
    size_t none = own_reach(), most = none;
    if (count != 2) {
        fprintf(stderr, "usage: distances BYTES <CASES\n");
        return 2;
    }
    while (read_case(&given))
        most = larger(most, reach(&given));
    if (fflush(stdout) != 0 || ferror(stdout))
        fail("standard output", "it cannot be written");
    FILE *bytes = fopen(words[1], "w");
    if (bytes == NULL || fprintf(bytes, "%zu\n", most - none) < 0 || fclose(bytes) != 0)
        fail(words[1], "it cannot be written");
    return 0;
}
