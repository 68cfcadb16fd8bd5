/*
 * What the example programs share: rows with room for what any stored file has, a file loaded into them, and how a program
 * ends. A file or a call that is refused prints `FILE: refused N P` on standard error and ends with 1; a file that cannot be
 * read, or lines that cannot be printed, end with 2.
 */
#ifndef FILED_H
#define FILED_H

#include "doeragyeol.h"

#include <signal.h>
#include <stdio.h>

/* Room for what any file has, and for one byte more, by which a longer file is seen. */
static uint8_t file[DOERAGYEOL_FILE_BYTES + 1];
static uint16_t links[DOERAGYEOL_LINKS_ROW];
static uint16_t parents[DOERAGYEOL_PARENTS_ROW];
static uint64_t entries[DOERAGYEOL_ENTRIES_ROW];
static uint64_t header[DOERAGYEOL_HEADER];

/* Done first: a line that cannot be printed since nobody reads it any more is an error like others, and no end by a signal. */
static void outlive_pipes(void)
{
    signal(SIGPIPE, SIG_IGN);
}

/* Reads a file, or its first bytes where it has more than any stored file. Answers 0 where it can be read. */
static int read_file(const char *name, size_t *length)
{
    FILE *from = fopen(name, "rb");
    if (from == NULL)
        return -1;
    *length = fread(file, 1, sizeof file, from);
    int bad = ferror(from);
    fclose(from);
    return bad ? -1 : 0;
}

/* How the program ends by the word of a call on a file: 0, or 1 where it is refused, which is said. */
static int said(const char *name, uint32_t word)
{
    if (word == DOERAGYEOL_DONE)
        return 0;
    fprintf(stderr, "%s: refused %u %u\n", name, (unsigned)doeragyeol_number(word), (unsigned)doeragyeol_place(word));
    return 1;
}

/* Loads a file into the rows. Answers 0, or how the program ends where that cannot be, which is said. */
static int load_file(const char *name)
{
    size_t length = 0;
    if (read_file(name, &length) != 0) {
        fprintf(stderr, "%s: cannot be read\n", name);
        return 2;
    }
    return said(name, doeragyeol_read(file, length, links, DOERAGYEOL_LINKS_ROW, parents, DOERAGYEOL_PARENTS_ROW, entries,
                                      DOERAGYEOL_ENTRIES_ROW, header, DOERAGYEOL_HEADER));
}

/* How the program ends by what it printed: 0, or 2 where that cannot be written, which is said. */
static int printed(void)
{
    if (fflush(stdout) == 0 && !ferror(stdout))
        return 0;
    fprintf(stderr, "standard output: cannot be written\n");
    return 2;
}

#endif
