/* Reads a medium of at most 65536 bytes from standard input; prints its log change by change, each line as `morning` prints it, with no list of
 * changes in memory; or the number of the refusal, 1 for more bytes.
 *
 * Exit status: 0 all is printed, a refusal too. 2 standard input or output failed, which is told on standard error; after a failed
 * read nothing is printed.
 *
 *   tools/build journal_archive
 *   cc -std=c99 -Wall -Wextra -I include examples/reader.c target/staticlib/libjournal_c.a -o target/reader_c
 */
#include <errno.h>
#include <inttypes.h>
#include <stdio.h>
#include <string.h>
#include "valve_journal.h"

enum { LONGEST = 16 * VJ_BLOCK_BYTES };
static uint8_t medium[LONGEST + 1];

/* A stream failed: the exit status. */
static int failed(const char *stream)
{
    fprintf(stderr, "reader: %s: %s\n", stream, strerror(errno));
    return 2;
}

/* All is printed: the exit status, once it is written. */
static int printed(void)
{
    return ferror(stdout) || fflush(stdout) != 0 ? failed("standard output") : 0;
}

static int refused(unsigned number)
{
    printf("refused %u\n", number);
    return printed();
}

int main(void)
{
    size_t length = fread(medium, 1, sizeof medium, stdin);
    if (ferror(stdin))
        return failed("standard input");
    if (length > LONGEST)
        return refused(VJ_REFUSED_LENGTH);
    VjPlace place = vj_reader(medium, length);
    if (place.number != VJ_ACCEPTED)
        return refused(place.number);
    for (;;) {
        VjChange change = vj_change(medium, length, place);
        if (!change.found)
            return printed();
        if (change.key < VJ_REMOVAL)
            printf("%" PRIu32 " %u %" PRIu64 "\n", change.group, (unsigned)change.key, change.word);
        else
            printf("%" PRIu32 " %u -\n", change.group, (unsigned)change.key - VJ_REMOVAL);
        place = change.next;
    }
}
